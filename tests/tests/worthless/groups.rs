//! Gates that read groups wrong in one way each.

use super::answer_as_read;
use wegbaro_tests::gate::{Answer, Call, Gate, Lent, RECORD};
use wegbaro_tests::records::{groups_at, same_rule, Record, IN_PORT};
use wegbaro_tests::second::Second;

#[derive(Clone, Copy, Debug, PartialEq, Eq)]
pub enum GroupVice {
    TakesOwnGroups,
    TakesHigherGroups,
    TakesSeventeen,
    TakesAbsentOnesInMisses,
    TakesAbsentOnesInRules,
    TakesThoseOfOtherSwitches,
    TakesAbsentOnesInModifies,
    OverlooksFaultyOnes,
    CallsTheirFaultsFields,
    RefusesThemAtTheEnd,
    LooksForRoomFirst,
}

pub const GROUP_VICES: [GroupVice; 11] = [
    GroupVice::TakesOwnGroups,
    GroupVice::TakesHigherGroups,
    GroupVice::TakesSeventeen,
    GroupVice::TakesAbsentOnesInMisses,
    GroupVice::TakesAbsentOnesInRules,
    GroupVice::TakesThoseOfOtherSwitches,
    GroupVice::TakesAbsentOnesInModifies,
    GroupVice::OverlooksFaultyOnes,
    GroupVice::CallsTheirFaultsFields,
    GroupVice::RefusesThemAtTheEnd,
    GroupVice::LooksForRoomFirst,
];

/// A gate with a vice, else as the second implementation.
pub struct Lax(pub GroupVice);

impl Gate for Lax {
    fn answer(&self, call: &Call, lent: &mut Lent) -> Answer {
        if self.refuses(call) {
            return Answer::Refused { number: 12, place: 0 };
        }
        let answer = answer_as_read(call, lent, self.read(lent));
        match (answer, call) {
            (Answer::Refused { number: 16, place: 0 }, Call::Command(given)) => {
                self.commanded(given, lent)
            }
            (Answer::Refused { number: 16, place }, _) => self.refused(call, lent, place),
            _ => answer,
        }
    }
}

impl Lax {
    /// Whether a call is refused at once.
    fn refuses(&self, call: &Call) -> bool {
        let ends = matches!(call, Call::Command(given) if ends_in_group(given));
        self.0 == GroupVice::RefusesThemAtTheEnd && ends
    }

    /// What is answered if row 16 refuses a record.
    fn refused(&self, call: &Call, lent: &mut Lent, place: usize) -> Answer {
        let records = lent.records();
        let number = match self.0 {
            GroupVice::CallsTheirFaultsFields if records[place][0] == 9 => 5,
            _ => 16,
        };
        match self.0 {
            GroupVice::TakesSeventeen if is_seventeenth(records, place) => {
                self.answer_without(call, lent, place)
            }
            GroupVice::OverlooksFaultyOnes => {
                Answer::Refused { number, place: first_to_run(records, place).unwrap_or(place) }
            }
            _ => Answer::Refused { number, place },
        }
    }

    /// The answer on a store without a record.
    fn answer_without(&self, call: &Call, lent: &mut Lent, place: usize) -> Answer {
        let mut fewer = Lent { n: lent.n - 1, ..lent.clone() };
        fewer.store.drain(place * RECORD..(place + 1) * RECORD);
        fewer.store.extend([0; RECORD]);
        let answer = self.answer(call, &mut fewer);
        *lent = Lent { store: lent.store.clone(), n: lent.n, ..fewer };
        answer
    }

    /// What is answered if row 16 refuses a command.
    fn commanded(&self, given: &[u8], lent: &mut Lent) -> Answer {
        let mut command: Record = given.try_into().unwrap();
        let mut rules = lent.records().to_vec();
        rules.retain(|record| record[0] == 4);
        let is_present = rules.iter().any(|rule| same_rule(rule, &command));
        match (self.0, command[0]) {
            (GroupVice::LooksForRoomFirst, 6) if !is_present && rules.len() == 256 => {
                Answer::Refused { number: 13, place: 0 }
            }
            (GroupVice::TakesAbsentOnesInModifies, 7) if !is_present => {
                return_in_place_of_groups(&mut command, |_| true);
                Second.answer(&Call::Command(command.to_vec()), lent)
            }
            _ => Answer::Refused { number: 16, place: 0 },
        }
    }

    /// The store with its records as they are read.
    fn read(&self, lent: &Lent) -> Vec<u8> {
        let records = lent.records();
        let mut read = records.to_vec();
        for record in &mut read {
            self.read_record(records, record);
        }
        [read.as_flattened(), &lent.store[read.len() * RECORD..]].concat()
    }

    fn read_record(&self, records: &[Record], record: &mut Record) {
        let [kind, switch, number, ..] = *record;
        let is_absent = |run: u8| !groups_at(records, switch).contains(&run);
        let is_elsewhere =
            |run: u8| (0..16).any(|switch| groups_at(records, switch).contains(&run));
        match (self.0, kind) {
            (GroupVice::TakesOwnGroups, 9) => drop_in_place(record, |to| to == number),
            (GroupVice::TakesHigherGroups, 9) => {
                drop_in_place(record, |to| to > number && !is_absent(to));
            }
            (GroupVice::TakesAbsentOnesInMisses, 3) => return_in_place_of_groups(record, is_absent),
            (GroupVice::TakesAbsentOnesInRules, 4) => return_in_place_of_groups(record, is_absent),
            (GroupVice::TakesThoseOfOtherSwitches, 3 | 4) => {
                return_in_place_of_groups(record, |run| is_absent(run) && is_elsewhere(run));
            }
            _ => {}
        }
    }
}

/// Drops what the buckets of a group would send on to such groups.
fn drop_in_place(group: &mut Record, is_such: impl Fn(u8) -> bool) {
    for bucket in group[9..21].chunks_exact_mut(4).filter(|bucket| bucket[2] == 2) {
        if is_such(bucket[3]) {
            bucket[2..].copy_from_slice(&[1, 0]);
        }
    }
}

/// Puts IN_PORT in the place of such groups, where nothing else is wrong with the action.
fn return_in_place_of_groups(record: &mut Record, is_such: impl Fn(u8) -> bool) {
    let runs = |action: &&mut [u8]| action[0] == 4 && action[1] < 16 && action[2] == 0;
    for action in record[9..21].chunks_exact_mut(3).filter(runs) {
        if is_such(action[1]) {
            action.copy_from_slice(&IN_PORT);
        }
    }
}

/// Whether a record is a group behind sixteen others.
fn is_seventeenth(records: &[Record], place: usize) -> bool {
    records[..=place].iter().filter(|record| record[0] == 9).count() == 17 && records[place][0] == 9
}

/// The first record that runs the group at a place.
fn first_to_run(records: &[Record], place: usize) -> Option<usize> {
    let [_, switch, number, ..] = records[place];
    let runs = |record: &Record| {
        let mut actions = record[9..21].chunks_exact(3);
        record[1] == switch && actions.any(|action| action == [4, number, 0])
    };
    records[..place].iter().position(|record| matches!(record[0], 3 | 4) && runs(record))
}

/// Whether the last action of a command runs a group.
fn ends_in_group(given: &[u8]) -> bool {
    let count = given.get(8).map_or(0, |count| usize::from(*count));
    (1..=4).contains(&count) && given.get(6 + 3 * count) == Some(&4)
}
