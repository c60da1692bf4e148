//! Gates that are wrong about the wire version in one way each.

use super::answer_as_read;
use wegbaro_tests::gate::{Answer, Call, Gate, Lent, RECORD};
use wegbaro_tests::networks::MOST_RULES;
use wegbaro_tests::records::{same_rule, with, Record, VERSIONS};
use wegbaro_tests::second::Second;

/// Version 1 is the old one.
#[derive(Clone, Copy, Debug, PartialEq, Eq)]
pub enum VersionVice {
    TakesNoneForOld,
    TakesNewForOld,
    TakesOldForNew,
    TakesVersion2,
    RefusesOld,
    CallsItAWidth,
    LooksAtItBeforeTheWidths,
    NamesIt,
    ForgetsIt,
    AddsASecondRule,
    AddsAModify,
    AddsBeforeTheRules,
    AddsUncounted,
    AddsUnjudged,
    OverlooksAFullTable,
    SaysFullOfPresentRules,
    SaysFullInNew,
    LooksForRoomBeforeGroups,
}

pub const VERSION_VICES: [VersionVice; 18] = [
    VersionVice::TakesNoneForOld,
    VersionVice::TakesNewForOld,
    VersionVice::TakesOldForNew,
    VersionVice::TakesVersion2,
    VersionVice::RefusesOld,
    VersionVice::CallsItAWidth,
    VersionVice::LooksAtItBeforeTheWidths,
    VersionVice::NamesIt,
    VersionVice::ForgetsIt,
    VersionVice::AddsASecondRule,
    VersionVice::AddsAModify,
    VersionVice::AddsBeforeTheRules,
    VersionVice::AddsUncounted,
    VersionVice::AddsUnjudged,
    VersionVice::OverlooksAFullTable,
    VersionVice::SaysFullOfPresentRules,
    VersionVice::SaysFullInNew,
    VersionVice::LooksForRoomBeforeGroups,
];

/// A gate with a vice, if any, else as the second implementation.
pub struct Outdated(pub Option<VersionVice>);

impl Gate for Outdated {
    fn answer(&self, call: &Call, lent: &mut Lent) -> Answer {
        let version = lent.store.get(4).copied().unwrap_or_default();
        let modify = Modify::of(call, lent);
        let answer = answer_as_read(call, lent, self.read(&lent.store));
        if let Answer::Forwarded { .. } = answer {
            lent.store[4] = self.left(version);
        }
        match modify {
            Some(modify) => self.spoil(lent, &modify, answer),
            None => self.refused(version, answer),
        }
    }
}

/// A modify, and the table that it finds.
struct Modify {
    given: Record,
    is_old: bool,
    is_present: bool,
    is_full: bool,
}

impl Modify {
    fn of(call: &Call, lent: &Lent) -> Option<Modify> {
        let Call::Command(given) = call else { return None };
        let given: Record = given[..].try_into().ok()?;
        let mut rules = lent.records().to_vec();
        rules.retain(|record| record[0] == 4);
        (given[0] == 7).then(|| Modify {
            given,
            is_old: lent.store.get(4) == Some(&1),
            is_present: rules.iter().any(|rule| same_rule(rule, &given)),
            is_full: rules.len() == MOST_RULES,
        })
    }
}

impl Outdated {
    /// The store with the version as it is read.
    fn read(&self, store: &[u8]) -> Vec<u8> {
        let mut read = store.to_vec();
        if let Some(version) = read.get_mut(4) {
            *version = match (self.0, *version) {
                (Some(VersionVice::TakesNoneForOld), 0)
                | (Some(VersionVice::TakesNewForOld), 4) => 1,
                (Some(VersionVice::TakesOldForNew), 1) | (Some(VersionVice::TakesVersion2), 2) => 4,
                (Some(VersionVice::RefusesOld), 1) => 2,
                (_, version) => version,
            };
        }
        read
    }

    /// The version that a forwarded command leaves.
    fn left(&self, version: u8) -> u8 {
        match (self.0, version) {
            (Some(VersionVice::NamesIt), 0) => 4,
            (Some(VersionVice::ForgetsIt), _) => 0,
            _ => version,
        }
    }

    /// What is answered in place of a refusal of the widths record.
    fn refused(&self, version: u8, answer: Answer) -> Answer {
        let by = |number: usize| Answer::Refused { number, place: 0 };
        match self.0 {
            _ if VERSIONS.contains(&version) => answer,
            Some(VersionVice::CallsItAWidth) if answer == by(5) => by(4),
            Some(VersionVice::LooksAtItBeforeTheWidths) if answer == by(4) => by(5),
            _ => answer,
        }
    }

    /// What becomes of the answer to a modify, and of its store.
    fn spoil(&self, lent: &mut Lent, modify: &Modify, answer: Answer) -> Answer {
        use Answer::{Blocked, Forwarded, Refused};
        let Modify { given, is_old, is_present, is_full } = *modify;
        let Lent { store, n, .. } = lent;
        let full = Refused { number: 13, place: 0 };
        match (self.0, answer) {
            (Some(VersionVice::AddsASecondRule), Forwarded { .. }) if is_old && is_present => {
                insert(store, *n, with(given, 0, 4))
            }
            (Some(VersionVice::AddsAModify), Forwarded { count }) if count > *n => {
                let last = last_rule(store, count);
                store[last] = 7;
                answer
            }
            (Some(VersionVice::AddsBeforeTheRules), Forwarded { count }) if count > *n => {
                let end = last_rule(store, count) + RECORD;
                let misses = records_of(store, count).iter().filter(|record| record[0] < 4).count();
                store[misses * RECORD..end].rotate_right(RECORD);
                answer
            }
            (Some(VersionVice::AddsUncounted), Forwarded { .. }) => Forwarded { count: *n },
            (Some(VersionVice::AddsUnjudged), Blocked { .. }) if is_old && !is_present => {
                insert(store, *n, with(given, 0, 4))
            }
            (Some(VersionVice::OverlooksAFullTable), Refused { number: 13, .. }) => {
                lent.store[4] = 4;
                let answer = Second.answer(&Call::Command(given.to_vec()), lent);
                lent.store[4] = 1;
                answer
            }
            (Some(VersionVice::SaysFullOfPresentRules), Forwarded { .. } | Blocked { .. })
                if is_old && is_present && is_full =>
            {
                full
            }
            (Some(VersionVice::SaysFullInNew), Forwarded { .. } | Blocked { .. })
                if !is_old && !is_present && is_full =>
            {
                full
            }
            (Some(VersionVice::LooksForRoomBeforeGroups), Refused { number: 16, .. })
                if is_old && !is_present && is_full =>
            {
                full
            }
            _ => answer,
        }
    }
}

fn records_of(store: &[u8], count: usize) -> &[Record] {
    &store.as_chunks::<RECORD>().0[..count]
}

/// The first byte of the last rule, or of the last miss if there is none.
fn last_rule(store: &[u8], count: usize) -> usize {
    let last = records_of(store, count).iter().rposition(|record| record[0] <= 4);
    RECORD * last.expect("a miss")
}

/// Puts a rule behind the last one.
fn insert(store: &mut [u8], n: usize, rule: Record) -> Answer {
    let place = last_rule(store, n) + RECORD;
    store.copy_within(place..n * RECORD, place + RECORD);
    store[place..place + RECORD].copy_from_slice(&rule);
    Answer::Forwarded { count: n + 1 }
}
