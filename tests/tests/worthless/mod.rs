//! Gates that are wrong in one way each, to see that cases and comparisons notice.

pub mod buckets;
pub mod choices;
pub mod groups;
pub mod routes;
pub mod steps;
pub mod versions;

use std::cell::{Cell, RefCell};
use std::fmt::Debug;
use wegbaro_tests::cases::Case;
use wegbaro_tests::gate::{Answer, Call, Gate, Lent, RECORD, STORE};
use wegbaro_tests::random::Random;
use wegbaro_tests::records::IN_PORT;
use wegbaro_tests::second::Second;

/// Gates with vices, tried all at once: each is dropped at the first call to which it answers otherwise
/// than the second implementation, or leaves another byte.
pub struct Suspects {
    unnoticed: RefCell<Vec<(String, Box<dyn Gate>)>>,
}

impl Suspects {
    /// A gate for each vice.
    pub fn of<V: Debug + Copy, G: Gate + 'static>(
        vices: impl IntoIterator<Item = V>,
        gate: impl Fn(V) -> G,
    ) -> Suspects {
        let named = |vice: V| (format!("{vice:?}"), Box::new(gate(vice)) as Box<dyn Gate>);
        Suspects { unnoticed: RefCell::new(vices.into_iter().map(named).collect()) }
    }

    /// Fails unless a comparison with these gates ends because all of them were noticed.
    pub fn expect_noticed(self, comparison: impl Fn(&dyn Gate) -> Result<(), String>) {
        let ended = comparison(&self);
        assert!(self.are_noticed(), "{:?} unnoticed, ended with {ended:?}", self.names());
    }

    /// Fails unless cases notice all of these gates, in any order, and a sound gate passes those that are
    /// run until then: so it is the vice that is noticed.
    pub fn expect_noticed_by(self, mut cases: Vec<Case>, sound: &dyn Gate) {
        Random::new(1).shuffle(&mut cases);
        for case in cases.iter().take_while(|_| !self.are_noticed()) {
            case.run(sound).unwrap();
            self.unnoticed.borrow_mut().retain(|(_, gate)| case.run(gate.as_ref()).is_ok());
        }
        assert!(self.are_noticed(), "{:?} unnoticed", self.names());
    }

    fn are_noticed(&self) -> bool {
        self.unnoticed.borrow().is_empty()
    }

    fn names(&self) -> Vec<String> {
        self.unnoticed.borrow().iter().map(|(name, _)| name.clone()).collect()
    }
}

impl Gate for Suspects {
    /// Answers as the second implementation until all gates have been noticed.
    fn answer(&self, call: &Call, lent: &mut Lent) -> Answer {
        let must = Second.outcome(call, lent);
        let mut unnoticed = self.unnoticed.borrow_mut();
        unnoticed.retain(|(_, gate)| gate.outcome(call, lent).expect(&must).is_ok());
        *lent = must.left;
        if unnoticed.is_empty() {
            // A byte more, so that the comparison ends.
            lent.work.push(0);
        }
        must.answer
    }
}

#[derive(Clone, Copy, Debug, PartialEq, Eq)]
pub enum Vice {
    BlocksSoundCommands,
    WavesOnAfterTheFirst,
    ForwardsEverything,
    LeavesTheStore,
    InventsTheCount,
    MakesUpTheState,
    RefusesAllFiles,
    SaysFullEarly,
    LeavesTheWork,
    ZeroesTheWholeWork,
    KeepsBytesBehind,
    ZeroesTheWholeStore,
    MovesThePlace,
    TakesStrayInPorts,
    RefusesInPortsAtTheEnd,
}

/// Each vice with the name of a call that has it.
pub const VICES: [(Vice, &str); 24] = [
    (Vice::BlocksSoundCommands, "command"),
    (Vice::WavesOnAfterTheFirst, "command"),
    (Vice::ForwardsEverything, "command"),
    (Vice::LeavesTheStore, "command"),
    (Vice::InventsTheCount, "command"),
    (Vice::MakesUpTheState, "check"),
    (Vice::MakesUpTheState, "command"),
    (Vice::RefusesAllFiles, "check"),
    (Vice::RefusesAllFiles, "command"),
    (Vice::RefusesAllFiles, "route"),
    (Vice::SaysFullEarly, "command"),
    (Vice::LeavesTheWork, "check"),
    (Vice::LeavesTheWork, "command"),
    (Vice::LeavesTheWork, "route"),
    (Vice::ZeroesTheWholeWork, "check"),
    (Vice::ZeroesTheWholeWork, "command"),
    (Vice::ZeroesTheWholeWork, "route"),
    (Vice::KeepsBytesBehind, "command"),
    (Vice::ZeroesTheWholeStore, "command"),
    (Vice::MovesThePlace, "check"),
    (Vice::MovesThePlace, "command"),
    (Vice::MovesThePlace, "route"),
    (Vice::TakesStrayInPorts, "check"),
    (Vice::RefusesInPortsAtTheEnd, "command"),
];

/// A gate with a vice in one call, else as the second implementation.
pub struct Worthless {
    vice: Vice,
    call: &'static str,
    calls: Cell<usize>,
}

impl Gate for Worthless {
    fn answer(&self, call: &Call, lent: &mut Lent) -> Answer {
        if call.name() != self.call {
            return Second.answer(call, lent);
        }
        self.calls.set(self.calls.get() + 1);
        if let Some(number) = self.refuses(call, lent) {
            return Answer::Refused { number, place: 0 };
        }
        let before = lent.clone();
        let read = match self.vice {
            Vice::TakesStrayInPorts => without_strays(&lent.store),
            _ => lent.store.clone(),
        };
        let answer = answer_as_read(call, lent, read);
        self.spoil_buffers(&before, lent, answer);
        self.spoil_answer(answer, lent.n)
    }
}

impl Worthless {
    pub fn new((vice, call): (Vice, &'static str)) -> Worthless {
        Worthless { vice, call, calls: Cell::new(0) }
    }

    /// The row by which a call is refused at once.
    fn refuses(&self, call: &Call, lent: &Lent) -> Option<usize> {
        match (self.vice, call) {
            (Vice::RefusesAllFiles, _) => Some(3),
            (Vice::SaysFullEarly, _) if lent.n > 200 => Some(13),
            (Vice::RefusesInPortsAtTheEnd, Call::Command(given)) if ends_in_port(given) => Some(12),
            _ => None,
        }
    }

    fn spoil_buffers(&self, before: &Lent, lent: &mut Lent, answer: Answer) {
        match (self.vice, answer) {
            (_, Answer::Refused { .. }) => {}
            (Vice::LeavesTheWork, _) => lent.work.copy_from_slice(&before.work),
            (Vice::ZeroesTheWholeWork, _) => lent.work.fill(0),
            (Vice::LeavesTheStore, _) => lent.store.copy_from_slice(&before.store),
            (Vice::KeepsBytesBehind, Answer::Forwarded { count }) => {
                let behind = count * RECORD..STORE;
                lent.store[behind.clone()].copy_from_slice(&before.store[behind]);
            }
            (Vice::ZeroesTheWholeStore, Answer::Forwarded { count }) => {
                lent.store[count * RECORD..].fill(0);
            }
            _ => {}
        }
    }

    fn spoil_answer(&self, answer: Answer, n: usize) -> Answer {
        use Answer::{Blocked, Forwarded, Refused, Violated};
        let waves = self.vice == Vice::WavesOnAfterTheFirst && self.calls.get() > 1;
        match (self.vice, answer) {
            (Vice::BlocksSoundCommands, Forwarded { .. }) => Blocked { policy: 0, state: 0 },
            (Vice::ForwardsEverything, Blocked { .. }) => Forwarded { count: n },
            (_, Blocked { .. }) if waves => Forwarded { count: n },
            (Vice::InventsTheCount, Forwarded { count }) => Forwarded { count: count + 1 },
            (Vice::MakesUpTheState, Violated { policy, .. }) => Violated { policy, state: 0 },
            (Vice::MakesUpTheState, Blocked { policy, .. }) => Blocked { policy, state: 0 },
            (Vice::MovesThePlace, Refused { number, place }) => {
                Refused { number, place: place + 1 }
            }
            _ => answer,
        }
    }
}

/// The second implementation's answer on a store that is read as another one. Unless the call alters
/// the store, it stays.
fn answer_as_read(call: &Call, lent: &mut Lent, read: Vec<u8>) -> Answer {
    let store = std::mem::replace(&mut lent.store, read.clone());
    let answer = Second.answer(call, lent);
    if lent.store == read {
        lent.store = store;
    }
    answer
}

/// Records with value and care of every IN_PORT zero.
fn without_strays(records: &[u8]) -> Vec<u8> {
    let mut read = records.to_vec();
    let with_actions = |record: &&mut [u8]| matches!(record[0], 3 | 4);
    for record in read.chunks_exact_mut(RECORD).filter(with_actions) {
        for action in record[9..21].chunks_exact_mut(3).filter(|action| action[0] == 3) {
            action[1..].fill(0);
        }
    }
    read
}

/// Whether the last action of a command is IN_PORT.
fn ends_in_port(given: &[u8]) -> bool {
    let count = given.get(8).map_or(0, |count| usize::from(*count));
    (1..=4).contains(&count) && given.get(6 + 3 * count..9 + 3 * count) == Some(&IN_PORT)
}
