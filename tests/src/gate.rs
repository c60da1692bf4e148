//! What every gate offers: calls over lent buffers.

use crate::networks::{work_needed, Widths};
use crate::records::Record;
use std::fmt;

/// Bytes of a record.
pub const RECORD: usize = 24;
/// Records of the largest network.
pub const MOST_RECORDS: usize = 657;
/// Bytes that a store has at least.
pub const STORE: usize = 15_768;

/// A call, with what it is given beside the buffers.
#[derive(Clone, Debug, PartialEq, Eq)]
pub enum Call {
    Check,
    /// The command's bytes.
    Command(Vec<u8>),
    Route {
        start: usize,
        end: usize,
    },
}

impl Call {
    /// The name by which it is counted.
    pub fn name(&self) -> &'static str {
        match self {
            Call::Check => "check",
            Call::Command(_) => "command",
            Call::Route { .. } => "route",
        }
    }
}

/// What a call answers: the check call one of the first two or a refusal, and so on.
#[derive(Clone, Copy, Debug, PartialEq, Eq)]
pub enum Answer {
    Holds,
    Violated { policy: usize, state: usize },
    Forwarded { count: usize },
    Blocked { policy: usize, state: usize },
    Found { count: usize },
    NoRoute,
    Refused { number: usize, place: usize },
}

impl Answer {
    /// The case by which it is counted, without its numbers but that of a row.
    pub fn case(self) -> String {
        match self {
            Answer::Holds => "holds".to_string(),
            Answer::Violated { .. } => "violated".to_string(),
            Answer::Forwarded { .. } => "forwarded".to_string(),
            Answer::Blocked { .. } => "blocked".to_string(),
            Answer::Found { .. } => "found".to_string(),
            Answer::NoRoute => "no route".to_string(),
            Answer::Refused { number, .. } => format!("refused {number}"),
        }
    }

    /// The count of records or of states that it tells.
    pub fn count(self) -> Option<usize> {
        match self {
            Answer::Forwarded { count } | Answer::Found { count } => Some(count),
            _ => None,
        }
    }

    pub fn is_refused(self) -> bool {
        matches!(self, Answer::Refused { .. })
    }
}

/// The words for it, as the program prints them: its case and its numbers.
impl fmt::Display for Answer {
    fn fmt(&self, f: &mut fmt::Formatter) -> fmt::Result {
        let case = self.case();
        match self {
            Answer::Holds | Answer::NoRoute => write!(f, "{case}"),
            Answer::Violated { policy, state } | Answer::Blocked { policy, state } => {
                write!(f, "{case} {policy} {state}")
            }
            Answer::Forwarded { count } | Answer::Found { count } => write!(f, "{case} {count}"),
            Answer::Refused { place, .. } => write!(f, "{case} {place}"),
        }
    }
}

/// The buffers lent to a call. One that the call does not take must stay as it is.
#[derive(Clone, Debug, Default, PartialEq, Eq)]
pub struct Lent {
    pub store: Vec<u8>,
    pub n: usize,
    pub work: Vec<u8>,
    pub list: Vec<u16>,
}

impl Lent {
    /// A sound network in a store of the least length, zeros behind it, with just enough work and a
    /// list that is just long enough.
    pub fn just(records: &[Record]) -> Lent {
        let mut store = records.concat();
        store.resize(STORE, 0);
        let work = vec![0; work_needed(records)];
        let list = vec![0; (1 << Widths::of(&records[0]).bits()) + 1];
        Lent { store, n: records.len(), work, list }
    }

    /// The records up to the count, as far as the store has them.
    pub fn records(&self) -> &[Record] {
        let (records, _) = self.store.as_chunks::<RECORD>();
        &records[..self.n.min(records.len())]
    }

    /// Takes the count that the next call of a series gets.
    pub fn go_on(&mut self, answer: Answer) {
        if let Answer::Forwarded { count } = answer {
            self.n = count;
        }
    }
}

/// A gate: every call over lent buffers.
pub trait Gate {
    fn answer(&self, call: &Call, lent: &mut Lent) -> Answer;

    /// The answer to a call on buffers like these, and what it leaves in them.
    fn outcome(&self, call: &Call, lent: &Lent) -> Outcome {
        let mut left = lent.clone();
        let answer = self.answer(call, &mut left);
        Outcome { answer, left }
    }
}

/// What a call answers, and the buffers as it leaves them.
#[derive(Clone, Debug, PartialEq, Eq)]
pub struct Outcome {
    pub answer: Answer,
    pub left: Lent,
}

impl Outcome {
    /// An error that tells the first thing that is not what it must be: the answer, or the entry of a
    /// buffer.
    pub fn expect(&self, must: &Outcome) -> Result<(), String> {
        if self.answer != must.answer {
            return Err(format!("{:?}, not {:?}", self.answer, must.answer));
        }
        let Lent { store, n, work, list } = &self.left;
        expect_entries("store", store, &must.left.store)?;
        expect_entries("count", &[*n], &[must.left.n])?;
        expect_entries("work", work, &must.left.work)?;
        expect_entries("list", list, &must.left.list)
    }
}

fn expect_entries<T: PartialEq>(what: &str, got: &[T], must: &[T]) -> Result<(), String> {
    match got.iter().zip(must).position(|(got, must)| got != must) {
        Some(place) => Err(format!("{what} differs from entry {place} on")),
        None if got.len() != must.len() => {
            Err(format!("{what} of {} entries, not {}", got.len(), must.len()))
        }
        None => Ok(()),
    }
}

/// A program: whole input to whole output.
pub type Program<'a> = &'a dyn Fn(&[u8]) -> Vec<u8>;
