//! Cases with answers written by hand from the rules, for any gate.

pub mod arguments;
pub mod commands;
pub mod equals;
pub mod fields;
pub mod group_steps;
pub mod groups;
pub mod kinds;
pub mod links;
pub mod misses;
pub mod patterns;
pub mod policies;
pub mod programs;
pub mod routes;
pub mod rules;
pub mod starred;
pub mod steps;
pub mod truths;
pub mod versions;
pub mod widths;
pub mod work;

use crate::gate::{Answer, Call, Gate, Lent, Outcome, Program, STORE};
use crate::k::k;
use crate::records::Record;
use std::fmt::Debug;

/// Bytes of the store beyond its least length.
const BEYOND: usize = 40;
/// Work beyond what a case needs.
const SPARE: usize = 24;
/// Work lent where a refusal comes first: enough for 32 nodes at N of 5.
const PLENTY: usize = 4_400;
/// The work that K's first six records need: two planes of 128 bytes.
const BARE_WORK: usize = 256;

/// A call with what it must answer and leave.
#[derive(Clone, Debug)]
pub struct Case {
    pub name: String,
    pub call: Call,
    pub lent: Lent,
    pub answer: Answer,
    /// The records that the store must have then, and zeros behind them up to its least length. Without
    /// them the store must stay as it is.
    pub installed: Option<Vec<Record>>,
    /// How much of the work must be zero then.
    pub zeroed: usize,
    /// What the list must begin with then.
    pub listed: Vec<u16>,
}

/// A whole input and its whole output.
#[derive(Clone, Debug)]
pub struct ProgramCase {
    pub name: String,
    pub input: Vec<u8>,
    pub output: String,
}

impl Case {
    /// A case that leaves all buffers as they are.
    fn on(name: &str, lent: Lent, call: Call, answer: Answer) -> Case {
        let name = name.to_string();
        Case { name, call, lent, answer, installed: None, zeroed: 0, listed: vec![] }
    }

    /// Runs the case; an error tells what is wrong.
    pub fn run(&self, gate: &dyn Gate) -> Result<(), String> {
        let must = Outcome { answer: self.answer, left: self.left() };
        let outcome = gate.outcome(&self.call, &self.lent);
        outcome.expect(&must).map_err(|difference| format!("{}: {difference}", self.name))
    }

    /// The buffers as they must be left.
    fn left(&self) -> Lent {
        let mut left = self.lent.clone();
        if let Some(records) = &self.installed {
            let bytes = records.as_flattened();
            left.store[..STORE].fill(0);
            left.store[..bytes.len()].copy_from_slice(bytes);
        }
        left.work[..self.zeroed].fill(0);
        left.list[..self.listed.len()].copy_from_slice(&self.listed);
        left
    }

    /// A check case, the same without any work, and on its buffers each other call, given what a row
    /// behind all of the check call's refuses.
    fn with_other_calls(self) -> Vec<Case> {
        let without_work = Case {
            lent: Lent { work: vec![], ..self.lent.clone() },
            ..self.refused_at_last("without work", Call::Check, 11)
        };
        let command = self.refused_at_last("empty command", Call::Command(vec![]), 12);
        let unknown = Call::Route { start: 1 << 10, end: 1 << 10 };
        let route = self.refused_at_last("route of unknown states", unknown, 14);
        vec![without_work, command, route, self]
    }

    /// A call on the buffers of a check case: the check call's refusal, or else one by this row.
    fn refused_at_last(&self, what: &str, call: Call, number: usize) -> Case {
        let answer = match self.answer.is_refused() {
            true => self.answer,
            false => Answer::Refused { number, place: 0 },
        };
        Case::on(&format!("{}, {what}", self.name), self.lent.clone(), call, answer)
    }
}

impl ProgramCase {
    /// Runs the case; an error tells what is wrong.
    pub fn run(&self, program: Program) -> Result<(), String> {
        let printed = String::from_utf8_lossy(&program(&self.input)).into_owned();
        same(&self.name, "output", &printed, &self.output)
    }
}

/// An error unless what came is what must come.
fn same<A: PartialEq + Debug>(name: &str, what: &str, got: &A, must: &A) -> Result<(), String> {
    match got == must {
        true => Ok(()),
        false => Err(format!("{name}: {what} {got:?}, not {must:?}")),
    }
}

/// Fails with every error, one per line.
pub fn expect_all(results: impl IntoIterator<Item = Result<(), String>>) {
    let wrong: Vec<String> = results.into_iter().filter_map(Result::err).collect();
    assert!(wrong.is_empty(), "{}", wrong.join("\n"));
}

/// Every case of every call, the check cases of the rows through the other calls too.
pub fn all() -> impl Iterator<Item = Case> {
    // These are many, and made only when they are run.
    let of_meaning = [steps::cases, equals::cases, group_steps::cases, truths::cases];
    of_rows().chain(of_meaning.into_iter().flat_map(|cases| cases()))
}

/// The same without the many check cases about meaning: few enough for a gate that is slow.
pub fn of_rows() -> impl Iterator<Item = Case> {
    let checks = checks_of_rows().into_iter().flat_map(Case::with_other_calls);
    checks.chain(all_commands()).chain(routes::cases())
}

/// The cases of every call that are about its rows, its answers and what it leaves.
pub fn of_calls() -> Vec<Case> {
    [checks_of_rows(), all_commands(), routes::cases()].concat()
}

/// The starred check cases and those of the rows.
pub fn checks_of_rows() -> Vec<Case> {
    [
        starred::checks(),
        arguments::cases(),
        kinds::cases(),
        widths::cases(),
        versions::cases(),
        fields::cases(),
        links::cases(),
        misses::cases(),
        rules::cases(),
        policies::cases(),
        work::cases(),
        groups::cases(),
    ]
    .concat()
}

/// Every command case.
pub fn all_commands() -> Vec<Case> {
    [starred::commands(), commands::cases(), versions::commands(), groups::commands()].concat()
}

/// K's records before its policy: nothing is forbidden, so it holds.
fn bare() -> Vec<Record> {
    k()[..6].to_vec()
}

/// K's first six records with byte b of record i set to v.
fn bare_set(place: usize, byte: usize, value: u8) -> Vec<Record> {
    let mut records = bare();
    records[place][byte] = value;
    records
}

/// Records in a store with other bytes behind them, and work with other bytes in it.
fn lend(records: &[Record], work: usize) -> Lent {
    let mut store = records.concat();
    store.resize(STORE, 0xA5);
    store.resize(STORE + BEYOND, 0x5A);
    Lent { store, n: records.len(), work: vec![0xC3; work], ..Lent::default() }
}

fn holds(name: &str, records: &[Record], zeroed: usize) -> Case {
    let lent = lend(records, zeroed + SPARE);
    Case { zeroed, ..Case::on(name, lent, Call::Check, Answer::Holds) }
}

fn violated(name: &str, records: &[Record], policy: usize, state: usize, zeroed: usize) -> Case {
    Case { answer: Answer::Violated { policy, state }, ..holds(name, records, zeroed) }
}

fn refused(name: &str, records: &[Record], number: usize, place: usize) -> Case {
    Case::on(name, lend(records, PLENTY), Call::Check, Answer::Refused { number, place })
}
