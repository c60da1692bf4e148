//! The program `wegbaro`: networks and commands as text, judged by the proved library, with answers
//! in words. `README.md` describes the text and the program.

pub mod advice;
pub mod after;
pub mod answers;
pub mod arguments;
pub mod book;
pub mod causes;
pub mod compile;
pub mod conversions;
pub mod expand;
pub mod explain;
pub mod fault;
pub mod fields;
pub mod formula;
pub mod generate;
pub mod groups;
pub mod json;
pub mod judging;
pub mod kind;
pub mod manual;
mod misses;
pub mod names;
mod naming;
pub mod parse;
pub mod picture;
mod policies;
pub mod print;
pub mod priorities;
pub mod program;
pub mod questions;
pub mod reach;
pub mod route;
pub mod session;
pub mod source;
pub mod standard;
pub mod steps;
pub mod subcommands;
pub mod templates;
pub mod tokens;
pub mod trouble;
pub mod truth;
pub mod version;
pub mod widths;
pub mod written;

/// Bytes of a record.
pub const RECORD: usize = 24;

/// A record.
pub type Record = [u8; RECORD];

/// The actions of a record, each with its kind, value and care.
pub fn actions(record: &Record) -> impl Iterator<Item = [u8; 3]> + '_ {
    let used = record[9..21].chunks(3).take(record[8].into());
    used.map(|action| [action[0], action[1], action[2]])
}

/// Whether a record is the rule that another record, a rule or a command, is about.
pub fn is_same_rule(rule: &Record, other: &Record) -> bool {
    rule[0] == kind::RULE && rule[1..8] == other[1..8]
}

/// A record from its first bytes; the others are zero.
pub fn record(bytes: &[u8]) -> Record {
    let mut record = [0; RECORD];
    record[..bytes.len()].copy_from_slice(bytes);
    record
}
