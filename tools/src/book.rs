//! The network's records as commands change them, each with where it comes from.
//!
//! The gate keeps the network; this keeps beside it what the words about a record need.

use crate::kind;
use crate::version::modify_adds;
use crate::{is_same_rule, Record};
use std::cmp::Reverse;
use std::fmt;

/// Where a record comes from.
#[derive(Clone, Copy, Debug, PartialEq, Eq)]
pub enum Origin {
    /// A line of a text.
    Line(usize),
    /// A place among a file's records, from 0.
    Record(usize),
    /// A command that stands in no text, by its number from 1.
    Command(usize),
}

impl Origin {
    pub fn line(self) -> Option<usize> {
        match self {
            Origin::Line(line) => Some(line),
            _ => None,
        }
    }

    pub fn command(self) -> Option<usize> {
        match self {
            Origin::Command(number) => Some(number),
            _ => None,
        }
    }
}

impl fmt::Display for Origin {
    fn fmt(&self, f: &mut fmt::Formatter<'_>) -> fmt::Result {
        match self {
            Origin::Line(line) => write!(f, "line {line}"),
            Origin::Record(place) => write!(f, "record {place}"),
            Origin::Command(number) => write!(f, "command {number}"),
        }
    }
}

/// What a command does to the records.
#[derive(Clone, Copy, Debug, PartialEq, Eq)]
pub enum Change {
    /// A new rule stands at this place.
    Adds(usize),
    /// The actions of the rule at this place are replaced.
    Replaces(usize),
    /// The rule at this place is removed.
    Removes(usize),
    Nothing,
}

/// Records and where each comes from.
#[derive(Clone, Debug, Default, PartialEq, Eq)]
pub struct Book {
    pub records: Vec<Record>,
    pub origins: Vec<Origin>,
}

impl Book {
    /// The records of a file, which come from lines of a text or stand by their numbers.
    pub fn new(records: &[Record], lines: &[usize]) -> Book {
        let origin = |place: usize| match lines.get(place) {
            Some(line) => Origin::Line(*line),
            None => Origin::Record(place),
        };
        Book { records: records.to_vec(), origins: (0..records.len()).map(origin).collect() }
    }

    /// Where the record at a place comes from; behind the last one it goes by its place.
    pub fn origin(&self, place: usize) -> Origin {
        self.origins.get(place).copied().unwrap_or(Origin::Record(place))
    }

    /// What a command does to the records.
    pub fn change(&self, command: &Record) -> Change {
        let same = self.records.iter().position(|rule| is_same_rule(rule, command));
        match (command[0], same) {
            (kind::ADD | kind::MODIFY, Some(place)) => Change::Replaces(place),
            (kind::DELETE, Some(place)) => Change::Removes(place),
            (kind::ADD, None) => Change::Adds(self.end_of_rules()),
            (kind::MODIFY, None) if modify_adds(&self.records) => Change::Adds(self.end_of_rules()),
            _ => Change::Nothing,
        }
    }

    /// The rule of a command's switch that agrees with it in the most of priority, port and header,
    /// the first of several; none that agrees in nothing.
    pub fn nearest(&self, command: &Record) -> Option<usize> {
        let agrees = |rule: &Record| {
            let fields = [2..4, 4..6, 6..8].into_iter();
            fields.filter(|field| rule[field.clone()] == command[field.clone()]).count()
        };
        let of_switch = |rule: &Record| rule[..2] == [kind::RULE, command[1]];
        let rules = self.records.iter().enumerate().filter(|(_, rule)| of_switch(rule));
        let agreeing = rules.map(|(place, rule)| (agrees(rule), Reverse(place)));
        let (agrees, Reverse(place)) = agreeing.max()?;
        (agrees > 0).then_some(place)
    }

    /// The place behind the last rule, or behind the last miss if there is none.
    fn end_of_rules(&self) -> usize {
        let is_behind = |record: &Record| record[0] > kind::RULE;
        self.records.iter().position(is_behind).unwrap_or(self.records.len())
    }

    /// The records that a command leaves.
    pub fn after(&self, command: &Record, origin: Origin) -> Book {
        let mut left = self.clone();
        match self.change(command) {
            Change::Adds(place) => {
                let mut rule = *command;
                rule[0] = kind::RULE;
                left.records.insert(place, rule);
                left.origins.insert(place, origin);
            }
            Change::Replaces(place) => {
                left.records[place][8..21].copy_from_slice(&command[8..21]);
                left.origins[place] = origin;
            }
            Change::Removes(place) => {
                left.records.remove(place);
                left.origins.remove(place);
            }
            Change::Nothing => {}
        }
        left
    }
}
