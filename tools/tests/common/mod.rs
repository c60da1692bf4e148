//! Helpers of the tests.
#![allow(dead_code)]

use wegbaro_tools::parse::{parse, Parsed};
use wegbaro_tools::{record, Record};

/// What a text says that has no fault.
pub fn parsed(text: &str) -> Parsed {
    parse(text).unwrap_or_else(|faults| panic!("{} in\n{text}", faults[0].show("text", text)))
}

/// A group with its buckets: value and care of a header pattern, kind and number of the target.
pub fn group(switch: u8, number: u8, buckets: &[[u8; 4]]) -> Record {
    let count = buckets.len() as u8;
    record(&[&[9, switch, number, 0, 0, 0, 0, 0, count], &buckets.concat()[..]].concat())
}

/// The network with policies, which stand before its groups.
pub fn with_policies(network: &[Record], policies: &[Record]) -> Vec<Record> {
    let first = network.iter().position(|record| record[0] == 9);
    let (before, groups) = network.split_at(first.unwrap_or(network.len()));
    [before, policies, groups].concat()
}
