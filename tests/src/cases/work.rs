//! Row 11: the length of the work buffer.

use super::arguments::{largest_holding, LARGEST_WORK};
use super::starred::K_WORK;
use super::{bare, holds, lend, Case};
use crate::formulas::{policy, r, Node, X};
use crate::gate::Answer;
use crate::k::k;
use crate::records::{miss, output, widths, Record};

pub fn cases() -> Vec<Case> {
    let mut cases = vec![];
    cases.extend(edge("K", &k(), K_WORK));
    cases.extend(edge("N of 4, no policy", &one_switch(1, 2), 64));
    cases.extend(edge("N of 5, no policy", &one_switch(2, 2), 256));
    cases.extend(edge("N of 6, no policy", &one_switch(3, 2), 1_024));
    cases.extend(edge("N of 7, no policy", &one_switch(4, 2), 4_096));
    cases.extend(edge("N of 8, no policy", &one_switch(5, 2), 16_384));
    cases.extend(edge("N of 9, no policy", &one_switch(6, 2), 65_536));
    cases.extend(edge("N of 10, no policy", &one_switch(6, 3), 262_144));
    cases.extend(edge("1 node, N of 5", &with_lengths(&[1]), 384));
    cases.extend(edge("4, 2 and 1 nodes, N of 5", &with_lengths(&[4, 2, 1]), 768));
    cases.extend(edge("1, 4 and 2 nodes, N of 5", &with_lengths(&[1, 4, 2]), 768));
    cases.extend(edge("1, 2 and 4 nodes, N of 5", &with_lengths(&[1, 2, 4]), 768));
    cases.extend(edge("32 nodes, N of 5", &with_lengths(&[32]), 4_352));
    cases.extend(edge("the largest network", &largest_holding(), LARGEST_WORK));
    cases
}

/// Just enough work and one byte less, for a network that holds.
fn edge(name: &str, records: &[Record], needed: usize) -> [Case; 2] {
    let mut just = holds(&format!("{name}, just enough work"), records, needed);
    just.lent = lend(records, needed);
    let mut short = holds(&format!("{name}, one byte of work less"), records, 0);
    short.lent = lend(records, needed - 1);
    short.answer = Answer::Refused { number: 11, place: 0 };
    [just, short]
}

/// A network of one switch.
fn one_switch(h: u8, p: u8) -> Vec<Record> {
    vec![widths(h, p, 0), miss(0, &[output(0, 0)])]
}

/// K's first six records, then policies of these lengths that nothing breaks.
fn with_lengths(lengths: &[usize]) -> Vec<Record> {
    let never: Node = r(X, X);
    let mut records = bare();
    for (number, length) in lengths.iter().enumerate() {
        records.extend(policy(number as u8, &vec![never; *length]));
    }
    records
}
