//! What the groups of a network send, at N = 10.

use super::{Row, NONE};
use crate::depart;
use wegbaro_tests::second::network::{Group, Network, Target};
use wegbaro_tests::second::states::{Direction, Point, State};

/// For each group and header, the departing states of its copies, the port of arrival among them.
pub struct Groups {
    /// Where the rows of a group begin, by switch and number.
    first: [[usize; 16]; 16],
    rows: Vec<Row>,
}

impl Groups {
    /// From the lowest group up, so that those which a bucket goes on to are there before it.
    pub fn of(network: &Network) -> Groups {
        let mut groups = Groups { first: [[0; 16]; 16], rows: vec![] };
        for group in &network.groups {
            groups.first[usize::from(group.switch)][usize::from(group.number)] = groups.rows.len();
            for header in 0..1 << network.widths.header {
                groups.rows.push(groups.by_buckets(network, group, header));
            }
        }
        groups
    }

    pub fn sent(&self, switch: u8, number: u8, header: u8) -> &Row {
        let first = self.first[usize::from(switch)][usize::from(number)];
        &self.rows[first + usize::from(header)]
    }

    fn by_buckets(&self, network: &Network, group: &Group, header: u8) -> Row {
        let mut row = NONE;
        for bucket in &group.buckets {
            let header = bucket.header.put_into(header);
            match bucket.target {
                Target::Port(port) => {
                    depart(network, &mut row, Point { switch: group.switch, port }, header);
                }
                Target::Group(lower) => add(&mut row, self.sent(group.switch, lower, header)),
            }
        }
        row
    }
}

fn add(row: &mut [u64], other: &Row) {
    for (word, other) in row.iter_mut().zip(other) {
        *word |= other;
    }
}

/// Adds what a group sends to a row, but for the port of arrival.
pub fn add_elsewhere(network: &Network, row: &mut [u64], sent: &Row, arrival: Point) {
    let first = State { direction: Direction::Departing, point: arrival, header: 0 };
    let mut elsewhere = *sent;
    let first = first.number(network.widths);
    // The headers at a port are up to 64 states in one word.
    let headers = u64::MAX >> (64 - (1 << network.widths.header));
    elsewhere[first / 64] &= !(headers << (first % 64));
    add(row, &elsewhere);
}
