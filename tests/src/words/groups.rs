//! What groups send.

use super::network::{buckets, put_into, Network};
use super::planes::{none, set_bit, zip, Row};
use crate::records::Record;
use crate::second::states::Widths;

/// For each group and header, the departing states of its copies, the port of arrival among them.
pub struct Groups<const W: usize> {
    /// Where the rows of a group begin, by switch and number.
    first: [[usize; 16]; 16],
    rows: Vec<Row<W>>,
}

impl<const W: usize> Groups<W> {
    /// From the lowest group up, so that those which a bucket goes on to are there before it.
    pub fn of(network: &Network) -> Groups<W> {
        let mut groups = Groups { first: [[0; 16]; 16], rows: vec![] };
        for group in network.groups {
            groups.first[usize::from(group[1])][usize::from(group[2])] = groups.rows.len();
            for header in 0..1 << network.widths.header {
                groups.rows.push(groups.by_buckets(network.widths, group, header));
            }
        }
        groups
    }

    /// What a group makes of a frame with a header.
    fn by_buckets(&self, widths: Widths, group: &Record, header: u8) -> Row<W> {
        let mut row = none();
        for [value, care, kind, target] in buckets(group) {
            let header = put_into(header, value, care);
            match kind {
                1 => set_bit(&mut row, departing(widths, group[1], target, header)),
                _ => row = zip(&row, self.rows_of(group[1], target, header), |a, b| a | b),
            }
        }
        row
    }

    fn rows_of(&self, switch: u8, number: u8, header: u8) -> &Row<W> {
        let first = self.first[usize::from(switch)][usize::from(number)];
        &self.rows[first + usize::from(header)]
    }

    /// What a group sends of a frame with a header, but for the port of arrival.
    pub fn sent(&self, widths: Widths, [switch, port]: [u8; 2], number: u8, header: u8) -> Row<W> {
        let mut sent = *self.rows_of(switch, number, header);
        let first = departing(widths, switch, port, 0);
        // The headers at a port are up to 64 states in one word.
        let headers = u64::MAX >> (64 - (1 << widths.header));
        sent[first / 64] &= !(headers << (first % 64));
        sent
    }
}

/// The number of an arriving state.
pub fn arriving(widths: Widths, switch: u8, port: u8, header: u8) -> usize {
    let point = usize::from(switch) << widths.port | usize::from(port);
    point << widths.header | usize::from(header)
}

/// The number of a departing state.
pub fn departing(widths: Widths, switch: u8, port: u8, header: u8) -> usize {
    widths.states() / 2 + arriving(widths, switch, port, header)
}
