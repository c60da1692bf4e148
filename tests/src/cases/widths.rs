//! Row 4: the widths.

use super::{holds, refused, Case};
use crate::networks::planes;
use crate::records::{miss, output, widths, with, Record};

pub fn cases() -> Vec<Case> {
    let mut cases = vec![
        refused("every width 255", &network(255, 255, 255), 4, 0),
        refused("H of 255", &network(255, 2, 0), 4, 0),
        refused("P of 255", &network(1, 255, 0), 4, 0),
        refused("W of 255", &network(1, 2, 255), 4, 0),
        stray_byte("H of 0, stray byte", 0, 4),
        stray_byte("H of 1, stray byte", 1, 5),
    ];
    for h in 0..=7 {
        for p in 1..=5 {
            for w in 0..=5 {
                cases.push(grid_case(h, p, w));
            }
        }
    }
    cases
}

/// Row 4 is the lower number.
fn stray_byte(name: &str, h: u8, number: usize) -> Case {
    let mut records = network(h, 2, 0);
    records[0] = with(records[0], 5, 1);
    refused(name, &records, number, 0)
}

fn grid_case(h: u8, p: u8, w: u8) -> Case {
    let name = format!("H {h}, P {p}, W {w}");
    let bits = 1 + h + p + w;
    let each = (1..=6).contains(&h) && (2..=4).contains(&p) && w <= 4;
    match each && bits <= 10 {
        true => holds(&name, &network(h, p, w), planes(2, bits)),
        false => refused(&name, &network(h, p, w), 4, 0),
    }
}

/// Widths and the misses for them, at most 16.
fn network(h: u8, p: u8, w: u8) -> Vec<Record> {
    let mut records = vec![widths(h, p, w)];
    records.extend((0..1 << w.min(4)).map(|switch| miss(switch, &[output(0, 0)])));
    records
}
