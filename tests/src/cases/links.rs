//! Row 6: ends of links.

use super::{holds, refused, Case};
use crate::records::{link, miss, output, widths, Record};

/// Two planes of 512 bytes, for N of 6.
const WORK: usize = 1_024;

pub fn cases() -> Vec<Case> {
    let first = link(0, 1, 1, 2);
    let sound = |name: &str, links: &[Record]| holds(name, &network(links), WORK);
    let faulty = |name: &str, links: &[Record], place| refused(name, &network(links), 6, place);
    let crossing: Vec<Record> = (1..7).map(|port| link(0, port, 1, 7 - port)).collect();
    vec![
        sound("one link", &[first]),
        sound("two ports of one switch", &[link(0, 1, 0, 2)]),
        sound("same port of two switches", &[link(0, 6, 1, 6)]),
        sound("every ordinary point linked", &crossing),
        faulty("drop at the one end", &[link(0, 0, 1, 2)], 1),
        faulty("drop at the other end", &[link(0, 1, 1, 0)], 1),
        faulty("controller at the one end", &[link(0, 7, 1, 2)], 1),
        faulty("controller at the other end", &[link(0, 1, 1, 7)], 1),
        faulty("both ends the same", &[link(1, 3, 1, 3)], 1),
        faulty("both ends drop", &[link(0, 0, 0, 0)], 1),
        faulty("same link again", &[first, first], 2),
        faulty("same link reversed", &[first, link(1, 2, 0, 1)], 2),
        faulty("one end linked as one", &[first, link(0, 1, 1, 3)], 2),
        faulty("other end linked as one", &[first, link(1, 3, 0, 1)], 2),
        faulty("one end linked as other", &[first, link(1, 2, 0, 3)], 2),
        faulty("other end linked as other", &[first, link(0, 3, 1, 2)], 2),
        faulty("linked two links before", &[first, link(0, 2, 1, 3), first], 3),
        refused("drop and a port beyond", &network(&[link(0, 0, 1, 8)]), 5, 1),
        refused("fault behind a fault", &network(&[link(0, 0, 1, 1), [9; 24]]), 6, 1),
    ]
}

/// A network of two switches with ports 0 to 7 and some links.
fn network(links: &[Record]) -> Vec<Record> {
    let misses = [0, 1].map(|switch| miss(switch, &[output(0, 7)]));
    [&[widths(1, 3, 1)], links, &misses].concat()
}
