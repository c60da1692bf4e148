//! Row 3: kinds and their order.

use super::starred::K_WORK;
use super::{bare, bare_set, holds, refused, Case, BARE_WORK};
use crate::k::{k, k_set};
use crate::records::{group, link, to_port, Record, ANY};

pub fn cases() -> Vec<Case> {
    [kinds(), orders()].concat()
}

fn kinds() -> Vec<Case> {
    let mut cases = vec![];
    for kind in [0, 2, 3, 4, 5, 6, 7, 8, 9, 10, 255] {
        let name = format!("first record of kind {kind}");
        cases.push(refused(&name, &bare_set(0, 0, kind), 3, 0));
    }
    for kind in [0, 1, 2, 6, 7, 8, 10, 255] {
        let name = format!("second miss of kind {kind}");
        cases.push(refused(&name, &bare_set(3, 0, kind), 3, 3));
    }
    for kind in [0, 1, 2, 3, 4, 6, 7, 8, 10, 255] {
        let name = format!("last node of kind {kind}");
        cases.push(refused(&name, &k_set(&[(19, 0, kind)]), 3, 19));
    }
    cases
}

fn orders() -> Vec<Case> {
    let (widths, miss, rule) = (bare()[0], bare()[3], bare()[4]);
    let link = link(1, 2, 0, 1);
    let node = k()[6];
    let group = group(0, 0, &[to_port(ANY, 1)]);
    let grouped = inserted(&bare(), 6, group);
    let no_link = [&bare()[..1], &bare()[2..]].concat();
    vec![
        refused("second widths", &inserted(&bare(), 1, widths), 3, 1),
        refused("widths at the end", &inserted(&k(), 20, widths), 3, 20),
        refused("link behind a miss", &inserted(&bare(), 3, link), 3, 3),
        refused("link behind a rule", &inserted(&bare(), 6, link), 3, 6),
        refused("miss behind a rule", &inserted(&bare(), 5, miss), 3, 5),
        refused("rule behind a node", &inserted(&k(), 20, rule), 3, 20),
        refused("widths behind a group", &inserted(&grouped, 7, widths), 3, 7),
        refused("link behind a group", &inserted(&grouped, 7, link), 3, 7),
        refused("miss behind a group", &inserted(&grouped, 7, miss), 3, 7),
        refused("rule behind a group", &inserted(&grouped, 7, rule), 3, 7),
        refused("node behind a group", &inserted(&grouped, 7, node), 3, 7),
        refused("group as a second record", &inserted(&bare(), 1, group), 7, 1),
        refused("record of bytes FF", &inserted(&bare(), 1, [255; 24]), 3, 1),
        refused("record of bytes 0", &inserted(&bare(), 6, [0; 24]), 3, 6),
        holds("links again", &inserted(&bare(), 2, link), BARE_WORK),
        holds("no link", &no_link, BARE_WORK),
        holds("no rule", &bare()[..4], BARE_WORK),
        holds("a group", &grouped, BARE_WORK),
        holds("a group, no rule", &[&bare()[..4], &[group]].concat(), BARE_WORK),
        holds("a group behind a policy", &inserted(&k(), 20, group), K_WORK),
    ]
}

fn inserted(records: &[Record], place: usize, record: Record) -> Vec<Record> {
    let mut records = records.to_vec();
    records.insert(place, record);
    records
}
