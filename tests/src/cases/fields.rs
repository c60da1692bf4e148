//! Row 5: fields, stray bits, unnamed bytes and actions.

use super::starred::K_WORK;
use super::{bare, bare_set, holds, refused, violated, Case, BARE_WORK};
use crate::formulas::{all, and, bit, external, not, or, r, some, tc, Node, X, Y};
use crate::k::{k, k_set};
use crate::records::Record;

pub fn cases() -> Vec<Case> {
    [unnamed_bytes(), links(), matches(), actions(), nodes()].concat()
}

/// Each byte that a record does not use.
fn unnamed_bytes() -> Vec<Case> {
    let mut cases = vec![];
    let mut stray = |place: usize, bytes: std::ops::Range<usize>| {
        for byte in bytes {
            for value in [1, 128] {
                let name = format!("record {place}, byte {byte} is {value}");
                cases.push(refused(&name, &k_set(&[(place, byte, value)]), 5, place));
            }
        }
    };
    stray(0, 5..24);
    stray(1, 5..24);
    stray(2, 2..8);
    stray(2, 12..24);
    stray(3, 2..8);
    stray(5, 12..24);
    stray(6, 5..24);
    stray(19, 5..24);
    cases
}

/// Switches are below 2 and ports below 4.
fn links() -> Vec<Case> {
    let mut cases = vec![];
    for (byte, first) in [(1, 2), (2, 4), (3, 2), (4, 4)] {
        for value in [first, 16, 255] {
            let name = format!("link byte {byte} is {value}");
            cases.push(refused(&name, &bare_set(1, byte, value), 5, 1));
        }
    }
    let last = bare_set(1, 1, 1);
    cases.push(holds("link at the last switch", &last, BARE_WORK));
    cases
}

/// What a match must not be, for port width 2 and header width 1, as bytes 1 to 7.
pub const FAULTY_MATCHES: [[u8; 7]; 12] = [
    [2, 0, 0, 0, 0, 0, 0],
    [255, 0, 0, 0, 0, 0, 0],
    [0, 0, 0, 1, 0, 0, 0],
    [0, 0, 0, 3, 1, 0, 0],
    [0, 0, 0, 0, 4, 0, 0],
    [0, 0, 0, 4, 4, 0, 0],
    [0, 0, 0, 4, 3, 0, 0],
    [0, 0, 0, 0, 128, 0, 0],
    [0, 0, 0, 0, 0, 1, 0],
    [0, 0, 0, 0, 0, 0, 2],
    [0, 0, 0, 0, 0, 2, 3],
    [0, 0, 0, 0, 0, 128, 128],
];

/// What a match may be, for the same widths.
pub const SOUND_MATCHES: [[u8; 7]; 8] = [
    [0, 0, 0, 0, 0, 0, 0],
    [1, 0, 0, 0, 0, 0, 0],
    [0, 255, 255, 0, 0, 0, 0],
    [0, 0, 0, 3, 3, 0, 0],
    [0, 0, 0, 0, 3, 0, 0],
    [0, 0, 0, 2, 2, 0, 0],
    [0, 0, 0, 0, 0, 0, 1],
    [0, 0, 0, 0, 0, 1, 1],
];

fn matches() -> Vec<Case> {
    let mut cases = vec![
        refused("miss of switch 2", &bare_set(3, 1, 2), 5, 3),
        refused("miss of switch 255", &bare_set(2, 1, 255), 5, 2),
    ];
    for bytes in FAULTY_MATCHES {
        let name = format!("rule with match {bytes:?}");
        cases.push(refused(&name, &bare_put(4, 1, &bytes), 5, 4));
    }
    for bytes in SOUND_MATCHES {
        let name = format!("rule with match {bytes:?}");
        cases.push(holds(&name, &bare_put(4, 1, &bytes), BARE_WORK));
    }
    cases
}

/// What actions must not be, for the same widths, as bytes 8 and on.
pub const FAULTY_ACTIONS: [&[u8]; 54] = [
    &[0],
    &[0, 1, 0, 3],
    &[2, 1, 0, 3],
    &[5, 1, 0, 3, 1, 0, 3, 1, 0, 3, 1, 0, 3],
    &[255, 1, 0, 3, 1, 0, 3, 1, 0, 3, 1, 0, 3],
    &[1],
    &[1, 0, 0, 3],
    &[1, 5, 0, 0],
    &[1, 5, 0, 3],
    &[1, 255, 0, 3],
    &[2, 0, 0, 0, 1, 0, 3],
    &[2, 5, 0, 0, 1, 0, 3],
    &[1, 3, 1, 0],
    &[1, 3, 0, 1],
    &[1, 3, 1, 1],
    &[1, 3, 0, 3],
    &[1, 3, 128, 0],
    &[1, 3, 0, 128],
    &[2, 3, 1, 0, 1, 0, 3],
    &[2, 3, 0, 1, 1, 0, 3],
    &[2, 3, 1, 1, 1, 0, 3],
    &[1, 4, 16, 0],
    &[1, 4, 128, 0],
    &[1, 4, 255, 0],
    &[1, 4, 0, 1],
    &[1, 4, 0, 128],
    &[1, 4, 15, 15],
    &[1, 4, 16, 16],
    &[2, 4, 16, 0, 1, 0, 3],
    &[2, 1, 0, 3, 4, 16, 0],
    &[2, 4, 0, 1, 1, 0, 3],
    &[1, 1, 1, 0],
    &[1, 1, 3, 1],
    &[1, 1, 4, 3],
    &[1, 1, 0, 4],
    &[1, 1, 4, 4],
    &[1, 1, 0, 255],
    &[2, 2, 1, 0, 1, 0, 3],
    &[2, 2, 0, 2, 1, 0, 3],
    &[2, 2, 2, 2, 1, 0, 3],
    &[2, 2, 2, 1, 1, 0, 3],
    &[3, 1, 0, 3, 1, 0, 4, 1, 0, 3],
    &[1, 2, 0, 0],
    &[1, 2, 0, 1],
    &[2, 1, 0, 3, 2, 0, 1],
    &[2, 3, 0, 0, 2, 0, 1],
    &[2, 4, 0, 0, 2, 0, 1],
    &[4, 1, 0, 3, 1, 0, 3, 1, 0, 3, 2, 0, 1],
    &[1, 1, 0, 3, 1, 0, 3],
    &[1, 3, 0, 0, 3, 0, 0],
    &[1, 1, 0, 3, 4, 0, 0],
    &[1, 1, 0, 3, 0, 0, 1],
    &[2, 1, 0, 3, 1, 0, 3, 2],
    &[3, 1, 0, 3, 1, 0, 3, 1, 0, 3, 0, 0, 1],
];

/// What actions may be, for the same widths.
pub const SOUND_ACTIONS: [&[u8]; 15] = [
    &[1, 1, 0, 3],
    &[1, 1, 3, 3],
    &[1, 1, 0, 0],
    &[1, 1, 2, 2],
    &[2, 2, 0, 0, 1, 0, 3],
    &[2, 2, 1, 1, 1, 0, 3],
    &[2, 1, 0, 3, 1, 1, 3],
    &[3, 2, 0, 1, 2, 1, 1, 1, 1, 1],
    &[4, 1, 1, 3, 2, 1, 1, 1, 2, 3, 1, 0, 0],
    &[1, 3, 0, 0],
    &[2, 3, 0, 0, 1, 0, 3],
    &[2, 1, 0, 3, 3, 0, 0],
    &[2, 2, 1, 1, 3, 0, 0],
    &[2, 3, 0, 0, 3, 0, 0],
    &[4, 3, 0, 0, 2, 1, 1, 1, 0, 0, 3, 0, 0],
];

/// Actions of a miss and of a rule.
fn actions() -> Vec<Case> {
    let mut cases = vec![];
    for place in [3, 5] {
        for bytes in FAULTY_ACTIONS {
            let name = format!("record {place} with actions {bytes:?}");
            cases.push(refused(&name, &with_actions(place, bytes), 5, place));
        }
        for bytes in SOUND_ACTIONS {
            let name = format!("record {place} with actions {bytes:?}");
            cases.push(holds(&name, &with_actions(place, bytes), BARE_WORK));
        }
    }
    cases
}

fn with_actions(place: usize, bytes: &[u8]) -> Vec<Record> {
    let mut records = bare_put(place, 8, &[0; 13]);
    records[place][8..8 + bytes.len()].copy_from_slice(bytes);
    records
}

/// K's first six records with some bytes put into record i.
fn bare_put(place: usize, byte: usize, bytes: &[u8]) -> Vec<Record> {
    let mut records = bare();
    records[place][byte..byte + bytes.len()].copy_from_slice(bytes);
    records
}

/// K's last node, number 13, made another one. N is 5.
fn nodes() -> Vec<Case> {
    let faulty: [Node; 25] = [
        bit(2, 0),
        bit(255, 0),
        bit(X, 5),
        bit(Y, 5),
        bit(X, 255),
        r(2, X),
        r(X, 2),
        r(255, 255),
        external(2),
        [2, X, 1],
        [2, Y, 255],
        [3, 0, 1],
        [3, 255, 255],
        some(0, 2),
        some(255, 255),
        all(0, 2),
        all(13, 2),
        [8, 4, 4],
        [8, 255, 255],
        [9, 0, 0],
        [10, 0, 0],
        [255, 0, 0],
        [128, 0, 0],
        [9, 255, 255],
        bit(2, 5),
    ];
    let mut cases: Vec<Case> = faulty
        .into_iter()
        .map(|node| refused(&format!("last node {node:?}"), &with_last_node(node), 5, 19))
        .collect();
    for policy in [9, 10, 128, 255] {
        let name = format!("last node of policy {policy}");
        cases.push(refused(&name, &k_set(&[(19, 1, policy)]), 5, 19));
    }
    cases.extend(sound_nodes());
    cases
}

/// Sound last nodes, and the lowest state for which each is true.
fn sound_nodes() -> Vec<Case> {
    let broken = |name: &str, node: Node, state: usize| {
        violated(name, &with_last_node(node), 0, state, K_WORK)
    };
    let unbroken = |name: &str, node: Node| holds(name, &with_last_node(node), K_WORK);
    vec![
        broken("last node BIT X 0", bit(X, 0), 1),
        broken("last node BIT X N-1", bit(X, 4), 16),
        unbroken("last node R X X", r(X, X)),
        broken("last node E X", external(X), 2),
        broken("last node NOT 0", not(0), 0),
        unbroken("last node AND 0 12", and(0, 12)),
        broken("last node OR 3 12", or(3, 12), 2),
        broken("last node SOME 4 Y", some(4, Y), 2),
        unbroken("last node ALL 4 Y", all(4, Y)),
        unbroken("last node TC 4 (X,X)", tc(4, X, X)),
    ]
}

fn with_last_node(node: Node) -> Vec<Record> {
    let mut records = k();
    records[19][2..5].copy_from_slice(&node);
    records
}
