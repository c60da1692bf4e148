//! Rows 1 and 2: the count and the store's length.

use super::starred::K_WORK;
use super::{holds, refused, violated, Case};
use crate::formulas::{and, bit, external, or, policy, r, some, tc, X, Y};
use crate::gate::{Lent, STORE};
use crate::k::k;
use crate::networks::{largest_with, random_groups, LARGEST, MOST_GROUPS};
use crate::random::Random;
use crate::records::{output, Record};

/// The work of the largest network: 34 planes of 131,072 bytes.
pub const LARGEST_WORK: usize = 4_456_448;

pub fn cases() -> Vec<Case> {
    [counts(), lengths()].concat()
}

fn counts() -> Vec<Case> {
    let mut broken = largest_holding();
    broken[640] = policy(7, &[bit(X, 9)])[0];
    let mut faulty = largest_holding();
    faulty[656][23] = 1;
    vec![
        with_count("n of 0", 0, 1, 0),
        with_count("n of 658", 658, 1, 0),
        with_count("n beyond every store", usize::MAX, 1, 0),
        with_count("n of 657, other bytes behind K", 657, 3, 20),
        with_count("n of 1", 1, 7, 1),
        holds("657 records", &largest_holding(), LARGEST_WORK),
        holds("641 records, no group", &largest_without_groups(), LARGEST_WORK),
        violated("657 records, last node BIT X 9", &broken, 7, 512, LARGEST_WORK),
        refused("657 records, last group faulty", &faulty, 16, 656),
    ]
}

/// K in its store, with another count.
fn with_count(name: &str, n: usize, number: usize, place: usize) -> Case {
    let mut case = refused(name, &k(), number, place);
    case.lent.n = n;
    case
}

fn lengths() -> Vec<Case> {
    let mut just = holds("store of 15,768 bytes", &k(), K_WORK);
    just.lent.store.truncate(STORE);
    let mut largest = holds("657 records in 15,768 bytes", &largest_holding(), LARGEST_WORK);
    largest.lent.store.truncate(STORE);
    let mut short = refused("store of 15,767 bytes", &k(), 2, 0);
    short.lent.store.truncate(STORE - 1);
    vec![
        just,
        largest,
        short,
        of_ones("short store of other bytes", STORE - 1, 20, 2),
        of_ones("no store", 0, 1, 2),
        of_ones("no store, n of 657", 0, 657, 2),
        of_ones("no store, n of 0", 0, 0, 1),
        of_ones("short store, n of 658", STORE - 1, 658, 1),
        of_ones("641 records' store", 15_384, 641, 2),
    ]
}

/// A store of bytes FF, refused by its length or by n.
fn of_ones(name: &str, length: usize, n: usize, number: usize) -> Case {
    let mut case = refused(name, &[], number, 0);
    case.lent = Lent { store: vec![0xFF; length], n, ..case.lent };
    case
}

/// A network of 657 records. Every ordinary point is linked, so none is external. Its policies forbid
/// to be at an external point, the first one also to reach one.
pub fn largest_holding() -> Vec<Record> {
    let mut reaching =
        vec![external(X), external(Y), r(X, Y), tc(2, X, Y), and(1, 3), some(4, Y), or(0, 5)];
    while reaching.len() < 32 {
        let last = reaching.len() as u8 - 1;
        reaching.push(or(last, last));
    }
    let mut policies = policy(0, &reaching);
    for number in 1..8 {
        policies.extend(policy(number, &[external(X); 32]));
    }
    let mut random = Random::new(1);
    let groups = random_groups(&mut random, LARGEST, MOST_GROUPS);
    largest_with(&mut random, &policies, &groups)
}

/// Its records without the groups, and OUTPUT 0 in their place.
fn largest_without_groups() -> Vec<Record> {
    let mut records = largest_holding();
    records.truncate(641);
    for record in records.iter_mut().filter(|record| matches!(record[0], 3 | 4)) {
        for action in record[9..21].chunks_exact_mut(3).filter(|action| action[0] == 4) {
            action.copy_from_slice(&output(0, 15));
        }
    }
    records
}
