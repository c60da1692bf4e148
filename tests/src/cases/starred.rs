//! The starred cases and the edges, each on network K.

use super::commands::{blocked, forwarded, refused};
use super::{bare, holds, violated, Case};
use crate::formulas::{leads, policy, r, some, tc, X, Y};
use crate::k::{delete_d, dropping_add, first_add, k, k_with_d, second_add, setting_add};
use crate::networks::planes;
use crate::records::{delete, output, rule, with, Record, ANY};

/// The work that K needs: 14 nodes and two more planes of 128 bytes.
pub const K_WORK: usize = 2_048;

pub fn checks() -> Vec<Case> {
    let mut cases = vec![
        holds("K", &k(), K_WORK),
        holds("K with the first add's rule and D", &k_with_d(), K_WORK),
        closure_nowhere("TC 0 (Y,Y) of R", Y),
        closure_nowhere("TC 0 (X,X) of R", X),
    ];
    cases.extend(reached_from_2());
    cases
}

pub fn commands() -> Vec<Case> {
    let mut dropped = k();
    dropped[4] = with(dropping_add(), 0, 4);
    let second = k_with_rule(with(second_add(), 0, 4));
    let absent = delete(rule(0, 9, [1, 3], [0, 1], &[]));
    vec![
        blocked("first add", &k(), first_add(), 0, 3, K_WORK),
        forwarded("second add", &k(), second_add(), &second, K_WORK),
        blocked("add that sets", &k(), setting_add(), 0, 2, K_WORK),
        forwarded("add with A's match", &k(), dropping_add(), &dropped, K_WORK),
        forwarded("delete of an absent rule", &k(), absent, &k(), K_WORK),
        forwarded("delete of absent D", &k(), delete_d(), &k(), K_WORK),
        blocked("delete of D", &k_with_d(), delete_d(), 0, 3, K_WORK),
        replacing_add_to_full_table(),
        refused("new rule with 256 present", &k_with_rules(256), &first_add(), 13),
    ]
}

/// K with one more rule behind rule B.
pub fn k_with_rule(rule: Record) -> Vec<Record> {
    let mut records = k();
    records.insert(6, rule);
    records
}

/// K with further rules, up to so many in all. They drop what arrives at port 2 of switch 1, as the
/// miss record did, so K still holds.
pub fn k_with_rules(count: usize) -> Vec<Record> {
    let further = |number: usize| rule(1, 100 + number as u16, [2, 3], ANY, &[output(0, 3)]);
    let mut records = k();
    records.splice(6..6, (2..count).map(further));
    records
}

fn replacing_add_to_full_table() -> Case {
    let full = k_with_rules(256);
    let mut dropped = full.clone();
    dropped[4] = with(dropping_add(), 0, 4);
    let name = "replacing add with 256 present";
    forwarded(name, &full, dropping_add(), &dropped, K_WORK)
}

/// State 2 reaches 20, 10 and 28 only.
fn reached_from_2() -> Vec<Case> {
    let case = |state: usize| {
        let formula = leads(2, state, &[r(X, Y), tc(0, X, Y)], 5);
        let records = [bare(), policy(0, &formula)].concat();
        let zeroed = planes(formula.len() + 2, 5);
        match [20, 10, 28].contains(&state) {
            true => violated(&format!("2 reaches {state}"), &records, 0, 2, zeroed),
            false => holds(&format!("2 does not reach {state}"), &records, zeroed),
        }
    };
    (0..32).map(case).collect()
}

/// No state of K lies on a loop.
fn closure_nowhere(name: &str, variable: u8) -> Case {
    let formula = [r(X, Y), tc(0, variable, variable), some(1, variable)];
    holds(name, &[bare(), policy(0, &formula)].concat(), 640)
}
