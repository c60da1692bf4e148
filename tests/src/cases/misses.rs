//! Row 7: one miss per switch, ascending and complete.

use super::{holds, refused, Case};
use crate::formulas::{bit, not, policy, Node, X, Y};
use crate::networks::planes;
use crate::records::{
    group, link, miss as miss_with, output, record, rule, to_port, widths, Record, ANY,
};

pub fn cases() -> Vec<Case> {
    [orders(), ends(), higher_kinds()].concat()
}

fn miss(switch: u8) -> Record {
    miss_with(switch, &[output(0, 0)])
}

/// Widths for 2^w switches, and some misses.
fn network(w: u8, misses: &[u8]) -> Vec<Record> {
    let mut records = vec![widths(1, 2, w)];
    records.extend(misses.iter().map(|switch| miss(*switch)));
    records
}

fn orders() -> Vec<Case> {
    vec![
        holds("misses 0, 1", &network(1, &[0, 1]), planes(2, 5)),
        refused("misses 1, 0", &network(1, &[1, 0]), 7, 1),
        refused("misses 0, 0, 1", &network(1, &[0, 0, 1]), 7, 2),
        refused("misses 0, 1, 1", &network(1, &[0, 1, 1]), 7, 3),
        refused("misses 0, 1, 0", &network(1, &[0, 1, 0]), 7, 3),
        refused("misses 0, 1, 2 of two", &network(1, &[0, 1, 2]), 5, 3),
        refused("misses 0, 2 of two", &network(1, &[0, 2]), 5, 2),
        refused("misses 0, 2 of four", &network(2, &[0, 2, 1, 3]), 7, 2),
        refused("misses 0, 0 of one", &network(0, &[0, 0]), 7, 2),
    ]
}

/// Incomplete misses with no record behind them: the place is n.
fn ends() -> Vec<Case> {
    let upto = |end: u8| (0..end).collect::<Vec<u8>>();
    let linked = [widths(1, 2, 1), link(0, 1, 1, 2)];
    vec![
        holds("one miss of one", &network(0, &[0]), planes(2, 4)),
        refused("no miss of one", &network(0, &[]), 7, 1),
        refused("one miss of two", &network(1, &[0]), 7, 2),
        refused("no miss, a link", &linked, 7, 2),
        holds("16 misses", &network(4, &upto(16)), planes(2, 8)),
        refused("15 misses of 16", &network(4, &upto(15)), 7, 16),
        refused("17th miss", &network(4, &[upto(16), vec![15]].concat()), 7, 17),
        refused("miss of switch 16", &network(4, &upto(17)), 5, 17),
    ]
}

/// Incomplete misses seen at the first record of a higher kind, place 2. Rows 3 and 5 of that record
/// come first, rows 8 to 10 and 16 later.
fn higher_kinds() -> Vec<Case> {
    let sound = rule(0, 1, ANY, ANY, &[output(0, 0)]);
    let wide = rule(2, 1, ANY, ANY, &[output(0, 0)]);
    let node = |number: u8, node: Node| policy(number, &[node])[0];
    let group = group(0, 0, &[to_port(ANY, 1)]);
    vec![
        behind_one_miss("rule", sound, 7),
        behind_one_miss("rule with a field fault", wide, 5),
        behind_one_miss("node", node(0, bit(X, 0)), 7),
        behind_one_miss("node with a field fault", node(0, bit(X, 5)), 5),
        behind_one_miss("node of policy 1", node(1, bit(X, 0)), 7),
        behind_one_miss("node of policy 8", node(8, bit(X, 0)), 7),
        behind_one_miss("node of policy 9", node(9, bit(X, 0)), 5),
        behind_one_miss("operand not earlier", node(0, not(0)), 7),
        behind_one_miss("Y free", node(0, bit(Y, 0)), 7),
        behind_one_miss("group", group, 7),
        behind_one_miss("group with a field fault", [9; 24], 7),
        behind_one_miss("record of kind 6", record(&[6]), 3),
        behind_one_miss("record of kind 2", record(&[2]), 3),
        refused("no miss, a rule", &[widths(1, 2, 0), sound], 7, 1),
        refused("no miss, two rules", &[widths(1, 2, 0), sound, sound], 7, 1),
        refused("no miss, a node", &[widths(1, 2, 0), node(0, bit(X, 0))], 7, 1),
        refused("no miss, a group", &[widths(1, 2, 0), group], 7, 1),
    ]
}

/// One miss of two, then this record and a faulty one.
fn behind_one_miss(name: &str, record: Record, number: usize) -> Case {
    let records = [&network(1, &[0])[..], &[record, [0; 24]]].concat();
    refused(&format!("one miss of two, {name}"), &records, number, 2)
}
