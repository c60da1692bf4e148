//! Row 8, the same rule twice, and row 10 for rules.

use super::{bare, holds, refused, Case, BARE_WORK};
use crate::records::{output, rule, set, with, Pattern, Record, ANY};

pub fn cases() -> Vec<Case> {
    [same_rules(), other_rules(), counts()].concat()
}

/// K's first six records, then more rules. A is switch 0, priority 10, port 1, header 0.
fn with_rules(rules: &[Record]) -> Vec<Record> {
    [&bare(), rules].concat()
}

fn same_rules() -> Vec<Case> {
    let (a, b) = (bare()[4], bare()[5]);
    let other_actions = rule(0, 10, [1, 3], [0, 1], &[set(1, 1), output(0, 0)]);
    let new = rule(0, 11, ANY, ANY, &[output(0, 0)]);
    vec![
        refused("A again", &with_rules(&[a]), 8, 6),
        refused("B again", &with_rules(&[b]), 8, 6),
        refused("A with other actions", &with_rules(&[other_actions]), 8, 6),
        refused("a new rule and A", &with_rules(&[new, a]), 8, 7),
        refused("a new rule twice", &with_rules(&[new, new]), 8, 7),
        refused("A and B again", &with_rules(&[a, b]), 8, 6),
        refused("A with a field fault", &with_rules(&[with(a, 21, 1)]), 5, 6),
    ]
}

/// Rules that differ from A in one part only.
fn other_rules() -> Vec<Case> {
    let case = |name: &str, switch: u8, priority: u16, port: Pattern, header: Pattern| {
        let other = rule(switch, priority, port, header, &[output(2, 3)]);
        holds(name, &with_rules(&[other]), BARE_WORK)
    };
    vec![
        case("A at switch 1", 1, 10, [1, 3], [0, 1]),
        case("A with priority 11", 0, 11, [1, 3], [0, 1]),
        case("A with priority 266", 0, 266, [1, 3], [0, 1]),
        case("A with port 3", 0, 10, [3, 3], [0, 1]),
        case("A with a port star", 0, 10, [1, 1], [0, 1]),
        case("A with header 1", 0, 10, [1, 3], [1, 1]),
        case("A with any header", 0, 10, [1, 3], ANY),
    ]
}

/// The first rule is record 4, so the 257th is record 260.
fn counts() -> Vec<Case> {
    let many = |count: u16| {
        let further = (2..count).map(|number| rule(0, number + 100, ANY, ANY, &[output(0, 0)]));
        with_rules(&further.collect::<Vec<Record>>())
    };
    let with_257th = |last: Record| [many(256), vec![last]].concat();
    let (a, last) = (bare()[4], many(257)[260]);
    vec![
        holds("256 rules", &many(256), BARE_WORK),
        refused("257 rules", &many(257), 10, 260),
        refused("258 rules", &many(258), 10, 260),
        refused("A as 257th rule", &with_257th(a), 8, 260),
        refused("257th rule, field fault", &with_257th(with(last, 1, 2)), 5, 260),
    ]
}
