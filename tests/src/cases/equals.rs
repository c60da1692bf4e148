//! Rules of equal priority that match the same arrival: all of them act, each by itself.
//!
//! If nothing else is said, there is one switch with header width 1 and port width 2, so that a state
//! is 8 (departing) + 2 port + header, and its miss record drops.

use super::group_steps::numbered;
use super::patterns::{not_sent, Pair, StepCase};
use super::steps::{one_switch, table, Steps};
use super::{holds, violated, Case};
use crate::formulas::policy;
use crate::networks::work_needed;
use crate::records::{
    miss, output, rule, run, set, to_group, to_port, widths, Action, Bucket, Record, ANY, IN_PORT,
};

pub fn cases() -> Vec<Case> {
    [pairs(), threes(), ranks(), bytes(), misses(), headers(), switches(), groups(), combined()]
        .concat()
}

const DROP: [Action; 1] = [output(0, 3)];
const OUT_2: [Action; 1] = [output(2, 3)];
const OUT_3: [Action; 1] = [output(3, 3)];
/// The priority of equals.
const EQUAL: u16 = 5;

/// A rule for what arrives at port 1.
fn at_port_1(priority: u16, actions: &[Action]) -> Record {
    rule(0, priority, [1, 3], ANY, actions)
}

/// A rule for what has header 0.
fn with_header_0(priority: u16, actions: &[Action]) -> Record {
    rule(0, priority, ANY, [0, 1], actions)
}

/// A rule for whatever arrives.
fn anywhere(priority: u16, actions: &[Action]) -> Record {
    rule(0, priority, ANY, ANY, actions)
}

/// A table for the rules in this order.
fn in_order(name: &str, rules: &[Record], steps: &[Steps]) -> Vec<Case> {
    table(name, &one_switch(&[], &DROP, rules), 4, steps)
}

/// Tables for the rules in orders by which each is once the first, in the middle and the last.
fn in_turn(name: &str, rules: &[Record], steps: &[Steps]) -> Vec<Case> {
    let turned = |first: usize| {
        let mut rules = rules.to_vec();
        rules.rotate_left(first);
        in_order(&format!("{name}, {first} behind"), &rules, steps)
    };
    (0..rules.len()).flat_map(turned).collect()
}

/// Two equals: where both match, what both send.
fn pairs() -> Vec<Case> {
    let at_1 = |actions: &[Action]| at_port_1(EQUAL, actions);
    let header_0 = |actions: &[Action]| with_header_0(EQUAL, actions);
    let header_1 = rule(0, EQUAL, ANY, [1, 1], &[IN_PORT]);
    [
        in_turn(
            "IN_PORT at port 1, OUTPUT 2 of header 0",
            &[at_1(&[IN_PORT]), header_0(&OUT_2)],
            &[(2, &[10, 12]), (3, &[11]), (4, &[]), (5, &[9]), (6, &[12]), (7, &[9])],
        ),
        in_turn(
            "flood at port 1, drop of header 0",
            &[at_1(&[output(0, 0)]), header_0(&DROP)],
            &[(2, &[8, 12]), (3, &[13]), (4, &[8]), (5, &[9]), (6, &[8]), (7, &[9])],
        ),
        in_order(
            "OUTPUT 2 of both",
            &[at_1(&OUT_2), header_0(&OUT_2)],
            &[(2, &[12]), (3, &[13]), (4, &[]), (5, &[9]), (6, &[12]), (7, &[9])],
        ),
        in_turn(
            "nothing at port 1, OUTPUT 2 of header 0",
            &[at_1(&[output(1, 3)]), header_0(&OUT_2)],
            &[(2, &[12]), (3, &[]), (4, &[]), (5, &[9]), (6, &[12]), (7, &[9])],
        ),
        in_turn(
            "OUTPUT 2 at port 1, IN_PORT anywhere",
            &[at_1(&OUT_2), anywhere(EQUAL, &[IN_PORT])],
            &[(2, &[10, 12]), (3, &[11, 13]), (4, &[12]), (5, &[13]), (6, &[14]), (7, &[15])],
        ),
        in_order(
            "OUTPUT 2 of header 0, IN_PORT of header 1",
            &[header_0(&OUT_2), header_1],
            &[(2, &[12]), (3, &[11]), (4, &[]), (5, &[13]), (6, &[12]), (7, &[15])],
        ),
    ]
    .concat()
}

/// Three equals, of which two or all match; and one that does not, between two that do.
fn threes() -> Vec<Case> {
    let at_1 = at_port_1(EQUAL, &[IN_PORT]);
    let header_0 = with_header_0(EQUAL, &OUT_2);
    let other = rule(0, EQUAL, [2, 3], [1, 1], &OUT_3);
    [
        in_turn(
            "three equals",
            &[at_1, header_0, anywhere(EQUAL, &OUT_3)],
            &[(2, &[10, 12, 14]), (3, &[11, 15]), (4, &[14]), (5, &[15]), (6, &[12]), (7, &[])],
        ),
        in_order(
            "two equals around a third",
            &[at_1, other, header_0],
            &[(2, &[10, 12]), (3, &[11]), (4, &[]), (5, &[15]), (6, &[12]), (7, &[9])],
        ),
    ]
    .concat()
}

/// Equals under a rule of higher priority and over one of lower priority, wherever that one stands.
fn ranks() -> Vec<Case> {
    let at_1 = at_port_1(EQUAL, &[IN_PORT]);
    let header_0 = with_header_0(EQUAL, &OUT_2);
    let to_3 = anywhere(EQUAL, &OUT_3);
    let lower = anywhere(EQUAL - 1, &OUT_3);
    let lower_1 = rule(0, EQUAL - 1, ANY, [1, 1], &[output(1, 3)]);
    [
        in_turn(
            "a higher rule drops header 0",
            &[at_1, with_header_0(EQUAL + 1, &DROP), to_3],
            &[(2, &[8]), (3, &[11, 15]), (4, &[8]), (5, &[15]), (6, &[8]), (7, &[])],
        ),
        in_turn(
            "a higher rule sends nothing from port 1",
            &[at_1, at_port_1(EQUAL + 1, &[output(1, 3)]), to_3],
            &[(2, &[]), (3, &[]), (4, &[14]), (5, &[15]), (6, &[]), (7, &[])],
        ),
        in_turn(
            "a lower rule to port 3",
            &[at_1, lower, header_0],
            &[(2, &[10, 12]), (3, &[11]), (4, &[]), (5, &[15]), (6, &[12]), (7, &[])],
        ),
        in_order(
            "two equals and two lower equals",
            &[lower, at_1, lower_1, header_0],
            &[(2, &[10, 12]), (3, &[11]), (4, &[]), (5, &[11, 15]), (6, &[12]), (7, &[11])],
        ),
    ]
    .concat()
}

/// Priorities are equal only if both their bytes are.
fn bytes() -> Vec<Case> {
    let of_priorities = |[at_1, header_0, header_1]: [u16; 3]| {
        [
            at_port_1(at_1, &OUT_2),
            with_header_0(header_0, &[IN_PORT]),
            rule(0, header_1, ANY, [1, 1], &OUT_3),
        ]
    };
    let above: [Steps; 6] = [(2, &[12]), (3, &[15]), (4, &[12]), (5, &[15]), (6, &[14]), (7, &[])];
    let equal: [Steps; 6] =
        [(2, &[10, 12]), (3, &[13, 15]), (4, &[12]), (5, &[15]), (6, &[14]), (7, &[])];
    [
        in_turn("equal low bytes", &of_priorities([0x0105, 0x0005, 0x0205]), &above),
        in_turn("equal high bytes", &of_priorities([0x0506, 0x0505, 0x0507]), &above),
        in_order("equal bytes", &of_priorities([0x0105; 3]), &equal),
        in_order("the highest priority thrice", &of_priorities([0xFFFF; 3]), &equal),
        in_order("priority 0 thrice", &of_priorities([0; 3]), &equal),
    ]
    .concat()
}

/// The miss record acts alone, where no rule matches: not beside equals, even of priority 0, and not
/// in their place, even if both send nothing.
fn misses() -> Vec<Case> {
    let nothing = [at_port_1(0, &[output(1, 3)]), with_header_0(0, &[output(1, 3)])];
    let sending = [at_port_1(0, &OUT_2), with_header_0(0, &OUT_3)];
    [
        in_order(
            "equals that send nothing from port 1",
            &nothing,
            &[(2, &[]), (3, &[]), (4, &[10]), (5, &[9]), (6, &[10]), (7, &[9])],
        ),
        table(
            "equals of priority 0 and IN_PORT of the rest",
            &one_switch(&[], &[IN_PORT], &sending),
            4,
            &[(2, &[12, 14]), (3, &[13]), (4, &[14]), (5, &[13]), (6, &[]), (7, &[15])],
        ),
    ]
    .concat()
}

/// Each runs from the header of the arrival, whatever another one has set.
fn headers() -> Vec<Case> {
    let set_1 = [set(1, 1), output(2, 3)];
    let set_between = [output(2, 3), set(1, 1), output(0, 3)];
    let set_0 = [set(0, 1), output(3, 3)];
    let set_back = [output(2, 3), set(1, 1), IN_PORT];
    [
        in_turn(
            "SET 1 at port 1, header 0 kept",
            &[at_port_1(EQUAL, &set_1), with_header_0(EQUAL, &OUT_3)],
            &[(2, &[13, 14]), (3, &[13]), (4, &[14]), (5, &[9]), (6, &[]), (7, &[9])],
        ),
        in_turn(
            "SET 1 between, header 0 kept twice",
            &[at_port_1(EQUAL, &set_between), with_header_0(EQUAL, &[output(3, 3), IN_PORT])],
            &[
                (2, &[9, 10, 12, 14]),
                (3, &[9, 13]),
                (4, &[12, 14]),
                (5, &[9]),
                (6, &[14]),
                (7, &[9]),
            ],
        ),
        in_turn(
            "SET 0 anywhere, SET 1 at port 1",
            &[anywhere(EQUAL, &set_0), at_port_1(EQUAL, &set_back)],
            &[(2, &[11, 12, 14]), (3, &[11, 13, 14]), (4, &[14]), (5, &[14]), (6, &[]), (7, &[])],
        ),
    ]
    .concat()
}

/// Two switches: a state is 16 (departing) + 8 switch + 2 port + header. Rules of the same priority and
/// patterns at the other switch add nothing, and those of higher priority there hide nothing.
fn switches() -> Vec<Case> {
    let at = |switch: u8, priority: u16, actions: &[Action]| {
        rule(switch, priority, [1, 3], ANY, actions)
    };
    let of = |switch: u8, priority: u16, actions: &[Action]| {
        rule(switch, priority, ANY, [0, 1], actions)
    };
    let rules = [
        at(0, EQUAL, &[IN_PORT]),
        of(1, EQUAL + 4, &OUT_3),
        of(0, EQUAL, &OUT_2),
        at(1, EQUAL, &OUT_3),
        at(1, EQUAL + 4, &OUT_2),
    ];
    let records = [&[widths(1, 2, 1), miss(0, &DROP), miss(1, &DROP)], &rules[..]].concat();
    let steps: [Steps; 12] = [
        (2, &[18, 20]),
        (3, &[19]),
        (4, &[]),
        (5, &[17]),
        (6, &[20]),
        (7, &[17]),
        (10, &[28, 30]),
        (11, &[29]),
        (12, &[30]),
        (13, &[25]),
        (14, &[]),
        (15, &[25]),
    ];
    table("equals of two switches", &records, 5, &steps)
}

/// Equals that run groups: each has what its groups send, also where they share one.
fn groups() -> Vec<Case> {
    let in_turn = |name: &str, rules: [Record; 2], groups: &[&[Bucket]], steps: &[Steps]| {
        let [one, other] = rules;
        let both = [[one, other], [other, one]].map(|rules| {
            let records = [one_switch(&[], &DROP, &rules), numbered(groups)].concat();
            table(name, &records, 4, steps)
        });
        both.concat()
    };
    let by = |at_1: &[Action], header_0: &[Action]| {
        [at_port_1(EQUAL, at_1), with_header_0(EQUAL, header_0)]
    };
    let to_2: &[Bucket] = &[to_port(ANY, 2)];
    let as_1: &[Bucket] = &[to_group([1, 1], 0)];
    let as_0: &[Bucket] = &[to_group([0, 1], 0)];
    let and_drop: &[Bucket] = &[to_group(ANY, 0), to_port(ANY, 0)];
    let and_3: &[Bucket] = &[to_group(ANY, 0), to_port(ANY, 3)];
    [
        in_turn(
            "groups on to one with other headers",
            by(&[run(1)], &[run(2)]),
            &[to_2, as_1, as_0],
            &[(2, &[12, 13]), (3, &[13]), (4, &[]), (5, &[9]), (6, &[12]), (7, &[9])],
        ),
        in_turn(
            "groups on to one with the same header",
            by(&[run(1)], &[run(2)]),
            &[to_2, and_drop, and_3],
            &[(2, &[8, 12, 14]), (3, &[9, 13]), (4, &[14]), (5, &[9]), (6, &[12]), (7, &[9])],
        ),
        in_turn(
            "one group with other headers",
            by(&[set(1, 1), run(0)], &[run(0)]),
            &[&[to_port(ANY, 2), to_port(ANY, 3)]],
            &[(2, &[12, 13, 14, 15]), (3, &[13, 15]), (4, &[14]), (5, &[9]), (6, &[12]), (7, &[9])],
        ),
        in_turn(
            "a group that sets, header 0 kept",
            by(&[run(0)], &OUT_3),
            &[&[to_port([1, 1], 2)]],
            &[(2, &[13, 14]), (3, &[13]), (4, &[14]), (5, &[9]), (6, &[]), (7, &[9])],
        ),
    ]
    .concat()
}

/// Two equals that match what arrives at port 1 with header 0: one sends it nowhere, the other drops it.
pub fn either() -> [Record; 2] {
    [rule(0, EQUAL, [1, 3], [0, 1], &[output(1, 3)]), with_header_0(EQUAL, &DROP)]
}

/// One switch with such rules, and the policy that what arrives outside is sent: one NOT over an R.
pub fn all_sent(rules: &[Record]) -> Vec<Record> {
    [one_switch(&[], &DROP, rules), policy(0, &not_sent(3))].concat()
}

/// Policies are judged over what all of them send: with both of [`either`] everything is sent, though
/// with the first alone something is not.
fn combined() -> Vec<Case> {
    let [one, other] = either();
    let holding = |name: &str, rules: &[Record]| {
        let records = all_sent(rules);
        holds(name, &records, work_needed(&records))
    };
    let first = all_sent(&[one]);
    vec![
        holding("all is sent by one of two", &[one, other]),
        holding("all is sent by the other of two", &[other, one]),
        holding("all is sent by one", &[other]),
        violated("all is sent but by one", &first, 0, 2, work_needed(&first)),
    ]
}

/// 256 rules of one priority at one switch, with header width 6 and port width 2: a state is
/// 256 (departing) + 64 port + header. All match what arrives at port 1 with header 37; the rule of
/// number n cares for the bits that are 1 in n, and sends to the port and with the header that
/// together are n. So at ports 1 and 2 a state steps to 256 + n if n has a 0 where it differs from 101.
pub fn every_rule() -> StepCase {
    let arrival = 1 << 6 | 37;
    let numbered = |number: u8| {
        let value = arrival as u8 & number;
        let sending = match number >> 6 {
            1 => IN_PORT,
            port => output(port, 3),
        };
        let [port, header] = [[value >> 6, number >> 6], [value & 63, number & 63]];
        rule(0, EQUAL, port, header, &[set(number & 63, 63), sending])
    };
    let from = [arrival, arrival ^ 1, arrival ^ 63, 2 << 6 | 37];
    let to = |from: usize| {
        let pair =
            move |number| Pair { from, to: 256 + number, is_step: (from ^ arrival) & number == 0 };
        (0..256).map(pair)
    };
    let records = [widths(6, 2, 0), miss(0, &DROP)];
    StepCase {
        name: "256 equals".to_string(),
        records: records.into_iter().chain((0..=255).map(numbered)).collect(),
        pairs: from.into_iter().flat_map(to).collect(),
    }
}
