//! One step through groups: whole tables of steps, written by hand.

use super::patterns::{Pair, StepCase};
use super::steps::{
    from_ports, table, ByHeader, Steps, NOWHERE, TO_1, TO_1_AND_2, TO_2, TO_CONTROLLER, TO_DROP,
};
use super::Case;
use crate::networks::{nested_groups, Widths};
use crate::records::{
    group, link, miss, output, rule, run, set, to_group, to_port, widths, Action, Bucket, Record,
    ANY, IN_PORT,
};

pub fn cases() -> Vec<Case> {
    [ports(), headers(), headers_after(), nested(), wide_headers(), switches(), rules(), links()]
        .concat()
}

/// Sixteen nested groups at N of 10: for each arriving state there are 3^15 ways through them, by
/// which a frame departs at ports 0 and 2 with every header, and not at port 1, where it arrived.
pub fn every_way() -> StepCase {
    let of = Widths { h: 6, p: 3, w: 0 };
    let acting = vec![widths(of.h, of.p, of.w), miss(0, &[run(15)])];
    let from = 1 << 6 | 37;
    let to = |port: usize| {
        let headers = (0..64).step_by(7);
        let states = headers.map(move |header| 1 << 9 | port << 6 | header);
        states.map(move |to| Pair { from, to, is_step: port != 1 })
    };
    StepCase {
        name: "every way through nested groups".to_string(),
        records: [acting, nested_groups(of, 0)].concat(),
        pairs: [0, 1, 2].into_iter().flat_map(to).collect(),
    }
}

/// The states that are stepped to from ports 1, 2 and 3.
type Ports = [ByHeader; 3];

/// Header 0 or 1, as a pattern.
const ZERO: [u8; 2] = [0, 1];
const ONE: [u8; 2] = [1, 1];

/// The groups of switch 0, numbered from 0.
pub fn numbered(groups: &[&[Bucket]]) -> Vec<Record> {
    groups.iter().zip(0..).map(|(buckets, number)| group(0, number, buckets)).collect()
}

/// A table for one switch whose miss record alone acts. Header width 1 and port width 2: a state is
/// 8 (departing) + 2 port + header.
fn missed(name: &str, actions: &[Action], groups: &[&[Bucket]], ports: Ports) -> Vec<Case> {
    let records = [vec![widths(1, 2, 0), miss(0, actions)], numbered(groups)].concat();
    table(name, &records, 4, &from_ports(ports))
}

/// A table for one group that is all that is done.
fn buckets(name: &str, buckets: &[Bucket], ports: Ports) -> Vec<Case> {
    missed(name, &[run(0)], &[buckets], ports)
}

/// Where buckets send: to any port but that of arrival.
fn ports() -> Vec<Case> {
    let to = |port: u8| to_port(ANY, port);
    let with_drop: Ports =
        [[&[8, 12], &[9, 13]], [&[8, 10], &[9, 11]], [&[8, 10, 12], &[9, 11, 13]]];
    let with_controller: Ports = [[&[12, 14], &[13, 15]], [&[10, 14], &[11, 15]], TO_1_AND_2];
    let back: Ports = [TO_1, TO_1_AND_2, [&[10, 14], &[11, 15]]];
    [
        buckets("bucket to drop", &[to(0)], [TO_DROP; 3]),
        buckets("bucket to 1", &[to(1)], [NOWHERE, TO_1, TO_1]),
        buckets("bucket to 2", &[to(2)], [TO_2, NOWHERE, TO_2]),
        buckets("bucket to 3", &[to(3)], [TO_CONTROLLER, TO_CONTROLLER, NOWHERE]),
        buckets("buckets to 1, 2", &[to(1), to(2)], [TO_2, TO_1, TO_1_AND_2]),
        buckets("buckets to 2, 2, 1", &[to(2), to(2), to(1)], [TO_2, TO_1, TO_1_AND_2]),
        buckets("buckets to 0, 1, 2", &[to(0), to(1), to(2)], with_drop),
        buckets("buckets to 3, 2, 1", &[to(3), to(2), to(1)], with_controller),
        missed("IN_PORT, bucket to 1", &[IN_PORT, run(0)], &[&[to(1)]], back),
        missed("bucket to 1, IN_PORT", &[run(0), IN_PORT], &[&[to(1)]], back),
    ]
    .concat()
}

/// Each bucket sets the header with which the frame entered the group.
fn headers() -> Vec<Case> {
    let set_1: Ports = [[&[12], &[13]], [&[11], &[11]], [&[11, 12], &[11, 13]]];
    let both: Ports = [[&[8, 13], &[8, 13]], [&[8], &[8]], [&[8, 13], &[8, 13]]];
    let third: Ports = [[&[8, 9], &[8, 9]], [&[8, 9, 10], &[8, 9, 11]], [&[8, 9, 10], &[8, 9, 11]]];
    let twice: Ports = [NOWHERE, [&[10, 11], &[10, 11]], [&[10, 11], &[10, 11]]];
    [
        buckets("SET 1 to 1, to 2", &[to_port(ONE, 1), to_port(ANY, 2)], set_1),
        buckets("to 2, SET 1 to 1", &[to_port(ANY, 2), to_port(ONE, 1)], set_1),
        buckets("SET 0 to 0, SET 1 to 2", &[to_port(ZERO, 0), to_port(ONE, 2)], both),
        buckets(
            "SET 0 to 0, SET 1 to 0, to 1",
            &[to_port(ZERO, 0), to_port(ONE, 0), to_port(ANY, 1)],
            third,
        ),
        buckets("SET 0 to 1, SET 1 to 1", &[to_port(ZERO, 1), to_port(ONE, 1)], twice),
    ]
    .concat()
}

/// The frame enters a group with the header of that moment, and has it still after the group.
fn headers_after() -> Vec<Case> {
    let kept: Ports = [[&[9, 12], &[9, 13]], [&[9], &[9]], [&[9, 12], &[9, 13]]];
    let entered: Ports = [NOWHERE, [&[11], &[11]], [&[11], &[11]]];
    let then_set: Ports = [[&[13], &[13]], TO_1, [&[10, 13], &[11, 13]]];
    let twice: Ports = [NOWHERE, [&[10, 11], &[10, 11]], [&[10, 11], &[10, 11]]];
    let set_before: Ports = [[&[8, 13], &[8, 13]], [&[8], &[8]], [&[8, 13], &[8, 13]]];
    let returned: Ports = [[&[9, 10], &[9, 11]], [&[9, 12], &[9, 13]], [&[9, 14], &[9, 15]]];
    let to_1: &[Bucket] = &[to_port(ANY, 1)];
    let drop_as_1: &[Bucket] = &[to_port(ONE, 0)];
    let drop_as_0: &[Bucket] = &[to_port(ZERO, 0)];
    let out_2 = output(2, 3);
    let twice_run = [set(0, 1), run(0), set(1, 1), run(0)];
    [
        missed("group, OUTPUT 2", &[run(0), out_2], &[drop_as_1], kept),
        missed("SET 1, group", &[set(1, 1), run(0)], &[to_1], entered),
        missed("group, SET 1, OUTPUT 2", &[run(0), set(1, 1), out_2], &[to_1], then_set),
        missed("SET 0, group, SET 1, group", &twice_run, &[to_1], twice),
        missed("SET 1, group, OUTPUT 2", &[set(1, 1), run(0), out_2], &[drop_as_0], set_before),
        missed("group, group", &[run(0), run(1)], &[drop_as_1, &[to_port(ANY, 2)]], kept),
        missed("group, IN_PORT", &[run(0), IN_PORT], &[drop_as_1], returned),
    ]
    .concat()
}

/// A bucket goes on to a lower group with the header that it has set.
fn nested() -> Vec<Case> {
    let as_1: Ports = [NOWHERE, [&[11], &[11]], [&[11], &[11]]];
    let apart: Ports = [[&[13], &[13]], [&[10], &[10]], [&[10, 13], &[10, 13]]];
    let as_1_and_to_2: Ports = [[&[12], &[13]], [&[11], &[11]], [&[11, 12], &[11, 13]]];
    let paths: Ports = [
        [&[8, 9], &[8, 9]],
        [&[8, 9, 10, 11], &[8, 9, 10, 11]],
        [&[8, 9, 10, 11], &[8, 9, 10, 11]],
    ];
    let deep = fifteen_deep();
    let deep: Vec<&[Bucket]> = deep.iter().map(Vec::as_slice).collect();
    let to_1: &[Bucket] = &[to_port(ANY, 1)];
    let to_2: &[Bucket] = &[to_port(ANY, 2)];
    let on_as_1: &[Bucket] = &[to_group(ONE, 0)];
    let over: &[Bucket] = &[to_group(ANY, 0)];
    let on_then_2: &[Bucket] = &[to_group(ONE, 0), to_port(ANY, 2)];
    let on_and_2: &[Bucket] = &[to_group(ANY, 0), to_port(ONE, 2)];
    let forked: [&[Bucket]; 3] =
        [to_1, &[to_port(ANY, 0), to_group(ANY, 0)], &[to_group(ZERO, 1), to_group(ONE, 1)]];
    [
        missed("to group 0", &[run(1)], &[to_1, over], [NOWHERE, TO_1, TO_1]),
        missed("SET 1 to group 0", &[run(1)], &[to_1, on_as_1], as_1),
        missed("SET 1 to group 0, to 2", &[run(1)], &[to_1, on_then_2], as_1_and_to_2),
        missed("group 0 SETs 0", &[run(1)], &[&[to_port(ZERO, 1)], on_and_2], apart),
        missed("group 0 alone", &[run(0)], &[to_1, on_as_1], [NOWHERE, TO_1, TO_1]),
        missed("over group 1", &[run(2)], &[to_1, to_2, over], [NOWHERE, TO_1, TO_1]),
        missed("two ways to group 1", &[run(2)], &forked, paths),
        missed("nested, OUTPUT 2", &[run(1), output(2, 3)], &[to_1, on_as_1], as_1_and_to_2),
        missed("nested to drop", &[run(1)], &[&[to_port(ANY, 0)], over], [TO_DROP; 3]),
        missed(
            "nested to 3",
            &[run(1)],
            &[&[to_port(ANY, 3)], over],
            [TO_CONTROLLER, TO_CONTROLLER, NOWHERE],
        ),
        missed("fifteen deep", &[run(15)], &deep, as_1),
    ]
    .concat()
}

/// Sixteen groups, each on to the next lower, the highest with SET 1 and the lowest to port 1.
fn fifteen_deep() -> Vec<Vec<Bucket>> {
    let mut groups = vec![vec![to_port(ANY, 1)]];
    groups.extend((0..14).map(|lower| vec![to_group(ANY, lower)]));
    groups.push(vec![to_group(ONE, 14)]);
    groups
}

/// Header width 2: a state is 16 (departing) + 4 port + header, and a bucket sets some bits.
fn wide_headers() -> Vec<Case> {
    let table_of = |name: &str, buckets: &[&[Bucket]], made: [&'static [usize]; 4]| {
        let highest = buckets.len() as u8 - 1;
        let acting = [widths(2, 2, 0), miss(0, &[run(highest)])];
        let from = |port: usize| (0..4).map(move |header| (4 * port + header, made[header]));
        let steps: Vec<Steps> = from(2).chain(from(3)).collect();
        table(name, &[acting.to_vec(), numbered(buckets)].concat(), 5, &steps)
    };
    let to_1: &[Bucket] = &[to_port([2, 2], 1)];
    let lower_bit: &[Bucket] = &[to_port([0, 1], 1)];
    let upper_on: &[Bucket] = &[to_group([2, 2], 0)];
    let both: &[Bucket] = &[to_group([2, 2], 0), to_group([0, 2], 0)];
    [
        table_of("SET 1* to 1", &[to_1], [&[22], &[23], &[22], &[23]]),
        table_of("SET 1* on, SET *0", &[lower_bit, upper_on], [&[22]; 4]),
        table_of("SET 1* and SET 0* on, SET *0", &[lower_bit, both], [&[20, 22]; 4]),
    ]
    .concat()
}

/// Two switches with groups of the same numbers: a state is 16 (departing) + 8 switch + 2 port +
/// header. Switch 0 sends to port 1, switch 1 to port 2.
fn switches() -> Vec<Case> {
    let steps: [Steps; 8] = [
        (4, &[18]),
        (5, &[19]),
        (6, &[18]),
        (7, &[19]),
        (10, &[28]),
        (11, &[29]),
        (14, &[28]),
        (15, &[29]),
    ];
    let with_groups = |number: u8, groups: &[Record]| {
        let misses = [0, 1].map(|switch| miss(switch, &[run(number)]));
        [&[widths(1, 2, 1)], &misses[..], groups].concat()
    };
    let lowest = [0, 1].map(|switch| group(switch, 0, &[to_port(ANY, switch + 1)]));
    let higher = [0, 1].map(|switch| group(switch, 7, &[to_group(ANY, 0)]));
    let both = [lowest[0], higher[0], lowest[1], higher[1]];
    [
        table("group 0 of two switches", &with_groups(0, &lowest), 5, &steps),
        table("group 7 of two switches", &with_groups(7, &both), 5, &steps),
    ]
    .concat()
}

/// A rule that runs a group decides as any other, even if the group sends nothing.
fn rules() -> Vec<Case> {
    let acting = |rules: &[Record]| [&[widths(1, 2, 0), miss(0, &[output(0, 3)])], rules].concat();
    let header_1 = rule(0, 5, ANY, [1, 1], &[run(0)]);
    let port_1 = rule(0, 9, [1, 3], ANY, &[run(1)]);
    let groups = numbered(&[&[to_port(ZERO, 1)], &[to_port(ANY, 1)]]);
    let records = [acting(&[header_1, port_1]), groups].concat();
    let steps: [Steps; 6] = [(2, &[]), (3, &[]), (4, &[8]), (5, &[10]), (6, &[8]), (7, &[10])];
    table("rules that run groups", &records, 4, &steps)
}

/// Copies of a group cross links as others do.
fn links() -> Vec<Case> {
    let over: [Steps; 4] = [(10, &[4]), (11, &[5]), (12, &[2]), (13, &[3])];
    let steps = [from_ports([TO_2, TO_1, TO_1_AND_2]), over.to_vec()].concat();
    let acting = [widths(1, 2, 0), link(0, 1, 0, 2), miss(0, &[run(0)])];
    let groups = numbered(&[&[to_port(ANY, 1), to_port(ANY, 2)]]);
    table("link, group to 1, 2", &[acting.to_vec(), groups].concat(), 4, &steps)
}
