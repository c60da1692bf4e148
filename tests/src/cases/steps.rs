//! One step: whole tables of steps, written by hand.

use super::{bare, holds, violated, Case};
use crate::formulas::{leads, policy, r, X, Y};
use crate::networks::planes;
use crate::records::{link, miss, output, rule, set, widths, Action, Record, ANY, IN_PORT};

/// A state and the states it steps to.
pub type Steps = (usize, &'static [usize]);

pub fn cases() -> Vec<Case> {
    [outputs(), returns(), headers(), priorities(), links()].concat()
}

/// One case for each two states: a policy that forbids just the step from one to the other.
pub fn table(name: &str, records: &[Record], bits: u8, steps: &[Steps]) -> Vec<Case> {
    let groups = records.iter().position(|record| record[0] == 9).unwrap_or(records.len());
    let mut cases = vec![];
    for from in 0..1 << bits {
        let listed = steps.iter().find(|(state, _)| *state == from);
        for to in 0..1 << bits {
            let formula = leads(from, to, &[r(X, Y)], bits);
            let records = [&records[..groups], &policy(0, &formula), &records[groups..]].concat();
            let zeroed = planes(formula.len() + 2, bits);
            let is_step = listed.is_some_and(|(_, ends)| ends.contains(&to));
            cases.push(match is_step {
                true => violated(&format!("{name}: {from} to {to}"), &records, 0, from, zeroed),
                false => holds(&format!("{name}: not {from} to {to}"), &records, zeroed),
            });
        }
    }
    cases
}

/// One switch, header width 1 and port width 2: a state is 8 (departing) + 2 port + header.
pub fn one_switch(links: &[Record], missed: &[Action], rules: &[Record]) -> Vec<Record> {
    [&[widths(1, 2, 0)], links, &[miss(0, missed)], rules].concat()
}

/// A table for one switch whose miss record alone acts.
fn missed(name: &str, actions: &[Action], steps: &[Steps]) -> Vec<Case> {
    table(name, &one_switch(&[], actions, &[]), 4, steps)
}

/// The states that header 0 and header 1 step to.
pub type ByHeader = [&'static [usize]; 2];

/// The steps from ports 1, 2 and 3; port 0 has none.
pub fn from_ports(ports: [ByHeader; 3]) -> Vec<Steps> {
    let from = |(place, [header_0, header_1]): (usize, ByHeader)| {
        let port = place + 1;
        [(2 * port, header_0), (2 * port + 1, header_1)]
    };
    ports.into_iter().enumerate().flat_map(from).collect()
}

pub const NOWHERE: ByHeader = [&[], &[]];
pub const TO_DROP: ByHeader = [&[8], &[9]];
pub const TO_1: ByHeader = [&[10], &[11]];
pub const TO_2: ByHeader = [&[12], &[13]];
pub const TO_1_AND_2: ByHeader = [&[10, 12], &[11, 13]];
pub const TO_CONTROLLER: ByHeader = [&[14], &[15]];

/// Where OUTPUT goes: never to the arrival port, even if that is the only one.
fn outputs() -> Vec<Case> {
    let drop = from_ports([TO_DROP; 3]);
    let port_1 = from_ports([NOWHERE, TO_1, TO_1]);
    let port_2 = from_ports([TO_2, NOWHERE, TO_2]);
    let controller = from_ports([TO_CONTROLLER, TO_CONTROLLER, NOWHERE]);
    let ordinary = from_ports([TO_2, TO_1, TO_1_AND_2]);
    [
        missed("OUTPUT 0", &[output(0, 3)], &drop),
        missed("OUTPUT 1", &[output(1, 3)], &port_1),
        missed("OUTPUT 2", &[output(2, 3)], &port_2),
        missed("OUTPUT 3", &[output(3, 3)], &controller),
        missed("OUTPUT **", &[output(0, 0)], &ordinary),
        missed("OUTPUT 1*", &[output(2, 2)], &port_2),
        missed("OUTPUT 0*", &[output(0, 2)], &port_1),
        missed("OUTPUT *0", &[output(0, 1)], &port_2),
        missed("OUTPUT *1", &[output(1, 1)], &port_1),
        missed("OUTPUT 1, OUTPUT 2", &[output(1, 3), output(2, 3)], &ordinary),
    ]
    .concat()
}

/// IN_PORT goes to the arrival port, the controller too, and takes nothing from other actions.
fn returns() -> Vec<Case> {
    let back = from_ports([TO_1, TO_2, TO_CONTROLLER]);
    let with_ordinary = from_ports([TO_1_AND_2, TO_1_AND_2, [&[10, 12, 14], &[11, 13, 15]]]);
    let with_port_1 = from_ports([TO_1, TO_1_AND_2, [&[10, 14], &[11, 15]]]);
    let with_controller =
        from_ports([[&[10, 14], &[11, 15]], [&[12, 14], &[13, 15]], TO_CONTROLLER]);
    [
        missed("IN_PORT", &[IN_PORT], &back),
        missed("IN_PORT, IN_PORT", &[IN_PORT, IN_PORT], &back),
        missed("IN_PORT, OUTPUT **", &[IN_PORT, output(0, 0)], &with_ordinary),
        missed("OUTPUT **, IN_PORT", &[output(0, 0), IN_PORT], &with_ordinary),
        missed("IN_PORT, OUTPUT 1", &[IN_PORT, output(1, 3)], &with_port_1),
        missed("OUTPUT 3, IN_PORT", &[output(3, 3), IN_PORT], &with_controller),
    ]
    .concat()
}

/// Copies keep the header of their moment.
fn headers() -> Vec<Case> {
    let later_set = [output(1, 3), set(1, 1), output(2, 3)];
    let twice_set = [set(0, 1), output(1, 3), set(1, 1), output(1, 3)];
    let starred_set = [set(0, 0), output(1, 3)];
    let back_later = [IN_PORT, set(1, 1), output(2, 3)];
    let back_twice = [IN_PORT, set(1, 1), IN_PORT];
    let back_between = [set(1, 1), IN_PORT, set(0, 1), output(3, 3)];
    let later = from_ports([[&[13], &[13]], TO_1, [&[10, 13], &[11, 13]]]);
    let twice = from_ports([NOWHERE, [&[10, 11], &[10, 11]], [&[10, 11], &[10, 11]]]);
    let starred = from_ports([NOWHERE, TO_1, TO_1]);
    let set_back = from_ports([[&[11], &[11]], [&[13], &[13]], [&[15], &[15]]]);
    let then_set = from_ports([[&[10, 13], &[11, 13]], TO_2, [&[14, 13], &[15, 13]]]);
    let both_back = from_ports([[&[10, 11], &[11]], [&[12, 13], &[13]], [&[14, 15], &[15]]]);
    let between = from_ports([[&[11, 14], &[11, 14]], [&[13, 14], &[13, 14]], [&[15], &[15]]]);
    [
        missed("OUTPUT 1, SET 1, OUTPUT 2", &later_set, &later),
        missed("SET 0, OUTPUT 1, SET 1, OUTPUT 1", &twice_set, &twice),
        missed("SET *, OUTPUT 1", &starred_set, &starred),
        missed("SET 1, IN_PORT", &[set(1, 1), IN_PORT], &set_back),
        missed("IN_PORT, SET 1, OUTPUT 2", &back_later, &then_set),
        missed("IN_PORT, SET 1, IN_PORT", &back_twice, &both_back),
        missed("SET 1, IN_PORT, SET 0, OUTPUT 3", &back_between, &between),
    ]
    .concat()
}

/// The highest priority decides, and the miss record only where no rule matches, even if what decides
/// sends nothing. Equal priorities have cases of their own.
fn priorities() -> Vec<Case> {
    let drop = [output(0, 3)];
    let by_number = [
        rule(0, 1, ANY, ANY, &[output(1, 3)]),
        rule(0, 256, ANY, [1, 1], &[output(2, 3)]),
        rule(0, 255, ANY, [1, 1], &[output(3, 3)]),
    ];
    let odd_ports = rule(0, 0, [1, 1], ANY, &[output(3, 3)]);
    [
        table(
            "priorities 1, 256, 255",
            &one_switch(&[], &drop, &by_number),
            4,
            &[(2, &[]), (3, &[13]), (4, &[10]), (5, &[]), (6, &[10]), (7, &[13])],
        ),
        table(
            "priority 0 against a miss",
            &one_switch(&[], &drop, &[odd_ports]),
            4,
            &[(2, &[14]), (3, &[15]), (4, &[8]), (5, &[9]), (6, &[]), (7, &[])],
        ),
    ]
    .concat()
}

/// A departing state at a linked point arrives at the other end.
fn links() -> Vec<Case> {
    let turning = [link(0, 1, 0, 2)];
    let over: [Steps; 4] = [(10, &[4]), (11, &[5]), (12, &[2]), (13, &[3])];
    let dropped = [from_ports([TO_DROP; 3]), over.to_vec()].concat();
    let back = [from_ports([TO_1, TO_2, TO_CONTROLLER]), over.to_vec()].concat();
    [
        table("link, OUTPUT 0", &one_switch(&turning, &[output(0, 3)], &[]), 4, &dropped),
        table("link, IN_PORT", &one_switch(&turning, &[IN_PORT], &[]), 4, &back),
        table("K", &bare(), 5, &k_steps([&[28], &[29]])),
        table("K, B with OUTPUT **", &k_with_b(output(0, 0)), 5, &k_steps([&[28], &[29]])),
        table("K, B with OUTPUT 1", &k_with_b(output(1, 3)), 5, &k_steps(NOWHERE)),
        table("K, B with IN_PORT", &k_with_b(IN_PORT), 5, &k_steps([&[26], &[27]])),
    ]
    .concat()
}

/// K's records before its policy, with another action of rule B.
fn k_with_b(action: Action) -> Vec<Record> {
    let mut records = bare();
    records[5] = rule(1, 10, [1, 3], ANY, &[action]);
    records
}

/// K's steps, those by rule B given.
fn k_steps([header_0, header_1]: ByHeader) -> Vec<Steps> {
    vec![
        (2, &[20]),
        (3, &[17]),
        (4, &[16]),
        (5, &[17]),
        (6, &[16]),
        (7, &[17]),
        (10, header_0),
        (11, header_1),
        (12, &[24]),
        (13, &[25]),
        (14, &[24]),
        (15, &[25]),
        (20, &[10]),
        (21, &[11]),
        (26, &[4]),
        (27, &[5]),
    ]
}
