//! What policy nodes mean, on small networks with answers worked out by hand.

use super::{holds, violated, Case};
use crate::formulas::{
    all, and, bit, external, leads, not, or, policy, push, r, some, tc, Node, X, Y,
};
use crate::networks::planes;
use crate::records::{link, miss, output, rule, set, widths, Record, ANY, IN_PORT};

pub fn cases() -> Vec<Case> {
    [leaves(), quantifiers(), closures(), closure_tables(), long_paths(), lowest_policies()]
        .concat()
}

/// One switch, N of 4: a state is 8 (departing) + 2 port + header. What arrives leaves at port 1, so
/// 2, 4 and 6 step to 10, and 3, 5 and 7 to 11. Ports 1 and 2 are external.
fn unlinked() -> Vec<Record> {
    to_port_1(&[])
}

/// The same with ports 1 and 2 linked: 10 steps to 4, 11 to 5, 12 to 2 and 13 to 3. No port is
/// external.
fn looping() -> Vec<Record> {
    to_port_1(&[link(0, 1, 0, 2)])
}

/// What arrives at port 1 is sent back, everything else to port 1.
fn to_port_1(links: &[Record]) -> Vec<Record> {
    let back = rule(0, 1, [1, 3], ANY, &[IN_PORT]);
    [&[widths(1, 2, 0)], links, &[miss(0, &[output(1, 3)]), back]].concat()
}

/// The lowest state that breaks a policy, if any does.
fn lowest(network: &[Record], nodes: &[Node], state: Option<usize>) -> Case {
    let records = [network, &policy(0, nodes)].concat();
    let zeroed = planes(nodes.len() + 2, 4);
    let name = format!("{} records, nodes {nodes:?}", network.len());
    match state {
        Some(state) => violated(&name, &records, 0, state, zeroed),
        None => holds(&name, &records, zeroed),
    }
}

fn leaves() -> Vec<Case> {
    let case = |nodes: &[Node], state| lowest(&unlinked(), nodes, state);
    vec![
        case(&[bit(X, 0)], Some(1)),
        case(&[bit(X, 1)], Some(2)),
        case(&[bit(X, 2)], Some(4)),
        case(&[bit(X, 3)], Some(8)),
        case(&[external(X)], Some(2)),
        case(&[external(X), bit(X, 3), and(0, 1)], Some(10)),
        case(&[external(X), not(0), bit(X, 1), and(1, 2)], Some(6)),
        case(&[external(X), bit(X, 0), or(0, 1)], Some(1)),
        case(&[external(X), not(0)], Some(0)),
        case(&[bit(X, 1), bit(X, 2), and(0, 1)], Some(6)),
        case(&[bit(X, 3), bit(X, 2), or(0, 1)], Some(4)),
        case(&[bit(X, 0), not(0), and(0, 1)], None),
        case(&[r(X, X)], None),
        lowest(&looping(), &[external(X)], None),
    ]
}

fn quantifiers() -> Vec<Case> {
    let case = |nodes: &[Node], state| lowest(&unlinked(), nodes, state);
    let is_last_state =
        [bit(Y, 0), bit(Y, 1), bit(Y, 2), bit(Y, 3), and(0, 1), and(2, 3), and(4, 5)];
    let is_first_state =
        [bit(Y, 0), bit(Y, 1), bit(Y, 2), bit(Y, 3), or(0, 1), or(2, 3), or(4, 5), not(6)];
    vec![
        case(&[r(X, Y), some(0, Y)], Some(2)),
        case(&[r(Y, X), some(0, Y)], Some(10)),
        case(&[r(X, Y), bit(Y, 0), and(0, 1), some(2, Y)], Some(3)),
        case(&[r(Y, Y), some(0, Y)], None),
        case(&[r(X, Y), some(0, Y), some(1, X)], Some(0)),
        case(&[r(X, Y), some(0, Y), some(1, X), not(2)], None),
        case(&[r(X, Y), not(0), all(1, Y), bit(X, 1), and(2, 3)], Some(10)),
        case(&[bit(Y, 0), not(0), or(0, 1), all(2, Y)], Some(0)),
        case(&[external(Y), all(0, Y)], None),
        case(&[&is_last_state[..], &[some(6, Y)]].concat(), Some(0)),
        case(&[&is_last_state[..], &[not(6), all(7, Y)]].concat(), None),
        case(&[&is_first_state[..], &[some(7, Y)]].concat(), Some(0)),
        case(&[&is_first_state[..], &[not(7), all(8, Y)]].concat(), None),
        case(&[external(X), some(0, X)], Some(0)),
        case(&[external(X), all(0, X)], None),
        case(&[bit(X, 0), some(0, X), bit(X, 1), and(1, 2)], Some(2)),
        case(&[bit(X, 0), some(0, Y)], Some(1)),
        case(&[bit(X, 1), all(0, Y)], Some(2)),
        case(&[r(X, Y), some(0, X), external(Y), and(1, 2), some(3, Y)], Some(0)),
        case(&[bit(X, 0), bit(Y, 1), and(0, 1), some(2, Y)], Some(1)),
    ]
}

fn closures() -> Vec<Case> {
    let open = |nodes: &[Node], state| lowest(&unlinked(), nodes, state);
    let loops = |nodes: &[Node], state| lowest(&looping(), nodes, state);
    vec![
        open(&[r(X, Y), tc(0, X, X)], None),
        open(&[r(X, Y), tc(0, Y, Y), some(1, Y)], None),
        open(&[r(X, Y), tc(0, X, Y), some(1, Y)], Some(2)),
        open(&[r(X, Y), tc(0, Y, X), some(1, Y)], Some(10)),
        loops(&[r(X, Y), tc(0, X, X)], Some(4)),
        loops(&[r(X, Y), tc(0, X, X), bit(X, 3), and(1, 2)], Some(10)),
        loops(&[r(X, Y), tc(0, Y, Y), some(1, Y)], Some(0)),
        loops(&[r(X, Y), tc(0, Y, Y), all(1, Y)], None),
        loops(&[r(X, Y), tc(0, Y, X), some(1, Y)], Some(2)),
        open(&[r(X, Y), not(0), tc(1, X, X)], Some(0)),
        open(&[bit(Y, 2), tc(0, X, X)], Some(4)),
        open(&[bit(X, 2), tc(0, X, X)], Some(4)),
        open(&[bit(X, 2), tc(0, X, Y), all(1, Y)], Some(4)),
        open(&[bit(Y, 2), tc(0, Y, X), some(1, Y)], Some(4)),
        open(&[external(X), some(0, X), tc(1, X, X)], Some(0)),
        open(&[external(X), all(0, X), tc(1, X, X)], None),
        open(&[bit(X, 0), bit(Y, 0), not(1), and(0, 2), tc(3, X, X)], None),
        open(&[bit(X, 0), bit(Y, 0), not(1), and(0, 2), tc(3, X, Y), some(4, Y)], Some(1)),
    ]
}

/// Which state reaches which on the looping network, by several closures.
fn closure_tables() -> Vec<Case> {
    let reached: [(usize, &[usize]); 10] = [
        (2, &[10, 4]),
        (3, &[11, 5]),
        (4, &[10, 4]),
        (5, &[11, 5]),
        (6, &[10, 4]),
        (7, &[11, 5]),
        (10, &[4, 10]),
        (11, &[5, 11]),
        (12, &[2, 10, 4]),
        (13, &[3, 11, 5]),
    ];
    let reaches = |from: usize, to: usize| {
        let mut listed = reached.iter();
        listed.any(|(state, ends)| *state == from && ends.contains(&to))
    };
    let mut cases = vec![];
    for from in 0..16 {
        for to in 0..16 {
            let forth = reaches(from, to).then_some(from);
            let back = reaches(to, from).then_some(from);
            let mut case = |relation: &[Node], state| {
                cases.push(lowest(&looping(), &leads(from, to, relation, 4), state));
            };
            case(&[r(X, Y), tc(0, X, Y)], forth);
            case(&[r(X, Y), tc(0, Y, X)], back);
            case(&[r(Y, X), tc(0, X, Y)], back);
            case(&[r(Y, X), tc(0, Y, X)], forth);
            case(&[r(X, Y), tc(0, X, Y), tc(1, X, Y)], forth);
        }
    }
    cases
}

/// One switch, ports 1 and 2 linked: what arrives at port 2 is sent to port 1 and so arrives at port
/// 2 again. Each passage adds 1 to the header, up to the highest. The path from header 0 is far
/// longer than the number of switches.
fn long_paths() -> Vec<Case> {
    let mut cases = vec![];
    for h in [3, 6] {
        let bits = 1 + h + 2;
        let formula = from_no_bit_to_every_bit(h);
        let zeroed = planes(formula.len() + 2, bits);
        let name = format!("header of {h} bits counted up");
        let whole = [counting(h, None), policy(0, &formula)].concat();
        cases.push(violated(&name, &whole, 0, 2 << h, zeroed));
        let gap = [counting(h, Some(3)), policy(0, &formula)].concat();
        cases.push(holds(&format!("{name}, but not beyond 3"), &gap, zeroed));
    }
    cases
}

/// Rules that count the header up, without one of them.
fn counting(h: u8, without: Option<u8>) -> Vec<Record> {
    let full = (1 << h) - 1;
    let mut records = vec![widths(h, 2, 0), link(0, 1, 0, 2), miss(0, &[output(0, 3)])];
    for header in (0..full).filter(|header| Some(*header) != without) {
        let actions = [set(header + 1, full), output(1, 3)];
        records.push(rule(0, 1, ANY, [header, full], &actions));
    }
    records
}

/// Some path leads from header 0 to the highest header.
fn from_no_bit_to_every_bit(h: u8) -> Vec<Node> {
    let mut nodes = vec![r(X, Y), tc(0, X, Y)];
    let mut any = push(&mut nodes, bit(X, 0));
    let mut every = push(&mut nodes, bit(Y, 0));
    for place in 1..h {
        let of_x = push(&mut nodes, bit(X, place));
        any = push(&mut nodes, or(any, of_x));
        let of_y = push(&mut nodes, bit(Y, place));
        every = push(&mut nodes, and(every, of_y));
    }
    let none = push(&mut nodes, not(any));
    let ends = push(&mut nodes, and(none, every));
    let path = push(&mut nodes, and(ends, 1));
    push(&mut nodes, some(path, Y));
    nodes
}

/// The lowest broken policy comes before the lowest state.
fn lowest_policies() -> Vec<Case> {
    let records = |policies: &[Node]| {
        let mut records = unlinked();
        for (number, node) in policies.iter().enumerate() {
            records.extend(policy(number as u8, &[*node]));
        }
        records
    };
    let case = |policies: &[Node], number, state| {
        let name = format!("policies {policies:?}");
        violated(&name, &records(policies), number, state, planes(3, 4))
    };
    vec![
        case(&[r(X, X), bit(X, 3), bit(X, 0)], 1, 8),
        case(&[bit(X, 3), bit(X, 0)], 0, 8),
        case(&[r(X, X), r(X, X), external(X)], 2, 2),
    ]
}
