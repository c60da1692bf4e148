//! Rows 9 and 10: operands, policy numbers, free variables and counts of policies and nodes.

use super::{bare, holds, refused, violated, Case};
use crate::formulas::{all, and, bit, not, or, policy, r, some, tc, Node, X, Y};
use crate::k::{k, k_set};
use crate::networks::planes;
use crate::records::{group, record, to_port, with, Record, ANY};

pub fn cases() -> Vec<Case> {
    [operands(), numbers(), free_variables(), last_nodes(), policy_counts(), node_counts()].concat()
}

/// K's first six records, then policies with these numbers.
fn with_policies(policies: &[(u8, &[Node])]) -> Vec<Record> {
    let mut records = bare();
    for (number, nodes) in policies {
        records.extend(policy(*number, nodes));
    }
    records
}

/// K's first six records, then one policy; its node 0 is record 6.
fn with_policy(nodes: &[Node]) -> Vec<Record> {
    with_policies(&[(0, nodes)])
}

/// The work for a longest policy of so many nodes.
fn work(nodes: usize) -> usize {
    planes(nodes + 2, 5)
}

fn operands() -> Vec<Case> {
    let mut cases = vec![
        refused("K, operand 9 and a record of kind 0", &k_set(&[(8, 3, 9), (9, 0, 0)]), 9, 8),
        refused(
            "operands count anew",
            &with_policies(&[(0, &[bit(X, 0), bit(X, 1)]), (1, &[not(0)])]),
            9,
            8,
        ),
        holds(
            "operand of the same policy",
            &with_policies(&[(0, &[r(X, X)]), (1, &[r(X, X), not(0), not(1)])]),
            work(3),
        ),
    ];
    for number in [0, 1, 2, 31, 32, 128, 255] {
        for node in first_operand(number) {
            let name = format!("first node {node:?}");
            cases.push(refused(&name, &with_policy(&[node]), 9, 6));
        }
    }
    for number in [2, 3, 255] {
        let seconds = [and(0, number), or(1, number)];
        for node in first_operand(number).into_iter().chain(seconds) {
            let name = format!("third node {node:?}");
            cases.push(refused(&name, &with_policy(&[bit(X, 0), bit(X, 1), node]), 9, 8));
        }
    }
    cases
}

/// A node of each kind with an operand, at its first place. At the second is 0 or none.
fn first_operand(number: u8) -> Vec<Node> {
    vec![
        not(number),
        and(number, 0),
        or(number, 0),
        some(number, X),
        all(number, Y),
        tc(number, X, X),
    ]
}

/// BIT X 0 as every policy's only node.
fn numbers() -> Vec<Case> {
    let with_numbers = |numbers: &[u8]| {
        let nodes: &[Node] = &[bit(X, 0)];
        let policies: Vec<(u8, &[Node])> = numbers.iter().map(|number| (*number, nodes)).collect();
        with_policies(&policies)
    };
    vec![
        violated("policy 0", &with_numbers(&[0]), 0, 1, work(1)),
        violated("policies 0, 1", &with_numbers(&[0, 1]), 0, 1, work(1)),
        violated("policy 0 twice is one", &with_numbers(&[0, 0]), 0, 1, work(2)),
        refused("policy 1 first", &with_numbers(&[1]), 9, 6),
        refused("policy 7 first", &with_numbers(&[7]), 9, 6),
        refused("policy 8 first", &with_numbers(&[8]), 9, 6),
        refused("policy 9 first", &with_numbers(&[9]), 5, 6),
        refused("policies 0, 2", &with_numbers(&[0, 2]), 9, 7),
        refused("policies 0, 1, 0", &with_numbers(&[0, 1, 0]), 9, 8),
        refused("policies 0, 1, 3", &with_numbers(&[0, 1, 3]), 9, 8),
        refused("policies 0, 8", &with_numbers(&[0, 8]), 9, 7),
        refused("policies 0 to 6, 8", &with_numbers(&[0, 1, 2, 3, 4, 5, 6, 8]), 9, 13),
    ]
}

fn free_variables() -> Vec<Case> {
    let faulty = |nodes: &[Node]| {
        let name = format!("Y free at the end of {nodes:?}");
        refused(&name, &with_policy(nodes), 9, 5 + nodes.len())
    };
    let broken = |nodes: &[Node], state: usize| {
        let name = format!("Y not free at the end of {nodes:?}");
        violated(&name, &with_policy(nodes), 0, state, work(nodes.len()))
    };
    let unbroken = |nodes: &[Node]| {
        let name = format!("Y not free at the end of {nodes:?}");
        holds(&name, &with_policy(nodes), work(nodes.len()))
    };
    vec![
        faulty(&[bit(Y, 0)]),
        faulty(&[r(X, Y)]),
        faulty(&[r(Y, X)]),
        faulty(&[r(Y, Y)]),
        faulty(&[[2, Y, 0]]),
        faulty(&[bit(Y, 0), not(0)]),
        faulty(&[bit(X, 0), bit(Y, 0), and(0, 1)]),
        faulty(&[bit(Y, 0), bit(X, 0), and(0, 1)]),
        faulty(&[bit(X, 0), bit(Y, 0), or(1, 0)]),
        faulty(&[bit(Y, 0), some(0, X)]),
        faulty(&[r(X, Y), all(0, X)]),
        faulty(&[bit(X, 0), tc(0, X, Y)]),
        faulty(&[bit(X, 0), tc(0, Y, X)]),
        faulty(&[bit(X, 0), tc(0, Y, Y)]),
        faulty(&[r(X, Y), some(0, Y), tc(1, Y, Y)]),
        broken(&[bit(Y, 0), tc(0, X, X)], 1),
        broken(&[bit(Y, 0), some(0, Y)], 0),
        unbroken(&[bit(Y, 0), all(0, Y)]),
        broken(&[bit(Y, 0), bit(X, 1)], 2),
        broken(&[r(X, Y), some(0, Y)], 2),
        broken(&[r(X, Y), some(0, X), some(1, Y)], 0),
        unbroken(&[r(X, Y), tc(0, X, X)]),
    ]
}

/// Which node is the last one is decided by the next record's first two bytes.
fn last_nodes() -> Vec<Case> {
    let k18_and = |next: Record| [&k()[..18], &[next]].concat();
    let mut read_up_to_18 = refused("K, n of 18", &k(), 9, 17);
    read_up_to_18.lent.n = 18;
    let sound = k()[18];
    vec![
        read_up_to_18,
        refused("K[0:18]", &k()[..18], 9, 17),
        refused("K[0:18] and kind 6", &k18_and(record(&[6])), 9, 17),
        refused("K[0:18] and kind 4", &k18_and(k()[4]), 9, 17),
        refused("K[0:18] and kind 0", &k18_and([0; 24]), 9, 17),
        refused("K[0:18] and a group", &k18_and(group(0, 0, &[to_port(ANY, 1)])), 9, 17),
        refused("K[0:18] and policy 1", &k18_and(with(sound, 1, 1)), 9, 17),
        refused("K[0:18] and policy 9", &k18_and(with(sound, 1, 9)), 9, 17),
        refused("K[0:18] and a node of kind 9", &k18_and(with(sound, 2, 9)), 5, 18),
        refused("K[0:18] and a stray byte", &k18_and(with(sound, 23, 1)), 5, 18),
        refused("K[0:18] and operand 12", &k18_and(with(sound, 3, 12)), 9, 18),
        violated("K[0:18] and its next node", &k18_and(sound), 0, 11, work(13)),
    ]
}

/// Eight policies, and a ninth. Policy 0 is record 6, policy 8 record 14.
fn policy_counts() -> Vec<Case> {
    let eight = |last: Node| {
        let seven = (0..7).flat_map(|number| policy(number, &[r(X, X)]));
        let mut records = bare();
        records.extend(seven.chain(policy(7, &[last])));
        records
    };
    let more = |number: u8, nodes: &[Node]| [eight(r(X, X)), policy(number, nodes)].concat();
    vec![
        holds("eight policies", &eight(r(X, X)), work(1)),
        violated("eight policies, the last broken", &eight(bit(X, 3)), 7, 8, work(1)),
        refused("ninth policy", &more(8, &[bit(X, 0)]), 10, 14),
        refused("ninth policy, two nodes", &more(8, &[bit(Y, 0), bit(X, 0)]), 10, 14),
        refused("ninth policy, operand", &more(8, &[not(0)]), 9, 14),
        refused("ninth policy, Y free", &more(8, &[bit(Y, 0)]), 9, 14),
        refused("ninth policy, field fault", &more(8, &[bit(X, 5)]), 5, 14),
        refused("policy 9 behind 7", &more(9, &[bit(X, 0)]), 5, 14),
        refused("policy 6 behind 7", &more(6, &[bit(X, 0)]), 9, 14),
    ]
}

/// 32 nodes, and a 33rd. Node 0 is record 6, node 32 record 38.
fn node_counts() -> Vec<Case> {
    let filled = |count: usize, last: &[Node]| {
        let mut nodes = vec![r(X, Y); count];
        nodes.extend(last);
        nodes
    };
    let case_33 = |name: &str, last: &[Node], number: usize| {
        refused(name, &with_policy(&filled(32, last)), number, 38)
    };
    let two = with_policies(&[(0, &filled(31, &[r(X, X)])), (1, &filled(31, &[some(30, Y)]))]);
    vec![
        holds("32 nodes", &with_policy(&filled(31, &[r(X, X)])), work(32)),
        violated("32 nodes twice", &two, 1, 2, work(32)),
        case_33("33 nodes", &[bit(X, 0)], 10),
        case_33("33 nodes, operand 31", &[some(31, Y)], 10),
        case_33("34 nodes, Y free at the 33rd", &[bit(Y, 0), bit(X, 0)], 10),
        case_33("33 nodes, Y free", &[bit(Y, 0)], 9),
        case_33("33 nodes, operand 32", &[not(32)], 9),
        case_33("33 nodes, operand 255", &[tc(255, X, X)], 9),
        case_33("33 nodes, field fault", &[bit(X, 5)], 5),
    ]
}
