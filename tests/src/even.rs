//! Policies that hold whatever a switch chooses among rules of equal priority, if they hold over the
//! steps of all of them.

use crate::second::network::{Node, Policy};

/// On the ways from a node down to an R, the numbers of NOTs: whether some are even, whether some are
/// odd.
#[derive(Clone, Copy, Default)]
struct Ways {
    even: bool,
    odd: bool,
}

/// Whether every way from the last node down to an R passes an even number of NOTs.
pub fn is_even(policy: &Policy) -> bool {
    let mut ways: Vec<Ways> = vec![];
    for node in &policy.nodes {
        let below = node.operands().into_iter().map(|operand| ways[operand]);
        let both = |one: Ways, other: Ways| Ways {
            even: one.even || other.even,
            odd: one.odd || other.odd,
        };
        let below = below.fold(Ways::default(), both);
        ways.push(match node {
            Node::Steps(..) => Ways { even: true, odd: false },
            Node::Not(_) => Ways { even: below.odd, odd: below.even },
            _ => below,
        });
    }
    ways.last().is_some_and(|last| !last.odd)
}

/// The most NOTs on a way from the last node down to an R, if there is one.
pub fn most_nots(policy: &Policy) -> Option<usize> {
    let mut most: Vec<Option<usize>> = vec![];
    for node in &policy.nodes {
        let below = node.operands().into_iter().filter_map(|operand| most[operand]).max();
        most.push(match node {
            Node::Steps(..) => Some(0),
            Node::Not(_) => below.map(|nots| nots + 1),
            _ => below,
        });
    }
    most.pop().flatten()
}
