//! Which relations the policies of a timed network close.

use crate::formulas::{and, bit, or, push, r, Node, X, Y};

/// Whether policies close one relation or several.
#[derive(Clone, Copy, Debug, PartialEq, Eq)]
pub enum Closures {
    /// All of them the steps.
    Same,
    /// Each the steps where one bit of the first state or one of the second is set, other bits in each.
    Own,
}

/// The variables of a step, the first steps to the second.
pub type Pair = [u8; 2];

/// A way to write the closures of a network's policies.
#[derive(Clone, Copy, Debug, PartialEq, Eq)]
pub struct Closing {
    pub closures: Closures,
    pub pair: Pair,
}

impl Closing {
    pub const ALL: [Closing; 4] = [
        Closing { closures: Closures::Same, pair: [X, Y] },
        Closing { closures: Closures::Same, pair: [Y, X] },
        Closing { closures: Closures::Own, pair: [X, Y] },
        Closing { closures: Closures::Own, pair: [Y, X] },
    ];

    /// The words for it, in two columns.
    pub const COLUMNS: [&'static str; 2] = ["closures", "pair"];

    /// What stands in these columns.
    pub fn words(self) -> [String; 2] {
        let closures = match self.closures {
            Closures::Same => "same",
            Closures::Own => "own",
        };
        let pair = if self.pair == [X, Y] { "(X,Y)" } else { "(Y,X)" };
        [closures, pair].map(str::to_string)
    }

    /// The nodes of the relation that a policy closes, those added that are not there; the number of the
    /// last one is told.
    pub fn push_step(self, nodes: &mut Vec<Node>, policy: u8, bits: u8) -> u8 {
        let [from, to] = self.pair;
        let step = push_once(nodes, r(from, to));
        if self.closures == Closures::Same {
            return step;
        }
        let first = policy * bits / 8;
        let second = (first + 1 + policy % 2) % bits;
        let [one, other] = [bit(from, first), bit(to, second)].map(|bit| push_once(nodes, bit));
        let either = push_once(nodes, or(one, other));
        push_once(nodes, and(step, either))
    }
}

/// The number of a node, which is added unless it is there.
fn push_once(nodes: &mut Vec<Node>, node: Node) -> u8 {
    match nodes.iter().position(|other| *other == node) {
        Some(place) => place as u8,
        None => push(nodes, node),
    }
}
