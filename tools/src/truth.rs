//! The truth of a policy's nodes for every pair of states, and the Y that goes with a state.

use crate::formula::Node;
use crate::kind::node;
use crate::route;
use crate::steps::{Network, State};
use crate::trouble::Trouble;

/// The states for which something is true, a bit each.
type Row = [u64; 16];

/// For each state as X, the states that make a node true as Y.
#[derive(Clone, Debug, PartialEq, Eq)]
pub struct Plane(Vec<Row>);

impl Plane {
    fn empty(states: usize) -> Plane {
        Plane(vec![[0; 16]; states])
    }

    fn of(states: usize, is_true: impl Fn(usize, usize) -> bool) -> Plane {
        let mut plane = Plane::empty(states);
        for x in 0..states {
            for y in (0..states).filter(|y| is_true(x, *y)) {
                plane.add(x, y);
            }
        }
        plane
    }

    fn add(&mut self, x: usize, y: usize) {
        self.0[x][y / 64] |= 1 << (y % 64);
    }

    pub fn has(&self, x: usize, y: usize) -> bool {
        self.0[x][y / 64] >> (y % 64) & 1 == 1
    }

    /// Pairs joined by a chain of one or more pairs.
    fn closed(mut self) -> Plane {
        for through in 0..self.0.len() {
            let onward = self.0[through];
            for x in 0..self.0.len() {
                if self.has(x, through) {
                    for (word, more) in self.0[x].iter_mut().zip(onward) {
                        *word |= more;
                    }
                }
            }
        }
        self
    }
}

/// The truth of each node of a policy.
#[derive(Clone, Debug)]
pub struct Truth<'a> {
    network: Network<'a>,
    nodes: &'a [Node],
    planes: Vec<Plane>,
}

impl<'a> Truth<'a> {
    pub fn of(network: Network<'a>, nodes: &'a [Node]) -> Truth<'a> {
        let states = network.states();
        let state = |number| State::numbered(number, network.widths);
        let mut steps = Plane::empty(states);
        for x in 0..states {
            for next in network.next(state(x)) {
                steps.add(x, next.number(network.widths));
            }
        }
        let external: Vec<bool> =
            (0..states).map(|number| network.is_external(state(number).point)).collect();
        let mut truth = Truth { network, nodes, planes: vec![] };
        for node in nodes {
            let plane = truth.plane(*node, &steps, &external);
            truth.planes.push(plane);
        }
        truth
    }

    fn plane(&self, node: Node, steps: &Plane, external: &[bool]) -> Plane {
        let [kind, one, other] = node;
        let states = external.len();
        let of = |variable: u8, x: usize, y: usize| if variable == 0 { x } else { y };
        let operand = |number: u8| &self.planes[usize::from(number)];
        match kind {
            node::BIT => Plane::of(states, |x, y| of(one, x, y) >> other & 1 == 1),
            node::R => Plane::of(states, |x, y| steps.has(of(one, x, y), of(other, x, y))),
            node::E => Plane::of(states, |x, y| external[of(one, x, y)]),
            node::NOT => Plane::of(states, |x, y| !operand(one).has(x, y)),
            node::AND => {
                Plane::of(states, |x, y| operand(one).has(x, y) && operand(other).has(x, y))
            }
            node::OR => {
                Plane::of(states, |x, y| operand(one).has(x, y) || operand(other).has(x, y))
            }
            node::SOME | node::ALL => {
                let plane = operand(one);
                let truth = |free: usize| {
                    let has = |bound: usize| match other {
                        0 => plane.has(bound, free),
                        _ => plane.has(free, bound),
                    };
                    match kind {
                        node::SOME => (0..states).any(has),
                        _ => (0..states).all(has),
                    }
                };
                let truths: Vec<bool> = (0..states).map(truth).collect();
                Plane::of(states, |x, y| truths[of(1 - other, x, y)])
            }
            _ => {
                let closed = operand(one).clone().closed();
                Plane::of(states, |x, y| closed.has(of(other / 2, x, y), of(other % 2, x, y)))
            }
        }
    }

    /// Whether a state as X makes the last node true.
    pub fn breaks(&self, x: usize) -> bool {
        self.planes.last().is_some_and(|plane| plane.has(x, 0))
    }

    /// Why a state breaks the policy: first what is so of the state alone, then for each `exists Y.`
    /// the lowest Y that goes with it. The library says that it does.
    pub fn reasons(&self, x: usize) -> Result<Vec<Reason>, Trouble> {
        if !self.breaks(x) {
            return Err(Trouble::internal(format!("state {x} does not break the policy here")));
        }
        let mut search = Search { truth: self, seen: vec![], reasons: vec![Reason::default()] };
        if let Some(last) = self.nodes.len().checked_sub(1) {
            search.explore(Sight { node: last, at: [x, 0], truth: true }, None)?;
        }
        Ok(search.reasons)
    }

    /// A shortest walk of one or more pairs for which a node is true, both ends included. Where the
    /// node is a step from X to Y, it is the route that the library finds.
    fn walk(&self, node: usize, from: usize, to: usize) -> Result<Vec<usize>, Trouble> {
        let walk = match self.nodes[node] {
            [node::R, 0, 1] => route::find(self.network.records, [from, to]).ok().flatten(),
            _ => self.walk_in_plane(node, from, to),
        };
        let message = || format!("no walk of node {node} leads from state {from} to state {to}");
        walk.ok_or_else(|| Trouble::internal(message()))
    }

    fn walk_in_plane(&self, node: usize, from: usize, to: usize) -> Option<Vec<usize>> {
        let plane = &self.planes[node];
        let mut before: Vec<Option<usize>> = vec![None; plane.0.len()];
        let mut reached = vec![from];
        let mut done = 0;
        while before[to].is_none() {
            let state = *reached.get(done)?;
            done += 1;
            for next in (0..plane.0.len()).filter(|next| plane.has(state, *next)) {
                if before[next].is_none() {
                    before[next] = Some(state);
                    reached.push(next);
                }
            }
        }
        let mut walk = vec![to];
        let mut last = before[to]?;
        while last != from {
            walk.push(last);
            last = before[last]?;
        }
        walk.push(from);
        walk.reverse();
        Some(walk)
    }
}

/// A part of why a state breaks a policy.
#[derive(Clone, Debug, Default, PartialEq, Eq)]
pub struct Reason {
    /// The lowest Y that goes with the state.
    pub y: Option<usize>,
    /// Walks between the states, each from state to state.
    pub walks: Vec<Vec<usize>>,
}

impl Reason {
    /// Adds a walk, to the last one if it goes on from there.
    fn add(&mut self, walk: Vec<usize>) {
        match self.walks.last_mut() {
            Some(before) if before.last() == walk.first() => before.extend(&walk[1..]),
            _ => self.walks.push(walk),
        }
    }
}

/// The most places that are looked at for reasons. Where there are more, that is told: a part of the
/// reasons would look like all of them.
const MOST_SEEN: usize = 1_000;

/// A node that is true, or false, for a pair of states as X and Y.
#[derive(Clone, Copy, PartialEq, Eq)]
struct Sight {
    node: usize,
    at: [usize; 2],
    truth: bool,
}

struct Search<'t> {
    truth: &'t Truth<'t>,
    /// What was looked at, for which reason: two reasons may rest on the same walk.
    seen: Vec<(Sight, Option<usize>)>,
    reasons: Vec<Reason>,
}

impl Search<'_> {
    /// Goes through the parts by which a node is true or false. Within an `exists Y.` it is known
    /// for which reason.
    fn explore(&mut self, sight: Sight, reason: Option<usize>) -> Result<(), Trouble> {
        if self.seen.contains(&(sight, reason)) {
            return Ok(());
        }
        if self.seen.len() == MOST_SEEN {
            return Err(Trouble::internal(format!(
                "the reasons are at more than {MOST_SEEN} places, and are not looked for"
            )));
        }
        self.seen.push((sight, reason));
        let Sight { node, at, truth } = sight;
        let [kind, one, other] = self.truth.nodes[node];
        let operands = [one, other].map(usize::from);
        match (kind, truth) {
            (node::R, true) => self.add(reason, operands.map(|variable| at[variable]).to_vec()),
            (node::NOT, _) => {
                self.explore(Sight { node: operands[0], at, truth: !truth }, reason)?;
            }
            (node::AND, true) | (node::OR, false) => {
                for node in operands {
                    self.explore(Sight { node, at, truth }, reason)?;
                }
            }
            (node::AND, false) | (node::OR, true) => {
                let agrees = |node: &usize| self.truth.planes[*node].has(at[0], at[1]) == truth;
                if let Some(node) = operands.into_iter().find(agrees) {
                    self.explore(Sight { node, at, truth }, reason)?;
                }
            }
            (node::SOME, true) | (node::ALL, false) => {
                self.choose(sight, operands[0], operands[1], reason)?;
            }
            (node::TC, true) => {
                let [from, to] = [at[operands[1] / 2], at[operands[1] % 2]];
                self.add(reason, self.truth.walk(operands[0], from, to)?);
            }
            _ => {}
        }
        Ok(())
    }

    fn add(&mut self, reason: Option<usize>, walk: Vec<usize>) {
        self.reasons[reason.unwrap_or(0)].add(walk);
    }

    /// Chooses the lowest state for the variable. An outermost `exists X.` is not about the state
    /// that breaks the policy.
    fn choose(
        &mut self,
        sight: Sight,
        node: usize,
        variable: usize,
        reason: Option<usize>,
    ) -> Result<(), Trouble> {
        if reason.is_none() && variable == 0 {
            return Ok(());
        }
        let plane = &self.truth.planes[node];
        let mut at = sight.at;
        let is_it = |state: &usize| {
            at[variable] = *state;
            plane.has(at[0], at[1]) == sight.truth
        };
        let Some(state) = (0..plane.0.len()).find(is_it) else { return Ok(()) };
        at[variable] = state;
        let reason = reason.unwrap_or_else(|| {
            self.reasons.push(Reason { y: Some(state), walks: vec![] });
            self.reasons.len() - 1
        });
        self.explore(Sight { node, at, ..sight }, Some(reason))
    }
}
