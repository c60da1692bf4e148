//! The truth of a policy's nodes, worked out on demand and kept.

use super::network::{Free, Network, Node, Policy, Variable};
use super::states::{State, StateSet};
use std::collections::HashMap;

/// The states that X and Y stand for.
#[derive(Clone, Copy)]
struct Sight {
    x: usize,
    y: usize,
}

impl Sight {
    fn of(self, variable: Variable) -> usize {
        match variable {
            Variable::X => self.x,
            Variable::Y => self.y,
        }
    }

    fn with(self, variable: Variable, state: usize) -> Sight {
        match variable {
            Variable::X => Sight { x: state, ..self },
            Variable::Y => Sight { y: state, ..self },
        }
    }
}

/// What is known of one policy over one network.
pub struct Truth<'a> {
    network: &'a Network,
    steps: &'a [StateSet],
    policy: &'a Policy,
    /// For each node, its truth for the states of its free variables.
    known: Vec<Vec<Option<bool>>>,
    /// For a closure's operand and a state as X, the states that make the operand true as Y.
    related: HashMap<(usize, usize), StateSet>,
    /// For a closure's operand and a state, the states that chains of it reach from there.
    reached: HashMap<(usize, usize), StateSet>,
}

impl<'a> Truth<'a> {
    pub fn new(network: &'a Network, steps: &'a [StateSet], policy: &'a Policy) -> Truth<'a> {
        let states = network.widths.states();
        let room = |free: bool| if free { states } else { 1 };
        let unknown = |node: &Free| vec![None; room(node.x) * room(node.y)];
        Truth {
            network,
            steps,
            policy,
            known: policy.free.iter().map(unknown).collect(),
            related: HashMap::new(),
            reached: HashMap::new(),
        }
    }

    /// The lowest state that makes the last node true as X.
    pub fn lowest_breaking(&mut self) -> Option<usize> {
        (0..self.network.widths.states()).find(|state| self.is_breaking(*state))
    }

    /// Whether a state makes the last node true as X.
    pub fn is_breaking(&mut self, state: usize) -> bool {
        let last = self.policy.nodes.len() - 1;
        self.is_true(last, Sight { x: state, y: 0 })
    }

    /// The truth of a node, looked up or else worked out.
    fn is_true(&mut self, node: usize, sight: Sight) -> bool {
        let slot = self.slot(node, sight);
        if let Some(truth) = self.known[node][slot] {
            return truth;
        }
        let truth = self.work_out(node, sight);
        self.known[node][slot] = Some(truth);
        truth
    }

    /// Where the truth of a node is kept: variables that are not free do not matter.
    fn slot(&self, node: usize, sight: Sight) -> usize {
        let free = self.policy.free[node];
        match (free.x, free.y) {
            (false, false) => 0,
            (true, false) => sight.x,
            (false, true) => sight.y,
            (true, true) => sight.x * self.network.widths.states() + sight.y,
        }
    }

    fn work_out(&mut self, node: usize, sight: Sight) -> bool {
        let mut states = 0..self.network.widths.states();
        match self.policy.nodes[node] {
            Node::Bit(variable, bit) => sight.of(variable) >> bit & 1 == 1,
            Node::Steps(from, to) => self.steps[sight.of(from)].contains(sight.of(to)),
            Node::External(variable) => self.is_external(sight.of(variable)),
            Node::Not(operand) => !self.is_true(operand, sight),
            Node::And(one, other) => self.is_true(one, sight) && self.is_true(other, sight),
            Node::Or(one, other) => self.is_true(one, sight) || self.is_true(other, sight),
            Node::Some(operand, bound) => {
                states.any(|state| self.is_true(operand, sight.with(bound, state)))
            }
            Node::All(operand, bound) => {
                states.all(|state| self.is_true(operand, sight.with(bound, state)))
            }
            Node::Closure(operand, from, to) => self.reaches(operand, sight.of(from), sight.of(to)),
        }
    }

    fn is_external(&self, state: usize) -> bool {
        let point = State::numbered(state, self.network.widths).point;
        self.network.is_external(point)
    }

    /// Whether a chain of at least one pair leads from the start to the end.
    fn reaches(&mut self, operand: usize, start: usize, end: usize) -> bool {
        if let Some(reached) = self.reached.get(&(operand, start)) {
            return reached.contains(end);
        }
        let reached = self.search(operand, start);
        let truth = reached.contains(end);
        self.reached.insert((operand, start), reached);
        truth
    }

    /// Depth-first search; the start itself is reached only by a loop.
    fn search(&mut self, operand: usize, start: usize) -> StateSet {
        let mut reached = StateSet::empty();
        let mut waiting = vec![start];
        while let Some(state) = waiting.pop() {
            for next in self.related(operand, state).without(&reached) {
                reached.insert(next);
                waiting.push(next);
            }
        }
        reached
    }

    /// The states that make the operand true as Y, with this state as X.
    fn related(&mut self, operand: usize, x: usize) -> &StateSet {
        if !self.related.contains_key(&(operand, x)) {
            let mut related = StateSet::empty();
            for y in 0..self.network.widths.states() {
                if self.is_true(operand, Sight { x, y }) {
                    related.insert(y);
                }
            }
            self.related.insert((operand, x), related);
        }
        &self.related[&(operand, x)]
    }
}
