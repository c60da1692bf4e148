//! Nodes, equal ones once, and the nodes of a part of a formula.

use super::parts::{Id, Part, Parts};
use crate::formula::{Node, Sign, Variable};
use crate::kind::node;
use std::collections::{BTreeMap, BTreeSet, HashMap};

/// The most members of all chains among which pairs are looked for.
const MOST_SHARED: usize = 400;

/// Nodes so far, equal ones once.
#[derive(Default)]
pub(super) struct Nodes {
    pub(super) nodes: Vec<Node>,
    numbers: HashMap<[usize; 3], usize>,
}

impl Nodes {
    /// The number of a node. Beyond what a byte holds only the count is of use.
    pub(super) fn number(&mut self, kind: u8, one: usize, other: usize) -> usize {
        let Nodes { nodes, numbers } = self;
        *numbers.entry([kind.into(), one, other]).or_insert_with(|| {
            nodes.push([kind, one as u8, other as u8]);
            nodes.len() - 1
        })
    }
}

/// The chains of a part as sets that nodes are made of, negated parts gathered under one NOT.
pub(super) struct Gates<'p> {
    parts: &'p mut Parts,
    chains: BTreeMap<Id, (Sign, BTreeSet<Id>)>,
    nodes: Nodes,
    numbers: HashMap<Id, usize>,
}

impl Gates<'_> {
    pub(super) fn new(parts: &mut Parts) -> Gates<'_> {
        Gates { parts, chains: BTreeMap::new(), nodes: Nodes::default(), numbers: HashMap::new() }
    }

    pub(super) fn nodes(mut self, whole: Id) -> Vec<Node> {
        if let Some(truth) = self.parts.constant(whole) {
            // Bit 0 of X is 1 or it is not: the one joined to the other by OR, or by AND.
            let both = if truth { node::OR } else { node::AND };
            return vec![[node::BIT, 0, 0], [node::NOT, 0, 0], [both, 0, 1]];
        }
        self.gather(whole);
        let size: usize = self.chains.values().map(|(_, set)| set.len()).sum();
        // What is far too long stays so.
        while size < MOST_SHARED && self.share_a_pair() {}
        self.emit(whole);
        self.nodes.nodes
    }

    /// Takes in the chains that a part is made of.
    fn gather(&mut self, id: Id) {
        if self.chains.contains_key(&id) {
            return;
        }
        match self.parts.parts[id].clone() {
            Part::Not(inside)
            | Part::Some(inside, _)
            | Part::All(inside, _)
            | Part::Closure(inside, ..) => self.gather(inside),
            Part::Chain(sign, ids) => {
                let (negated, mut set): (Vec<Id>, Vec<Id>) =
                    ids.into_iter().partition(|id| self.parts.is_negated(*id));
                if !negated.is_empty() {
                    // Of two or more, the chain is one part: not one of those that are negated.
                    set.push(self.parts.chain(sign, negated));
                }
                let set: BTreeSet<Id> = set.into_iter().collect();
                self.chains.insert(id, (sign, set.clone()));
                set.into_iter().for_each(|id| self.gather(id));
            }
            _ => {}
        }
    }

    /// Makes the pair that most chains of a sign have a chain of its own; false if none has two.
    fn share_a_pair(&mut self) -> bool {
        let mut counts: BTreeMap<(Sign, Id, Id), usize> = BTreeMap::new();
        for (sign, set) in self.chains.values() {
            let ids: Vec<Id> = set.iter().copied().collect();
            for (place, one) in ids.iter().enumerate() {
                for other in &ids[place + 1..] {
                    *counts.entry((*sign, *one, *other)).or_default() += 1;
                }
            }
        }
        let long = |chains: &BTreeMap<Id, (Sign, BTreeSet<Id>)>, sign: Sign, one: Id, other: Id| {
            let has = |(its, set): &&(Sign, BTreeSet<Id>)| {
                *its == sign && set.len() > 2 && set.contains(&one) && set.contains(&other)
            };
            chains.values().any(|chain| has(&chain))
        };
        let shared = counts.into_iter().filter(|((sign, one, other), count)| {
            *count > 1 && long(&self.chains, *sign, *one, *other)
        });
        let Some(((sign, one, other), _)) = shared.max_by_key(|(_, count)| *count) else {
            return false;
        };
        let pair = BTreeSet::from([one, other]);
        let existing = self.chains.iter().find(|(_, chain)| **chain == (sign, pair.clone()));
        let id = match existing {
            Some((id, _)) => *id,
            // Not by `chain`, which would put the pair's own chains into it again.
            None => self.parts.id(Part::Chain(sign, vec![one, other])),
        };
        for (its, set) in self.chains.values_mut() {
            if *its == sign && set.len() > 2 && pair.is_subset(set) {
                set.retain(|member| !pair.contains(member));
                set.insert(id);
            }
        }
        self.chains.entry(id).or_insert((sign, pair));
        true
    }

    /// The number of a part's node, whose operands come before it.
    fn emit(&mut self, id: Id) -> usize {
        if let Some(number) = self.numbers.get(&id) {
            return *number;
        }
        let number = |variable: Variable| usize::from(variable.number());
        let made = match self.parts.parts[id].clone() {
            Part::Constant(_) => unreachable!("a constant is the whole formula or no part of it"),
            Part::Bit(one, bit) => self.nodes.number(node::BIT, number(one), bit.into()),
            Part::Steps(one, other) => self.nodes.number(node::R, number(one), number(other)),
            Part::External(one) => self.nodes.number(node::E, number(one), 0),
            Part::Not(inside) => {
                let inside = self.emit(inside);
                self.nodes.number(node::NOT, inside, 0)
            }
            Part::Chain(..) => self.emit_chain(id),
            Part::Some(inside, bound) => {
                let inside = self.emit(inside);
                self.nodes.number(node::SOME, inside, number(bound))
            }
            Part::All(inside, bound) => {
                let inside = self.emit(inside);
                self.nodes.number(node::ALL, inside, number(bound))
            }
            Part::Closure(inside, from, to) => {
                let inside = self.emit(inside);
                self.nodes.number(node::TC, inside, 2 * number(from) + number(to))
            }
        };
        self.numbers.insert(id, made);
        made
    }

    fn emit_chain(&mut self, id: Id) -> usize {
        let (sign, set) = self.chains[&id].clone();
        let mut whole = None;
        for member in set {
            let member = self.emit(member);
            whole = Some(match whole {
                None => member,
                Some(before) => self.nodes.number(sign.kind(), before, member),
            });
        }
        whole.expect("a chain has members")
    }
}
