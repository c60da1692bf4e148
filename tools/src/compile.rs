//! Formulas as written to few nodes.
//!
//! A formula of raw forms becomes nodes just as it stands, from left to right, equal parts once. One
//! with fields is first brought into a form in which chains of `&` and `|` are sets: constants,
//! doubles and complements go, `!a & !b` is `!(a | b)`, what alternatives have in common is put
//! before them, and pairs that stand in several chains are one node.

mod gates;
mod parts;
mod rewriting;

use crate::formula::{Node, Sign, Variable, MOST_NODES, MOST_POLICIES};
use crate::kind::node;
use crate::widths::Widths;
use crate::written::Written;
use gates::{Gates, Nodes};
use parts::{Id, Parts, Tricks};
use std::collections::HashMap;

/// The most alternatives that a formula is split into.
const MOST_ALTERNATIVES: usize = 64;

/// The nodes of the policies that a formula becomes.
#[derive(Clone, Debug, PartialEq, Eq)]
pub enum Compiled {
    /// One policy; whether it is the same whatever the network is, and which.
    One(Vec<Node>, Option<bool>),
    /// Several policies, each of which forbids a part of it, and the nodes that it has in one.
    Split(Vec<Vec<Node>>, usize),
    /// More nodes than a policy has, and no way to split it: so many.
    TooLong(usize),
}

/// Compiles a formula; it is split only if it has more nodes than a policy may have.
pub fn compile(written: &Written, of: Widths) -> Compiled {
    if written.is_raw() {
        let nodes = as_it_stands(written);
        if nodes.len() <= MOST_NODES {
            return Compiled::One(nodes, None);
        }
    }
    let mut least = usize::MAX;
    let mut forms = vec![];
    for tricks in [Tricks::None, Tricks::Renaming, Tricks::Order] {
        let mut parts = Parts::with(tricks);
        let whole = parts.take(written, of);
        let nodes = fewest(&mut parts, whole);
        if nodes.len() <= MOST_NODES {
            return Compiled::One(nodes, parts.constant(whole));
        }
        least = least.min(nodes.len());
        forms.push((parts, whole));
    }
    let splits = forms.iter_mut().filter_map(|(parts, whole)| split(parts, *whole));
    match splits.chain(halved(written, of)).min_by_key(Vec::len) {
        // Put together from its alternatives, the whole had fewer nodes.
        Some(mut policies) if policies.len() == 1 => Compiled::One(policies.remove(0), None),
        Some(policies) => Compiled::Split(policies, least),
        None => Compiled::TooLong(least),
    }
}

/// The most nodes that operands can name.
const MOST_NAMED: usize = 256;

/// The nodes of a formula that has too many of them without closures that are there to save some. Its
/// truth is explained by these, as such a closure is no walk. None beyond what operands can name.
pub fn without_tricks(written: &Written, of: Widths) -> Option<Vec<Node>> {
    let mut parts = Parts::with(Tricks::None);
    let whole = parts.take(written, of);
    let is_shortened = |nodes: &Vec<Node>| (MOST_NODES + 1..=MOST_NAMED).contains(&nodes.len());
    Some(fewest(&mut parts, whole)).filter(is_shortened)
}

/// The nodes of a formula of raw forms.
fn as_it_stands(written: &Written) -> Vec<Node> {
    let mut nodes = Nodes::default();
    stand(written, &mut nodes);
    nodes.nodes
}

fn stand(written: &Written, nodes: &mut Nodes) -> usize {
    let number = |variable: &Variable| usize::from(variable.number());
    match written {
        Written::Bit(one, bit) => nodes.number(node::BIT, number(one), usize::from(*bit)),
        Written::Steps(one, other) => nodes.number(node::R, number(one), number(other)),
        Written::External(one) => nodes.number(node::E, number(one), 0),
        Written::Not(part) => {
            let part = stand(part, nodes);
            nodes.number(node::NOT, part, 0)
        }
        Written::And(parts) => stand_chain(Sign::And, parts, nodes),
        Written::Or(parts) => stand_chain(Sign::Or, parts, nodes),
        Written::Some(part, bound) => {
            let part = stand(part, nodes);
            nodes.number(node::SOME, part, number(bound))
        }
        Written::All(part, bound) => {
            let part = stand(part, nodes);
            nodes.number(node::ALL, part, number(bound))
        }
        Written::Closure(part, from, to) => {
            let part = stand(part, nodes);
            nodes.number(node::TC, part, 2 * number(from) + number(to))
        }
        Written::Fits(..) | Written::Same(..) => unreachable!("no raw form"),
    }
}

fn stand_chain(sign: Sign, parts: &[Written], nodes: &mut Nodes) -> usize {
    let mut whole = stand(&parts[0], nodes);
    for part in &parts[1..] {
        let part = stand(part, nodes);
        whole = nodes.number(sign.kind(), whole, part);
    }
    whole
}

/// The fewest nodes found for a part: as it is, and with common parts put first; facts about Y as
/// they are, and renamed.
fn fewest(parts: &mut Parts, id: Id) -> Vec<Node> {
    let factored = parts.rewritten(id, Parts::common_first, &mut HashMap::new());
    let mut forms = vec![id, factored];
    if parts.tricks != Tricks::None {
        for form in [id, factored] {
            forms.push(parts.rewritten(form, Parts::renamed_chain, &mut HashMap::new()));
        }
    }
    let nodes = forms.into_iter().map(|form| Gates::new(parts).nodes(form));
    nodes.min_by_key(Vec::len).unwrap_or_default()
}

/// Policies that forbid the alternatives of a part between them, if each fits.
fn split(parts: &mut Parts, whole: Id) -> Option<Vec<Vec<Node>>> {
    let mut policies: Vec<(Vec<Id>, Vec<Node>)> = vec![];
    for alternative in short_alternatives(parts, whole)? {
        let before = policies.last().map_or(&[][..], |(before, _)| before);
        let joined = [before, &[alternative]].concat();
        let id = parts.chain(Sign::Or, joined.iter().copied());
        let nodes = fewest(parts, id);
        if nodes.len() <= MOST_NODES {
            policies.pop();
            policies.push((joined, nodes));
        } else if policies.len() == MOST_POLICIES {
            return None;
        } else {
            policies.push((vec![alternative], fewest(parts, alternative)));
        }
    }
    Some(policies.into_iter().map(|(_, nodes)| nodes).collect())
}

/// Policies that forbid the halves of a formula between them, halved until each fits.
fn halved(written: &Written, of: Widths) -> Option<Vec<Vec<Node>>> {
    let mut policies = vec![];
    let mut waiting = vec![written.clone()];
    while let Some(next) = waiting.pop() {
        match short(&next, of) {
            Some(nodes) => policies.push(nodes),
            None => {
                let [one, other] = next.halves()?;
                waiting.extend([other, one]);
            }
        }
        if policies.len() + waiting.len() > MOST_POLICIES {
            return None;
        }
    }
    Some(policies)
}

/// The nodes of a formula, if they are few enough.
fn short(written: &Written, of: Widths) -> Option<Vec<Node>> {
    let nodes = |tricks| {
        let mut parts = Parts::with(tricks);
        let whole = parts.take(written, of);
        fewest(&mut parts, whole)
    };
    let all = [Tricks::None, Tricks::Renaming, Tricks::Order].into_iter().map(nodes);
    all.into_iter().find(|nodes| nodes.len() <= MOST_NODES)
}

/// The alternatives of a part, taken apart until each has few enough nodes.
fn short_alternatives(parts: &mut Parts, whole: Id) -> Option<Vec<Id>> {
    let mut short = vec![];
    let mut waiting = vec![whole];
    while let Some(id) = waiting.pop() {
        if fewest(parts, id).len() <= MOST_NODES {
            short.push(id);
            continue;
        }
        let mut alternatives = parts.alternatives(id);
        let count = short.len() + waiting.len() + alternatives.len();
        if alternatives.len() < 2 || count > MOST_ALTERNATIVES {
            return None;
        }
        alternatives.reverse();
        waiting.extend(alternatives);
    }
    Some(short)
}
