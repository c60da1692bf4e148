//! Policies put together node by node, and random ones.

use crate::random::Random;
use crate::records::{record, Record};

/// Kind and operands of a policy node.
pub type Node = [u8; 3];

pub const X: u8 = 0;
pub const Y: u8 = 1;

pub fn bit(variable: u8, bit: u8) -> Node {
    [0, variable, bit]
}

pub fn r(from: u8, to: u8) -> Node {
    [1, from, to]
}

pub fn external(variable: u8) -> Node {
    [2, variable, 0]
}

pub fn not(operand: u8) -> Node {
    [3, operand, 0]
}

pub fn and(one: u8, other: u8) -> Node {
    [4, one, other]
}

pub fn or(one: u8, other: u8) -> Node {
    [5, one, other]
}

pub fn some(operand: u8, bound: u8) -> Node {
    [6, operand, bound]
}

pub fn all(operand: u8, bound: u8) -> Node {
    [7, operand, bound]
}

pub fn tc(operand: u8, from: u8, to: u8) -> Node {
    [8, operand, 2 * from + to]
}

/// The records of a policy.
pub fn policy(number: u8, nodes: &[Node]) -> Vec<Record> {
    let node = |node: &Node| record(&[&[5, number], &node[..]].concat());
    nodes.iter().map(node).collect()
}

/// A node added to a formula, and its number.
pub fn push(nodes: &mut Vec<Node>, node: Node) -> u8 {
    nodes.push(node);
    nodes.len() as u8 - 1
}

/// The nodes that say that a variable is one state; the last one's number is told.
pub fn push_is_state(nodes: &mut Vec<Node>, variable: u8, state: usize, bits: u8) -> u8 {
    let mut conjunction = None;
    for place in 0..bits {
        let mut fact = push(nodes, bit(variable, place));
        if state >> place & 1 == 0 {
            fact = push(nodes, not(fact));
        }
        conjunction = Some(match conjunction {
            None => fact,
            Some(before) => push(nodes, and(before, fact)),
        });
    }
    conjunction.expect("a state has bits")
}

/// A policy broken just by a first state from which the relation leads to a second. The relation's
/// last node has X and Y free.
pub fn leads(first: usize, second: usize, relation: &[Node], bits: u8) -> Vec<Node> {
    let mut nodes = relation.to_vec();
    let relation = nodes.len() as u8 - 1;
    let is_first = push_is_state(&mut nodes, X, first, bits);
    let is_second = push_is_state(&mut nodes, Y, second, bits);
    let both = push(&mut nodes, and(is_first, is_second));
    let led = push(&mut nodes, and(both, relation));
    push(&mut nodes, some(led, Y));
    nodes
}

/// Free variables of a node: X, Y.
type Free = [bool; 2];

/// The free variables of a node over earlier ones.
fn free_of(node: Node, earlier: &[Free]) -> Free {
    let [kind, one, other] = node;
    let only = |variable: u8| [variable == X, variable == Y];
    let both = |a: Free, b: Free| [a[0] || b[0], a[1] || b[1]];
    let operand = |number: u8| earlier[usize::from(number)];
    match kind {
        0 | 2 => only(one),
        1 => both(only(one), only(other)),
        3 => operand(one),
        4 | 5 => both(operand(one), operand(other)),
        6 | 7 => {
            let mut free = operand(one);
            free[usize::from(other)] = false;
            free
        }
        _ => both(only(other / 2), only(other % 2)),
    }
}

/// A random node over so many earlier ones; recent ones are taken more often.
fn random_node(random: &mut Random, bits: u8, earlier: usize) -> Node {
    let variable = |random: &mut Random| random.bits(1);
    let operand = |random: &mut Random| match random.one_in(2) {
        true => earlier as u8 - 1,
        false => random.below(earlier) as u8,
    };
    let kinds = if earlier == 0 { 3 } else { 9 };
    let kind = random.below(kinds) as u8;
    match kind {
        0 => bit(variable(random), random.below(usize::from(bits)) as u8),
        1 => r(variable(random), variable(random)),
        2 => external(variable(random)),
        3 => not(operand(random)),
        4 | 5 => [kind, operand(random), operand(random)],
        6 | 7 => [kind, operand(random), variable(random)],
        _ => tc(operand(random), variable(random), variable(random)),
    }
}

/// That many random nodes, Y not free at the last.
pub fn random_formula(random: &mut Random, bits: u8, length: usize) -> Vec<Node> {
    let mut nodes = vec![];
    let mut free = vec![];
    while nodes.len() < length {
        let node = random_node(random, bits, nodes.len());
        let its = free_of(node, &free);
        if nodes.len() + 1 < length || !its[1] {
            nodes.push(node);
            free.push(its);
        }
    }
    nodes
}

/// A random formula closed by quantifiers, so that it is true everywhere or nowhere.
pub fn random_sentence(random: &mut Random, bits: u8, length: usize) -> Vec<Node> {
    let mut nodes = random_formula(random, bits, length - 2);
    let last = nodes.len() as u8 - 1;
    let quantifier = random.pick(&[some, all]);
    let closed = push(&mut nodes, quantifier(last, X));
    push(&mut nodes, random.pick(&[not(closed), or(closed, closed)]));
    nodes
}

/// The most nodes of a guard, a probe or layers.
pub const GUARD: usize = 18;

/// A random form of "what arrives outside with one bit set so never leaves with another set so".
pub fn random_guard(random: &mut Random, bits: u8) -> Vec<Node> {
    let top = bits - 1;
    let below_top = usize::from(top);
    let arriving_bit = random.below(below_top) as u8;
    let departing_bit = random.below(below_top) as u8;
    let arriving = random.pick(&[or(4, 4), not(4)]);
    let departing = random.pick(&[or(10, 10), not(10)]);
    vec![
        external(X),
        bit(X, top),
        not(1),
        and(0, 2),
        bit(X, arriving_bit),
        arriving,
        and(3, 5),
        external(Y),
        bit(Y, top),
        and(7, 8),
        bit(Y, departing_bit),
        departing,
        and(9, 11),
        r(X, Y),
        tc(13, X, Y),
        and(12, 14),
        some(15, Y),
        and(6, 16),
    ]
}

/// A random form of "a state like this steps, or gets, to one like that".
pub fn random_probe(random: &mut Random, bits: u8) -> Vec<Node> {
    let mut nodes = vec![r(X, Y)];
    let mut fact = match random.one_in(2) {
        true => push(&mut nodes, tc(0, X, Y)),
        false => 0,
    };
    for _ in 0..1 + random.below(3) {
        fact = push_random_bit(random, &mut nodes, fact, Y, bits);
    }
    fact = push(&mut nodes, some(fact, Y));
    for _ in 0..random.below(3) {
        fact = push_random_bit(random, &mut nodes, fact, X, bits);
    }
    nodes
}

/// A fact together with a random bit of a variable being 1 or 0; the number of that node is told.
fn push_random_bit(
    random: &mut Random,
    nodes: &mut Vec<Node>,
    fact: u8,
    variable: u8,
    bits: u8,
) -> u8 {
    let mut is_so = push(nodes, bit(variable, random.below(usize::from(bits)) as u8));
    if random.one_in(2) {
        is_so = push(nodes, not(is_so));
    }
    push(nodes, and(fact, is_so))
}

/// A step, negated, closed, quantified and joined with others layer by layer.
pub fn random_layers(random: &mut Random, bits: u8) -> Vec<Node> {
    let mut nodes = vec![r(X, Y)];
    let mut fact = 0;
    for _ in 0..1 + random.below(5) {
        fact = push_layer(random, &mut nodes, fact, bits);
    }
    let quantifier = random.pick(&[some, all]);
    fact = push(&mut nodes, quantifier(fact, Y));
    if random.one_in(3) {
        push(&mut nodes, not(fact));
    }
    nodes
}

/// One to three nodes over a fact; the number of the last one is told.
fn push_layer(random: &mut Random, nodes: &mut Vec<Node>, fact: u8, bits: u8) -> u8 {
    let variable = random.bits(1);
    let other = 1 - variable;
    match random.below(9) {
        0..4 => push(nodes, not(fact)),
        4 => push(nodes, tc(fact, variable, other)),
        5 => {
            let quantifier = random.pick(&[some, all]);
            push(nodes, quantifier(fact, variable))
        }
        6 => {
            let step = push(nodes, r(variable, other));
            let both = random.pick(&[and, or]);
            push(nodes, both(fact, step))
        }
        7 => push_random_bit(random, nodes, fact, variable, bits),
        _ => {
            let is_so = push(nodes, bit(variable, random.below(usize::from(bits)) as u8));
            push(nodes, or(fact, is_so))
        }
    }
}
