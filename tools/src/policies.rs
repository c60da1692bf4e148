//! Reads policies, and puts the parts of those that are too long behind the last one.

use crate::advice::advised;
use crate::compile::{compile, without_tricks, Compiled};
use crate::fault::Fault;
use crate::formula::{read_nodes, Formula, Node, MOST_NODES, MOST_POLICIES};
use crate::kind::{self, node};
use crate::parse::{PolicyText, Reader};
use crate::record;
use crate::templates::read_sentence;
use crate::tokens::{Place, Statement, Token};
use crate::widths::Widths;
use crate::written::{read_formula, Written};

/// The most characters of a policy's name.
const MOST_NAME: usize = 60;

/// The parts of a policy behind its first.
#[derive(Clone, Debug)]
pub(crate) struct Split {
    policy: u8,
    parts: Vec<Vec<Node>>,
    /// The nodes that the policy has in one.
    nodes: usize,
    /// Those of the policy as written.
    whole: Option<Vec<Node>>,
    place: Place,
    source: String,
}

impl Reader {
    pub(crate) fn policy(
        &mut self,
        of: Widths,
        statement: &mut Statement,
    ) -> Result<Vec<u8>, Fault> {
        let keyword = statement.last();
        let number = statement.peek();
        let policy = statement.byte("the number of a policy", 7)?;
        self.in_order(policy, number)?;
        let line = keyword.place.line;
        self.numbers.push((policy, line));
        let name = self.policy_name(policy, statement)?;
        let as_nodes = statement.accept("nodes");
        statement.expect(":")?;
        let source = statement.rest();
        let (nodes, whole) = match as_nodes {
            true => (read_nodes(statement, of.bits())?, None),
            false => self.formula(of, policy, statement)?,
        };
        statement.finish()?;
        if !all_are_used(&nodes) {
            let what = "has nodes that are no part of its last one";
            self.note(format!("line {line}: policy {policy} {what}"));
        }
        if let Some(formula) = Formula::of(&nodes) {
            self.policies.push(PolicyText { number: policy, name, line, source, formula, whole });
        }
        Ok(policy_bytes(policy, &nodes))
    }

    /// The nodes of a sentence or a formula, and those of it as written where they are others; parts
    /// that have no room in one policy are kept.
    fn formula(
        &mut self,
        of: Widths,
        policy: u8,
        statement: &mut Statement,
    ) -> Result<(Vec<Node>, Option<Vec<Node>>), Fault> {
        let start = statement.peek();
        let source = statement.rest();
        let forms = self.forms(of, statement).map_err(|fault| {
            let place = Place { line: fault.line, column: fault.column };
            let fault = match place == start.place && statement.ahead(1).text != "(" {
                true => self.at_first(start.text, fault),
                false => fault,
            };
            advised(fault, statement.word_at(place), &source)
        })?;
        if forms[0].free()[1] {
            return Err(start.fault("Y is free in this policy; only X may be"));
        }
        match compile_forms(&forms, of) {
            Compiled::One(nodes, constant) => {
                if let Some(truth) = constant {
                    let what = if truth { "is broken by every state" } else { "forbids nothing" };
                    let line = start.place.line;
                    self.note(format!("line {line}: policy {policy} {what}, in any network"));
                }
                Ok((nodes, without_tricks(&forms[0], of)))
            }
            Compiled::Split(mut parts, nodes) => {
                let first = parts.remove(0);
                let whole = without_tricks(&forms[0], of);
                let place = start.place;
                self.parts.push(Split {
                    policy,
                    parts,
                    nodes,
                    whole: whole.clone(),
                    place,
                    source,
                });
                Ok((first, whole))
            }
            Compiled::TooLong(nodes) => {
                let message = format!("the policy has {nodes} nodes; the most is {MOST_NODES}");
                let hint = "say it with fewer parts, or as several policies";
                Err(start.fault(message).hint(hint))
            }
        }
    }

    /// The formula of a policy, and a second one that is shorter where there is one.
    fn forms(&mut self, of: Widths, statement: &mut Statement) -> Result<Vec<Written>, Fault> {
        let forms = match read_sentence(self, statement, of)? {
            Some(forms) => forms,
            None => vec![read_formula(self, statement, of)?],
        };
        statement.finish()?;
        Ok(forms)
    }

    /// The parts of policies behind the last policy, each with its line, if there is room.
    pub(crate) fn rest_of_policies(&mut self) -> Result<Vec<(Vec<u8>, usize)>, Fault> {
        let mut records = vec![];
        for split in std::mem::take(&mut self.parts) {
            let Split { policy, parts, nodes, whole, place, source } = split;
            let line = place.line;
            let count = parts.len() + 1;
            let name = self.names.policy(policy).map(String::from);
            let mut numbers = vec![];
            for part in parts {
                let number = self.numbers.last().map_or(0, |(last, _)| last.saturating_add(1));
                if usize::from(number) >= MOST_POLICIES {
                    let message = format!(
                        "the policy has {nodes} nodes, where {MOST_NODES} are the most; as {count} \
                         policies there would be more than {MOST_POLICIES}"
                    );
                    return Err(place.fault(1, message));
                }
                self.numbers.push((number, line));
                numbers.push(number.to_string());
                if let Some(name) = &name {
                    self.names.give_policy(number, name);
                }
                if let Some(formula) = Formula::of(&part) {
                    let (name, source, whole) = (name.clone(), source.clone(), whole.clone());
                    self.policies.push(PolicyText { number, name, line, source, formula, whole });
                }
                self.open = Some(number);
                records.push((policy_bytes(number, &part), line));
            }
            self.note(format!(
                "line {line}: policy {policy} has {nodes} nodes, where {MOST_NODES} are the most; \
                 parts of it are policy {}",
                numbers.join(" and ")
            ));
        }
        Ok(records)
    }

    /// Each policy stands once, one after the other: nodes of one number are one policy.
    fn in_order(&self, policy: u8, number: Token) -> Result<(), Fault> {
        let same = self.numbers.iter().find(|(given, _)| *given == policy);
        if let Some((_, line)) = same {
            let message = format!("policy {policy} is given already, in line {line}");
            return Err(number.fault(message).earlier(*line));
        }
        match self.numbers.last() {
            None if policy != 0 => Err(number.fault("the first policy has the number 0")),
            Some((last, line)) if policy != last.saturating_add(1) => {
                let message = format!(
                    "policy {policy} stands after policy {last} (line {line}), where {} is next",
                    last.saturating_add(1)
                );
                Err(number.fault(message).earlier(*line))
            }
            _ => Ok(()),
        }
    }

    /// Reads the name of a policy, if there is one.
    fn policy_name(
        &mut self,
        policy: u8,
        statement: &mut Statement,
    ) -> Result<Option<String>, Fault> {
        let token = statement.peek();
        if !token.text.starts_with('"') {
            return Ok(None);
        }
        let name = token.text.trim_matches('"');
        if name.is_empty() || name.chars().count() > MOST_NAME {
            return Err(token.fault(format!("a policy's name has 1 to {MOST_NAME} characters")));
        }
        if let Some(other) = self.names.policy_named(name) {
            let given = self.numbers.iter().find(|(number, _)| *number == other);
            let line = given.map_or(0, |(_, line)| *line);
            let message = format!("policy {other} has this name (line {line})");
            return Err(token.fault(message).earlier(line));
        }
        statement.take();
        self.names.give_policy(policy, name);
        Ok(Some(name.to_string()))
    }
}

/// The first of several equal forms that is the fewest policies, or else the first.
fn compile_forms(forms: &[Written], of: Widths) -> Compiled {
    let policies = |compiled: &Compiled| match compiled {
        Compiled::One(..) => 1,
        Compiled::Split(parts, _) => parts.len(),
        Compiled::TooLong(_) => usize::MAX,
    };
    let first = compile(&forms[0], of);
    let others = forms[1..].iter().map(|form| compile(form, of));
    others.fold(first, |best, other| if policies(&other) < policies(&best) { other } else { best })
}

/// The records of a policy's nodes.
fn policy_bytes(policy: u8, nodes: &[Node]) -> Vec<u8> {
    let of_node = |[kind, one, other]: &Node| record(&[kind::POLICY, policy, *kind, *one, *other]);
    nodes.iter().flat_map(of_node).collect()
}

/// Whether every node but the last is an operand of a later one.
fn all_are_used(nodes: &[Node]) -> bool {
    let uses = |[kind, one, other]: &Node, number: usize| match *kind {
        node::NOT | node::SOME | node::ALL | node::TC => usize::from(*one) == number,
        node::AND | node::OR => [one, other].iter().any(|operand| usize::from(**operand) == number),
        _ => false,
    };
    (1..nodes.len()).all(|later| nodes[later..].iter().any(|node| uses(node, later - 1)))
}
