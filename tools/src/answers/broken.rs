//! A broken policy: the state that breaks it, the Y that goes with it, and the walks.

use super::Standing;
use crate::formula::{node_of, Node};
use crate::json::Object;
use crate::kind;
use crate::priorities::is_even;
use crate::steps::{Network, State, Step};
use crate::trouble::Trouble;
use crate::truth::{Reason, Truth};
use crate::widths::Widths;
use crate::Record;

/// The most switches of a reason's walks that are told in words.
const MOST_SWITCHES: usize = 16;

impl Standing<'_> {
    /// A broken policy, the state that breaks it, and why it does.
    pub fn broken_words(self, policy: usize, state: usize) -> Result<String, Trouble> {
        let network = self.network()?;
        let mut words = format!(
            "policy {policy}{} is broken by {}",
            self.policy_words(policy),
            self.numbered_words(network.widths, state)
        );
        let reasons = self.reasons(network, policy, state)?;
        for reason in &reasons {
            words += &self.reason_words(network, state, reason)?;
        }
        if reasons.is_empty() && wants_steps(network, policy) {
            words += &self.instead_words(network, state);
        }
        Ok(words)
    }

    /// A reason in words: Y, and the ways between the states.
    fn reason_words(self, network: Network, x: usize, reason: &Reason) -> Result<String, Trouble> {
        let start = reason.walks.first().and_then(|walk| walk.first());
        let switches = self.switches_of(network, reason)?;
        let mut words = match reason.y {
            Some(y) => format!("\n    with Y = {}", self.numbered_words(network.widths, y)),
            None if switches.is_empty() => return Ok(String::new()),
            None => "\n    back to itself".to_string(),
        };
        words += match switches.is_empty() {
            true => "",
            false if reason.y.is_some() && start != Some(&x) => ", from there by this way:",
            false if reason.y.is_some() => ", by this way:",
            false => " by this way:",
        };
        let more = switches.len().saturating_sub(MOST_SWITCHES);
        for switch in switches.iter().take(MOST_SWITCHES) {
            words += &format!("\n    - {switch}");
        }
        if more > 0 {
            words += &format!("\n    - and so on, {more} more");
        }
        Ok(words)
    }

    /// The ways of a reason, a line for each switch.
    fn switches_of(self, network: Network, reason: &Reason) -> Result<Vec<String>, Trouble> {
        let mut lines = vec![];
        for walk in &reason.walks {
            let steps = network.walked(walk)?;
            lines.extend(steps.iter().filter_map(|step| self.switch_words(network.widths, step)));
            lines.extend(self.end_words(network.widths, walk));
        }
        Ok(lines)
    }

    /// How a frame passes a switch; nothing of a step over a link.
    fn switch_words(self, of: Widths, step: &Step) -> Option<String> {
        let [from, to] = [step.from, step.to].map(|number| State::numbered(number, of));
        if from.departing {
            return None;
        }
        let [switch, port, header] = self.field_words(from);
        let [_, out, header_out] = self.field_words(to);
        let header = match from.header == to.header {
            true => header,
            false => format!("{header} set to {header_out}"),
        };
        let sent = if from.point == to.point { "back out" } else { "out" };
        let taken = self.taken_words(&step.taken);
        Some(format!(
            "switch {switch}: in at port {port}, {sent} at port {out}, header {header} ({taken})"
        ))
    }

    /// The switch at which a walk ends as it arrives, unless it is back where it started.
    fn end_words(self, of: Widths, walk: &[usize]) -> Option<String> {
        let end = walk.last().filter(|end| walk.first() != Some(end))?;
        let end = Some(State::numbered(*end, of)).filter(|end| !end.departing)?;
        let [switch, port, header] = self.field_words(end);
        Some(format!("switch {switch}: in at port {port}, header {header}"))
    }

    /// The same as fields of an object: every reason with its Y and its walks, and those of the first
    /// one by themselves.
    pub fn broken_object(
        self,
        object: Object,
        policy: usize,
        state: usize,
    ) -> Result<Object, Trouble> {
        let network = self.network()?;
        let text = self.source.policy(policy);
        let name = text.and_then(|policy| policy.name.as_deref());
        let of = network.widths;
        let reasons = self.reasons(network, policy, state)?;
        let first = reasons.first().cloned().unwrap_or_default();
        let objects: Result<Vec<Object>, Trouble> =
            reasons.iter().map(|reason| self.reason_object(network, reason)).collect();
        let object = object
            .number("policy", policy)
            .maybe(name, |object, name| object.text("policy_name", name))
            .maybe(text, |object, policy| object.number("policy_line", policy.line))
            .object("state", self.state_object(of, state))
            .maybe(first.y, |object, y| object.object("y", self.state_object(of, y)))
            .maybe(first.walks.first(), |object, walk| object.numbers("route", walk))
            .objects("reasons", &objects?);
        Ok(match reasons.is_empty() && wants_steps(network, policy) {
            true => self.instead_object(object, network, state),
            false => object,
        })
    }

    fn reason_object(self, network: Network, reason: &Reason) -> Result<Object, Trouble> {
        let walk = |walk: &Vec<usize>| self.walk_object(Object::new(), network, walk);
        let walks: Result<Vec<Object>, Trouble> = reason.walks.iter().map(walk).collect();
        let y = reason.y.map(|y| self.state_object(network.widths, y));
        Ok(Object::new().maybe(y, |object, y| object.object("y", y)).objects("walks", &walks?))
    }

    /// Why a state breaks a policy, by its nodes as written: its records may have a shorter form, whose
    /// closures are no walks. Walks are told only if they are the network's: a closure may be about other
    /// pairs of states than steps.
    fn reasons(
        self,
        network: Network,
        policy: usize,
        state: usize,
    ) -> Result<Vec<Reason>, Trouble> {
        let whole = self.source.policy(policy).and_then(|policy| policy.whole.clone());
        let nodes = whole.unwrap_or_else(|| nodes_of(network.records, policy));
        let is_way =
            |walk: &Vec<usize>| walk.windows(2).all(|pair| network.steps(pair[0], pair[1]));
        let mut reasons = Truth::of(network, &nodes).reasons(state)?;
        for reason in &mut reasons {
            reason.walks.retain(is_way);
        }
        reasons.retain(|reason| reason.y.is_some() || !reason.walks.is_empty());
        Ok(reasons)
    }
}

/// Whether a policy may be broken for want of a step, as one that is not even.
fn wants_steps(network: Network, policy: usize) -> bool {
    !is_even(&nodes_of(network.records, policy))
}

/// The nodes of a policy.
pub fn nodes_of(records: &[Record], policy: usize) -> Vec<Node> {
    let is_node = |record: &&Record| record[0] == kind::POLICY && usize::from(record[1]) == policy;
    records.iter().filter(is_node).map(node_of).collect()
}
