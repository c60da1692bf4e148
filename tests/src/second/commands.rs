//! Commands and what they make of a network.

use super::fields;
use super::file::MOST_RULES;
use super::network::{Match, Network, Record, Rule, Version};
use super::states::Widths;

pub enum Command {
    Add(Rule),
    Modify(Rule),
    Delete(Match),
}

/// The command in some bytes; `None` is row 12.
pub fn read(widths: Widths, given: &[u8]) -> Option<Command> {
    let record: &Record = given.try_into().ok()?;
    match record[0] {
        6 => fields::rule(widths, record).map(Command::Add),
        7 => fields::rule(widths, record).map(Command::Modify),
        8 => fields::delete(widths, record).map(Command::Delete),
        _ => None,
    }
}

/// Whether the network has each group that a command's actions run; if not, that is row 16.
pub fn has_groups(network: &Network, command: &Command) -> bool {
    match command {
        Command::Add(rule) | Command::Modify(rule) => {
            network.has_groups_of(rule.matching.switch, &rule.actions)
        }
        Command::Delete(_) => true,
    }
}

/// The network that a command leaves; `None` is row 13.
pub fn apply(network: &Network, command: Command) -> Option<Network> {
    let mut left = network.clone();
    match command {
        Command::Add(rule) => match left.same_rule(rule.matching) {
            Some(place) => left.rules[place] = rule,
            None if left.rules.len() == MOST_RULES => return None,
            None => left.rules.push(rule),
        },
        Command::Modify(rule) => match left.same_rule(rule.matching) {
            Some(place) => left.rules[place].actions = rule.actions,
            // In OpenFlow 1.0 a modify without its rule acts as an add.
            None if left.version == Version::V1_0 => return apply(network, Command::Add(rule)),
            None => {}
        },
        Command::Delete(matching) => left.rules.retain(|rule| rule.matching != matching),
    }
    Some(left)
}
