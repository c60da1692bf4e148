//! Reading the fields of one record; `None` stands for a field fault (row 5, 16 in a group, or 12 in a
//! command).

use super::network::{
    Action, Bucket, Group, Link, Match, Node, Pattern, Record, Rule, Target, Variable, Version,
};
use super::states::{Point, Widths};

/// Actions of a rule: their count, then room for four of three bytes.
const ACTIONS: std::ops::Range<usize> = 8..21;
/// The highest number of a group.
const HIGHEST_GROUP: u8 = 15;

/// The version in a widths record; the widths have a row of their own.
pub fn version(record: &Record) -> Option<Version> {
    let version = match record[4] {
        0 => Version::Unnamed,
        1 => Version::V1_0,
        4 => Version::V1_3,
        _ => return None,
    };
    are_zero(&record[5..]).then_some(version)
}

/// The fields of a link record.
pub fn link(widths: Widths, record: &Record) -> Option<Link> {
    let one = Point { switch: record[1], port: record[2] };
    let other = Point { switch: record[3], port: record[4] };
    let sound = widths.has(one) && widths.has(other) && are_zero(&record[5..]);
    sound.then_some(Link { one, other })
}

/// The switch and the actions of a miss record.
pub fn miss(widths: Widths, record: &Record) -> Option<(usize, Vec<Action>)> {
    let rule = rule(widths, record)?;
    are_zero(&record[2..8]).then_some((usize::from(rule.matching.switch), rule.actions))
}

/// The fields of a rule, from a record or a command.
pub fn rule(widths: Widths, record: &Record) -> Option<Rule> {
    let matching = matching(widths, record)?;
    let actions = actions(widths, record[ACTIONS.start], &record[9..ACTIONS.end])?;
    Some(Rule { matching, actions })
}

/// The fields of a delete: a match alone.
pub fn delete(widths: Widths, record: &Record) -> Option<Match> {
    let matching = matching(widths, record)?;
    are_zero(&record[ACTIONS]).then_some(matching)
}

/// The match of a rule record, whose unnamed bytes are zero.
fn matching(widths: Widths, record: &Record) -> Option<Match> {
    let switch = record[1];
    let sound = usize::from(switch) < widths.switches() && are_zero(&record[ACTIONS.end..]);
    if !sound {
        return None;
    }
    Some(Match {
        switch,
        priority: u16::from_le_bytes([record[2], record[3]]),
        port: pattern(widths.port, record[4], record[5])?,
        header: pattern(widths.header, record[6], record[7])?,
    })
}

/// A pattern: value within care, care within the width.
fn pattern(width: u8, value: u8, care: u8) -> Option<Pattern> {
    let sound = value & !care == 0 && u16::from(care) < 1 << width;
    sound.then_some(Pattern { value, care })
}

/// The used actions, the last of them not SET; unused ones are zero.
fn actions(widths: Widths, count: u8, bytes: &[u8]) -> Option<Vec<Action>> {
    if !(1..=4).contains(&count) {
        return None;
    }
    let (used, unused) = bytes.split_at(3 * usize::from(count));
    let actions =
        used.chunks(3).map(|bytes| action(widths, bytes)).collect::<Option<Vec<Action>>>()?;
    let ends_in_set = matches!(actions.last(), Some(Action::Set(_)));
    (!ends_in_set && are_zero(unused)).then_some(actions)
}

/// One action: kind, value, care.
fn action(widths: Widths, bytes: &[u8]) -> Option<Action> {
    match *bytes {
        [1, value, care] => pattern(widths.port, value, care).map(Action::Output),
        [2, value, care] => pattern(widths.header, value, care).map(Action::Set),
        [3, 0, 0] => Some(Action::InPort),
        [4, number, 0] if number <= HIGHEST_GROUP => Some(Action::Group(number)),
        _ => None,
    }
}

/// The fields of a group record; that its groups are there is left to the later rows.
pub fn group(widths: Widths, record: &Record) -> Option<Group> {
    let [_, switch, number, ..] = *record;
    let within = usize::from(switch) < widths.switches() && number <= HIGHEST_GROUP;
    let unnamed = are_zero(&record[3..8]) && are_zero(&record[21..]);
    let count = usize::from(record[8]);
    if !within || !unnamed || !(1..=3).contains(&count) {
        return None;
    }
    let (used, unused) = record[9..21].split_at(4 * count);
    let buckets =
        used.chunks(4).map(|bytes| bucket(widths, bytes)).collect::<Option<Vec<Bucket>>>()?;
    are_zero(unused).then_some(Group { switch, number, buckets })
}

/// One bucket: header value and care, target kind and number.
fn bucket(widths: Widths, bytes: &[u8]) -> Option<Bucket> {
    let [value, care, kind, number] = *bytes else {
        return None;
    };
    let target = match kind {
        1 if number < widths.ports() => Target::Port(number),
        2 if number <= HIGHEST_GROUP => Target::Group(number),
        _ => return None,
    };
    Some(Bucket { header: pattern(widths.header, value, care)?, target })
}

/// The policy number and the node of a policy record. Policy 8 is left to the later rows, and so is
/// every operand.
pub fn node(widths: Widths, record: &Record) -> Option<(usize, Node)> {
    let [_, policy, kind, one, other, ..] = *record;
    if policy > 8 || !are_zero(&record[5..]) {
        return None;
    }
    let operand = usize::from(one);
    let node = match kind {
        0 if other < widths.bits() => Node::Bit(variable(one)?, other),
        1 => Node::Steps(variable(one)?, variable(other)?),
        2 if other == 0 => Node::External(variable(one)?),
        3 if other == 0 => Node::Not(operand),
        4 => Node::And(operand, usize::from(other)),
        5 => Node::Or(operand, usize::from(other)),
        6 => Node::Some(operand, variable(other)?),
        7 => Node::All(operand, variable(other)?),
        8 => Node::Closure(operand, variable(other / 2)?, variable(other % 2)?),
        _ => return None,
    };
    Some((usize::from(policy), node))
}

fn variable(byte: u8) -> Option<Variable> {
    match byte {
        0 => Some(Variable::X),
        1 => Some(Variable::Y),
        _ => None,
    }
}

fn are_zero(bytes: &[u8]) -> bool {
    bytes.iter().all(|byte| *byte == 0)
}
