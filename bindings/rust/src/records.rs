//! Records put together from their parts: each part of a network, and a command, is a struct whose
//! `record` lays out the 24 bytes.
//!
//! Every value can be laid out. What no network can have is then refused by the calls: a number that
//! is too large for its width, say, or a fifth action, which is counted but has no room.

use crate::{Record, RECORD_BYTES};

/// A set of numbers, bit by bit: where `care` is 1 the bit must be that of `value`, and where it is 0
/// any bit matches.
#[derive(Clone, Copy, Debug, Default, PartialEq, Eq, Hash)]
pub struct Pattern {
    /// The bits that are asked for, or that an [`Action::Set`] writes.
    pub value: u8,
    /// Which bits those are.
    pub care: u8,
}

impl Pattern {
    /// Every number; as what is set, nothing.
    pub const ANY: Pattern = Pattern { value: 0, care: 0 };

    /// One number of so many bits.
    pub const fn exactly(number: u8, width: u8) -> Pattern {
        let care = if width < 8 { (1 << width) - 1 } else { u8::MAX };
        Pattern { value: number, care }
    }

    const fn bytes(self) -> [u8; 2] {
        [self.value, self.care]
    }
}

/// The bits of the fields, and the version of the wire: the first record of a network.
#[derive(Clone, Copy, Debug, PartialEq, Eq, Hash)]
pub struct Widths {
    /// H, the bits of a header: 1 to 6.
    pub header: u8,
    /// P, the bits of a port's number: 2 to 4.
    pub port: u8,
    /// W, the bits of a switch's number: 0 to 4.
    pub switch: u8,
    /// 1 for OpenFlow 1.0, 4 for OpenFlow 1.3, and 0 reads as 4.
    pub version: u8,
}

impl Widths {
    /// The bytes.
    pub fn record(self) -> Record {
        laid_out(&[1, self.header, self.port, self.switch, self.version])
    }
}

/// A port of a switch.
#[derive(Clone, Copy, Debug, PartialEq, Eq, Hash)]
pub struct Point {
    /// The switch's number.
    pub switch: u8,
    /// The port's number.
    pub port: u8,
}

/// A link between two points, both ways.
#[derive(Clone, Copy, Debug, PartialEq, Eq, Hash)]
pub struct Link {
    /// Its two ends.
    pub ends: [Point; 2],
}

impl Link {
    /// The bytes.
    pub fn record(self) -> Record {
        let [one, other] = self.ends;
        laid_out(&[2, one.switch, one.port, other.switch, other.port])
    }
}

/// What a switch does with a frame.
#[derive(Clone, Copy, Debug, PartialEq, Eq, Hash)]
pub enum Action {
    /// Sends a copy to the ports of a pattern, but not to the port of arrival.
    Output(Pattern),
    /// Writes the bits of a pattern into the header.
    Set(Pattern),
    /// Sends a copy back to the port of arrival.
    InPort,
    /// Runs the group of this number of the same switch.
    Group(u8),
}

impl Action {
    const fn bytes(self) -> [u8; 3] {
        match self {
            Action::Output(Pattern { value, care }) => [1, value, care],
            Action::Set(Pattern { value, care }) => [2, value, care],
            Action::InPort => [3, 0, 0],
            Action::Group(number) => [4, number, 0],
        }
    }
}

/// What a switch does with a frame that none of its rules matches.
#[derive(Clone, Copy, Debug, PartialEq, Eq, Hash)]
pub struct Miss<'a> {
    /// The switch's number.
    pub switch: u8,
    /// 1 to 4 actions, the last of which is no [`Action::Set`].
    pub actions: &'a [Action],
}

impl Miss<'_> {
    /// The bytes.
    pub fn record(self) -> Record {
        with_actions(laid_out(&[3, self.switch]), self.actions)
    }
}

/// What makes a rule the same rule: its switch, its priority, and the frames that it is for.
#[derive(Clone, Copy, Debug, PartialEq, Eq, Hash)]
pub struct Match {
    /// The switch's number.
    pub switch: u8,
    /// Of the rules that match a frame, those of the highest priority act.
    pub priority: u16,
    /// The ports at which its frames arrive.
    pub port: Pattern,
    /// The headers of its frames.
    pub header: Pattern,
}

impl Match {
    fn record(self, kind: u8) -> Record {
        let [low, high] = self.priority.to_le_bytes();
        let ([port, port_care], [header, header_care]) = (self.port.bytes(), self.header.bytes());
        laid_out(&[kind, self.switch, low, high, port, port_care, header, header_care])
    }
}

/// A rule of a switch's table.
#[derive(Clone, Copy, Debug, PartialEq, Eq, Hash)]
pub struct Rule<'a> {
    /// Its switch, its priority and its frames.
    pub of: Match,
    /// 1 to 4 actions, the last of which is no [`Action::Set`].
    pub actions: &'a [Action],
}

impl Rule<'_> {
    /// The bytes.
    pub fn record(self) -> Record {
        self.of_kind(4)
    }

    fn of_kind(self, kind: u8) -> Record {
        with_actions(self.of.record(kind), self.actions)
    }
}

/// A command to a switch's table.
#[derive(Clone, Copy, Debug, PartialEq, Eq, Hash)]
pub enum Command<'a> {
    /// Adds a rule, or replaces the actions of the same rule.
    Add(Rule<'a>),
    /// Replaces the actions of the same rule. Where it is not there, OpenFlow 1.0 adds it.
    Modify(Rule<'a>),
    /// Removes the rule.
    Delete(Match),
}

impl Command<'_> {
    /// The bytes.
    pub fn record(self) -> Record {
        match self {
            Command::Add(rule) => rule.of_kind(6),
            Command::Modify(rule) => rule.of_kind(7),
            Command::Delete(of) => of.record(8),
        }
    }
}

/// A packet state that a policy speaks of.
#[derive(Clone, Copy, Debug, PartialEq, Eq, Hash)]
pub enum Variable {
    /// The state that breaks the policy, where it is free.
    X,
    /// Another state.
    Y,
}

/// A node of a policy. An operand is the number of an earlier node of the same policy, from 0.
#[derive(Clone, Copy, Debug, PartialEq, Eq, Hash)]
pub enum Node {
    /// This bit of the state's number is 1.
    Bit(Variable, u8),
    /// The first state steps to the second.
    R(Variable, Variable),
    /// The state's point is external.
    E(Variable),
    /// The operand is false.
    Not(u8),
    /// Both operands are true.
    And(u8, u8),
    /// At least one operand is true.
    Or(u8, u8),
    /// The operand is true for some state as that variable.
    Some(u8, Variable),
    /// The operand is true for every state as that variable.
    All(u8, Variable),
    /// A walk over pairs that make the operand true leads from the first state to the second.
    Tc(u8, Variable, Variable),
}

impl Node {
    const fn bytes(self) -> [u8; 3] {
        match self {
            Node::Bit(variable, bit) => [0, variable as u8, bit],
            Node::R(from, to) => [1, from as u8, to as u8],
            Node::E(variable) => [2, variable as u8, 0],
            Node::Not(operand) => [3, operand, 0],
            Node::And(one, other) => [4, one, other],
            Node::Or(one, other) => [5, one, other],
            Node::Some(operand, variable) => [6, operand, variable as u8],
            Node::All(operand, variable) => [7, operand, variable as u8],
            Node::Tc(operand, from, to) => [8, operand, 2 * from as u8 + to as u8],
        }
    }
}

/// A node and its policy. The last node of a policy is what the policy forbids.
#[derive(Clone, Copy, Debug, PartialEq, Eq, Hash)]
pub struct PolicyNode {
    /// The policy's number, from 0 without gaps.
    pub policy: u8,
    /// The node.
    pub node: Node,
}

impl PolicyNode {
    /// The bytes.
    pub fn record(self) -> Record {
        let [kind, one, other] = self.node.bytes();
        laid_out(&[5, self.policy, kind, one, other])
    }
}

/// Where a bucket sends its copy.
#[derive(Clone, Copy, Debug, PartialEq, Eq, Hash)]
pub enum Target {
    /// To this port, unless the frame arrived there.
    Port(u8),
    /// On to this group of the same switch, which has a lower number.
    Group(u8),
}

/// What a group does with one copy of a frame.
#[derive(Clone, Copy, Debug, PartialEq, Eq, Hash)]
pub struct Bucket {
    /// What it writes into the header; [`Pattern::ANY`] writes nothing.
    pub set: Pattern,
    /// Where the copy goes.
    pub to: Target,
}

impl Bucket {
    const fn bytes(self) -> [u8; 4] {
        let [value, care] = self.set.bytes();
        match self.to {
            Target::Port(number) => [value, care, 1, number],
            Target::Group(number) => [value, care, 2, number],
        }
    }
}

/// A group of a switch, of OpenFlow's type ALL.
#[derive(Clone, Copy, Debug, PartialEq, Eq, Hash)]
pub struct Group<'a> {
    /// The switch's number.
    pub switch: u8,
    /// The group's number, 0 to 15.
    pub number: u8,
    /// 1 to 3 buckets, each of which takes a copy.
    pub buckets: &'a [Bucket],
}

impl Group<'_> {
    /// The bytes.
    pub fn record(self) -> Record {
        let buckets = self.buckets.iter().map(|bucket| bucket.bytes());
        with_parts(laid_out(&[9, self.switch, self.number]), buckets)
    }
}

/// Where the count of the actions or of the buckets stands, with those behind it.
const COUNT: usize = 8;

/// Bytes for actions or buckets: 4 of the ones, or 3 of the others.
const PARTS: usize = 12;

/// A record from its first bytes; the others are zero.
fn laid_out(bytes: &[u8]) -> Record {
    let mut record = [0; RECORD_BYTES];
    record[..bytes.len()].copy_from_slice(bytes);
    record
}

fn with_actions(record: Record, actions: &[Action]) -> Record {
    with_parts(record, actions.iter().map(|action| action.bytes()))
}

/// The record with its parts and their count. Of those that have no room one is counted, so that the
/// record is refused.
fn with_parts<const SIZE: usize>(
    mut record: Record,
    parts: impl ExactSizeIterator<Item = [u8; SIZE]>,
) -> Record {
    let most = PARTS / SIZE;
    record[COUNT] = parts.len().min(most + 1) as u8;
    let room = record[COUNT + 1..].chunks_exact_mut(SIZE).take(most);
    room.zip(parts).for_each(|(room, part)| room.copy_from_slice(&part));
    record
}
