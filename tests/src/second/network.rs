//! A network as structures, and its records.

use super::states::{Point, Widths};
use crate::gate::RECORD;

pub type Record = [u8; RECORD];

/// A value and a care mask; a bit outside care is a star.
#[derive(Clone, Copy, Debug, PartialEq, Eq)]
pub struct Pattern {
    pub value: u8,
    pub care: u8,
}

impl Pattern {
    pub fn matches(self, bits: u8) -> bool {
        bits & self.care == self.value
    }

    /// The bits with the cared ones replaced.
    pub fn put_into(self, bits: u8) -> u8 {
        bits & !self.care | self.value
    }

    /// Whether some bit of the width is a star.
    pub fn has_stars(self, width: u8) -> bool {
        self.care != (1 << width) - 1
    }
}

#[derive(Clone, Copy, Debug, PartialEq, Eq)]
pub enum Action {
    Output(Pattern),
    Set(Pattern),
    InPort,
    /// Runs the group of this number.
    Group(u8),
}

/// What makes two rules the same rule.
#[derive(Clone, Copy, Debug, PartialEq, Eq)]
pub struct Match {
    pub switch: u8,
    pub priority: u16,
    pub port: Pattern,
    pub header: Pattern,
}

#[derive(Clone, Debug)]
pub struct Rule {
    pub matching: Match,
    pub actions: Vec<Action>,
}

/// Where a bucket sends its copy.
#[derive(Clone, Copy, Debug, PartialEq, Eq)]
pub enum Target {
    Port(u8),
    Group(u8),
}

/// What is put into the header of a copy, and where it goes.
#[derive(Clone, Copy, Debug, PartialEq, Eq)]
pub struct Bucket {
    pub header: Pattern,
    pub target: Target,
}

#[derive(Clone, Debug, PartialEq, Eq)]
pub struct Group {
    pub switch: u8,
    pub number: u8,
    pub buckets: Vec<Bucket>,
}

/// The OpenFlow version of a network's switches, by its byte in the widths record.
#[derive(Clone, Copy, Debug, PartialEq, Eq)]
pub enum Version {
    /// Not named: as 1.3, but the byte stays 0.
    Unnamed = 0,
    V1_0 = 1,
    V1_3 = 4,
}

/// A two-way link.
#[derive(Clone, Copy, Debug)]
pub struct Link {
    pub one: Point,
    pub other: Point,
}

#[derive(Clone, Copy, Debug, PartialEq, Eq)]
pub enum Variable {
    X,
    Y,
}

/// A policy node; an operand is the number of an earlier node.
#[derive(Clone, Copy, Debug)]
pub enum Node {
    Bit(Variable, u8),
    Steps(Variable, Variable),
    External(Variable),
    Not(usize),
    And(usize, usize),
    Or(usize, usize),
    Some(usize, Variable),
    All(usize, Variable),
    Closure(usize, Variable, Variable),
}

impl Node {
    pub fn operands(self) -> Vec<usize> {
        match self {
            Node::Bit(..) | Node::Steps(..) | Node::External(_) => vec![],
            Node::Not(one) | Node::Some(one, _) | Node::All(one, _) => vec![one],
            Node::Closure(one, ..) => vec![one],
            Node::And(one, other) | Node::Or(one, other) => vec![one, other],
        }
    }
}

/// The free variables of a node.
#[derive(Clone, Copy, Debug, Default)]
pub struct Free {
    pub x: bool,
    pub y: bool,
}

impl Free {
    fn with(self, variable: Variable) -> Free {
        match variable {
            Variable::X => Free { x: true, ..self },
            Variable::Y => Free { y: true, ..self },
        }
    }

    fn without(self, variable: Variable) -> Free {
        match variable {
            Variable::X => Free { x: false, ..self },
            Variable::Y => Free { y: false, ..self },
        }
    }

    fn or(self, other: Free) -> Free {
        Free { x: self.x || other.x, y: self.y || other.y }
    }
}

/// Nodes and, for each, its free variables.
#[derive(Clone, Debug, Default)]
pub struct Policy {
    pub nodes: Vec<Node>,
    pub free: Vec<Free>,
}

impl Policy {
    /// The free variables of a node over these nodes.
    pub fn free_of(&self, node: Node) -> Free {
        match node {
            Node::Bit(one, _) | Node::External(one) => Free::default().with(one),
            Node::Steps(one, other) | Node::Closure(_, one, other) => {
                Free::default().with(one).with(other)
            }
            Node::Not(one) => self.free[one],
            Node::And(one, other) | Node::Or(one, other) => self.free[one].or(self.free[other]),
            Node::Some(one, bound) | Node::All(one, bound) => self.free[one].without(bound),
        }
    }

    pub fn push(&mut self, node: Node) {
        self.free.push(self.free_of(node));
        self.nodes.push(node);
    }
}

/// A network that no row refuses, or its beginning.
#[derive(Clone, Debug)]
pub struct Network {
    pub widths: Widths,
    pub version: Version,
    pub links: Vec<Link>,
    /// The actions of each switch's miss record.
    pub misses: Vec<Vec<Action>>,
    pub rules: Vec<Rule>,
    pub policies: Vec<Policy>,
    /// Ascending by switch and number.
    pub groups: Vec<Group>,
}

impl Network {
    pub fn new(widths: Widths, version: Version) -> Network {
        Network {
            widths,
            version,
            links: vec![],
            misses: vec![],
            rules: vec![],
            policies: vec![],
            groups: vec![],
        }
    }

    /// The other end of the link at a point.
    pub fn other_end(&self, point: Point) -> Option<Point> {
        self.links.iter().find_map(|link| {
            if link.one == point {
                Some(link.other)
            } else if link.other == point {
                Some(link.one)
            } else {
                None
            }
        })
    }

    pub fn is_external(&self, point: Point) -> bool {
        self.widths.is_ordinary(point.port) && self.other_end(point).is_none()
    }

    /// The place of the same rule among the rules.
    pub fn same_rule(&self, matching: Match) -> Option<usize> {
        self.rules.iter().position(|rule| rule.matching == matching)
    }

    /// Whether a switch has each group that the actions run.
    pub fn has_groups_of(&self, switch: u8, actions: &[Action]) -> bool {
        let has = |number: u8| {
            self.groups.iter().any(|group| (group.switch, group.number) == (switch, number))
        };
        groups_run(actions).all(has)
    }

    /// The bytes of work that a verdict needs.
    pub fn work_needed(&self) -> usize {
        let longest = self.policies.iter().map(|policy| policy.nodes.len()).max();
        (longest.unwrap_or(0) + 2) * self.widths.plane_bytes()
    }

    /// The network as records.
    pub fn records(&self) -> Vec<Record> {
        let mut records = vec![widths_record(self.widths, self.version)];
        records.extend(self.links.iter().map(link_record));
        for (switch, actions) in self.misses.iter().enumerate() {
            records.push(miss_record(switch as u8, actions));
        }
        records.extend(self.rules.iter().map(rule_record));
        for (number, policy) in self.policies.iter().enumerate() {
            for node in &policy.nodes {
                records.push(node_record(number as u8, *node));
            }
        }
        records.extend(self.groups.iter().map(group_record));
        records
    }
}

/// The numbers of the groups that actions run.
pub fn groups_run(actions: &[Action]) -> impl Iterator<Item = u8> + '_ {
    actions.iter().filter_map(|action| match action {
        Action::Group(number) => Some(*number),
        _ => None,
    })
}

fn widths_record(widths: Widths, version: Version) -> Record {
    record(1, &[widths.header, widths.port, widths.switch, version as u8])
}

fn link_record(link: &Link) -> Record {
    let Link { one, other } = link;
    record(2, &[one.switch, one.port, other.switch, other.port])
}

fn miss_record(switch: u8, actions: &[Action]) -> Record {
    let mut miss = record(3, &[switch]);
    write_actions(&mut miss, actions);
    miss
}

fn rule_record(rule: &Rule) -> Record {
    let Match { switch, priority, port, header } = rule.matching;
    let [low, high] = priority.to_le_bytes();
    let patterns = [port.value, port.care, header.value, header.care];
    let mut written = record(4, &[switch, low, high]);
    written[4..8].copy_from_slice(&patterns);
    write_actions(&mut written, &rule.actions);
    written
}

fn write_actions(record: &mut Record, actions: &[Action]) {
    record[8] = actions.len() as u8;
    for (action, bytes) in actions.iter().zip(record[9..21].chunks_mut(3)) {
        bytes.copy_from_slice(&action_bytes(*action));
    }
}

/// Kind, value and care.
fn action_bytes(action: Action) -> [u8; 3] {
    match action {
        Action::Output(Pattern { value, care }) => [1, value, care],
        Action::Set(Pattern { value, care }) => [2, value, care],
        Action::InPort => [3, 0, 0],
        Action::Group(number) => [4, number, 0],
    }
}

fn group_record(group: &Group) -> Record {
    let mut written = record(9, &[group.switch, group.number]);
    written[8] = group.buckets.len() as u8;
    for (bucket, bytes) in group.buckets.iter().zip(written[9..21].chunks_mut(4)) {
        bytes.copy_from_slice(&bucket_bytes(*bucket));
    }
    written
}

/// Header value and care, target kind and number.
fn bucket_bytes(bucket: Bucket) -> [u8; 4] {
    let Pattern { value, care } = bucket.header;
    match bucket.target {
        Target::Port(port) => [value, care, 1, port],
        Target::Group(number) => [value, care, 2, number],
    }
}

fn node_record(policy: u8, node: Node) -> Record {
    let number = |variable: Variable| u8::from(variable == Variable::Y);
    let (kind, one, other) = match node {
        Node::Bit(variable, bit) => (0, number(variable), bit),
        Node::Steps(from, to) => (1, number(from), number(to)),
        Node::External(variable) => (2, number(variable), 0),
        Node::Not(operand) => (3, operand as u8, 0),
        Node::And(one, other) => (4, one as u8, other as u8),
        Node::Or(one, other) => (5, one as u8, other as u8),
        Node::Some(operand, bound) => (6, operand as u8, number(bound)),
        Node::All(operand, bound) => (7, operand as u8, number(bound)),
        Node::Closure(operand, from, to) => (8, operand as u8, 2 * number(from) + number(to)),
    };
    record(5, &[policy, kind, one, other])
}

/// A record of a kind with its first fields.
fn record(kind: u8, fields: &[u8]) -> Record {
    let mut record = [0; RECORD];
    record[0] = kind;
    record[1..=fields.len()].copy_from_slice(fields);
    record
}
