//! Names for switches, ports, groups, headers, wards and policies.

use crate::fault::quoted;
use crate::steps::DROP;
use crate::widths::Widths;
use std::collections::BTreeMap;

/// A port of a switch.
pub type Point = [u8; 2];

/// What a name stands for.
#[derive(Clone, Debug, PartialEq, Eq)]
pub enum Named {
    Switch(u8),
    /// That port of every switch.
    Port(u8),
    /// Ports of switches that have the same name, one a switch.
    Points(Vec<Point>),
    /// Groups of switches that have the same name, one a switch: switch and number of each.
    Groups(Vec<[u8; 2]>),
    /// Value and care of a header pattern.
    Header([u8; 2]),
    Ward(Vec<Area>),
}

impl Named {
    /// Whether both are names of things of one kind.
    pub fn is_like(&self, other: &Named) -> bool {
        self.words() == other.words()
    }

    /// What it is, in words.
    pub fn words(&self) -> &'static str {
        match self {
            Named::Switch(_) => "a switch",
            Named::Port(_) | Named::Points(_) => "a port",
            Named::Groups(_) => "a group",
            Named::Header(_) => "a header",
            Named::Ward(_) => "a ward",
        }
    }
}

/// A part of the network.
#[derive(Clone, Copy, Debug, PartialEq, Eq)]
pub enum Area {
    Switch(u8),
    Point(Point),
}

/// The names of a text. What has no name goes by its number; drop and controller have their words.
#[derive(Clone, Debug, Default, PartialEq, Eq)]
pub struct Names {
    pub(crate) widths: Option<Widths>,
    given: BTreeMap<String, (Named, usize)>,
    policies: BTreeMap<u8, String>,
}

impl Names {
    /// A switch by name or number.
    pub fn switch(&self, switch: u8) -> String {
        let name = self.find(|named| *named == Named::Switch(switch));
        name.map_or_else(|| switch.to_string(), String::from)
    }

    /// A port of a switch by name, word or number.
    pub fn port(&self, switch: u8, port: u8) -> String {
        let own = |named: &Named| match named {
            Named::Points(points) => points.contains(&[switch, port]),
            _ => false,
        };
        let name = self.find(own).or_else(|| self.find(|named| *named == Named::Port(port)));
        match name {
            Some(name) => name.to_string(),
            None if port == DROP => "drop".to_string(),
            None if self.widths.is_some_and(|of| of.controller() == port) => {
                "controller".to_string()
            }
            None => port.to_string(),
        }
    }

    /// A group of a switch by name or number.
    pub fn group(&self, switch: u8, group: u8) -> String {
        let own = |named: &Named| match named {
            Named::Groups(groups) => groups.contains(&[switch, group]),
            _ => false,
        };
        self.find(own).map_or_else(|| group.to_string(), String::from)
    }

    /// A header by name or number.
    pub fn header(&self, header: u8) -> String {
        let full = self.widths.map_or(u8::MAX, |of| of.last_header());
        self.header_pattern([header, full]).map_or_else(|| header.to_string(), String::from)
    }

    /// The name of a header pattern.
    pub fn header_pattern(&self, pattern: [u8; 2]) -> Option<&str> {
        self.find(|named| *named == Named::Header(pattern))
    }

    /// A switch by its number, and its name if it has one.
    pub fn switch_words(&self, switch: u8) -> String {
        both(&self.switch(switch), switch)
    }

    /// The same of a port of a switch.
    pub fn port_words(&self, switch: u8, port: u8) -> String {
        both(&self.port(switch, port), port)
    }

    /// The same of a group of a switch.
    pub fn group_words(&self, switch: u8, group: u8) -> String {
        both(&self.group(switch, group), group)
    }

    /// The same of a header.
    pub fn header_words(&self, header: u8) -> String {
        both(&self.header(header), header)
    }

    /// The name of a policy.
    pub fn policy(&self, policy: u8) -> Option<&str> {
        self.policies.get(&policy).map(String::as_str)
    }

    /// What a name stands for.
    pub fn named(&self, name: &str) -> Option<&Named> {
        self.given.get(name).map(|(named, _)| named)
    }

    /// The line on which a name was given.
    pub fn line(&self, name: &str) -> Option<usize> {
        self.given.get(name).map(|(_, line)| *line)
    }

    /// The name that something has already, and its line.
    pub fn name_of(&self, named: &Named) -> Option<(&str, usize)> {
        let has = |other: &Named| match (named, other) {
            (Named::Points(mine), Named::Points(its))
            | (Named::Groups(mine), Named::Groups(its)) => mine.iter().any(|one| its.contains(one)),
            _ => other == named,
        };
        let name = self.find(has)?;
        Some((name, self.line(name)?))
    }

    /// Every name given.
    pub fn all(&self) -> impl Iterator<Item = &str> {
        self.given.keys().map(String::as_str)
    }

    /// Every name given to such a thing.
    pub fn all_such(&self, is_such: impl Fn(&Named) -> bool) -> impl Iterator<Item = &str> {
        let such = self.given.iter().filter(move |(_, (named, _))| is_such(named));
        such.map(|(name, _)| name.as_str())
    }

    pub(crate) fn give(&mut self, name: &str, named: Named, line: usize) {
        let (before, _) =
            self.given.entry(name.to_string()).or_insert_with(|| (named.clone(), line));
        if let (Named::Points(given), Named::Points(more))
        | (Named::Groups(given), Named::Groups(more)) = (before, named)
        {
            given.extend(more.into_iter().filter(|one| !given.contains(one)).collect::<Vec<_>>());
        }
    }

    pub(crate) fn give_policy(&mut self, policy: u8, name: &str) {
        self.policies.insert(policy, name.to_string());
    }

    /// The policy that has a name.
    pub fn policy_named(&self, name: &str) -> Option<u8> {
        self.policies.iter().find(|(_, other)| *other == name).map(|(policy, _)| *policy)
    }

    fn find(&self, is_it: impl Fn(&Named) -> bool) -> Option<&str> {
        self.given.iter().find(|(_, (named, _))| is_it(named)).map(|(name, _)| name.as_str())
    }
}

/// A name with the number that it stands for, or the number alone.
fn both(name: &str, number: u8) -> String {
    match name == number.to_string() {
        true => name.to_string(),
        false => format!("{} ({number})", quoted(name)),
    }
}
