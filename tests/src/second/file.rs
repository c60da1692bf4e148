//! Reading a file record by record: rows 3 to 10 and 16.

use super::fields;
use super::network::{groups_run, Action, Group, Network, Policy, Record, Target};
use super::states::Widths;
use std::collections::BTreeSet;

pub const MOST_RULES: usize = 256;
const MOST_POLICIES: usize = 8;
const MOST_NODES: usize = 32;
const MOST_GROUPS: usize = 16;

/// Number and place of a refusal.
#[derive(Clone, Copy, Debug)]
pub struct Refusal {
    pub number: usize,
    pub place: usize,
}

/// The network of some records, or the first refusal.
pub fn read(records: &[Record]) -> Result<Network, Refusal> {
    let at = |place| move |number| Refusal { number, place };
    let mut network = begin(&records[0]).map_err(at(0))?;
    let named = Named::of(records);
    for place in 1..records.len() {
        let (before, record) = (&records[place - 1], &records[place]);
        take(&mut network, &named, before, record, records.get(place + 1)).map_err(at(place))?;
    }
    need_misses(&network).map_err(at(records.len()))?;
    Ok(network)
}

/// The groups that have a record, each as switch and number.
struct Named(BTreeSet<[u8; 2]>);

impl Named {
    /// Wherever a record of kind 9 stands, and whether or not it is sound.
    fn of(records: &[Record]) -> Named {
        let groups = records.iter().filter(|record| record[0] == 9);
        Named(groups.map(|record| [record[1], record[2]]).collect())
    }

    /// Row 16 where actions run a group that their switch has not.
    fn need_groups_of(&self, switch: u8, actions: &[Action]) -> Result<(), usize> {
        match groups_run(actions).all(|number| self.0.contains(&[switch, number])) {
            true => Ok(()),
            false => Err(16),
        }
    }

    /// Whether a bucket may go there: to a port, or to a lower group that its switch has.
    fn is_open(&self, group: &Group, target: Target) -> bool {
        match target {
            Target::Port(_) => true,
            Target::Group(number) => {
                number < group.number && self.0.contains(&[group.switch, number])
            }
        }
    }
}

/// The network that the first record begins: rows 3, 4 and 5.
fn begin(record: &Record) -> Result<Network, usize> {
    if record[0] != 1 {
        return Err(3);
    }
    let widths = Widths::within_limits(record[1], record[2], record[3]).ok_or(4_usize)?;
    let version = fields::version(record).ok_or(5_usize)?;
    Ok(Network::new(widths, version))
}

/// A later record, taken into the network unless a row refuses it.
fn take(
    network: &mut Network,
    named: &Named,
    before: &Record,
    record: &Record,
    next: Option<&Record>,
) -> Result<(), usize> {
    match record[0] {
        kind if kind < before[0] => Err(3),
        2 => take_link(network, record),
        3 => take_miss(network, named, record),
        4 => take_rule(network, named, record),
        5 => take_node(network, record, next),
        9 => take_group(network, named, record),
        _ => Err(3),
    }
}

/// A link: rows 5 and 6.
fn take_link(network: &mut Network, record: &Record) -> Result<(), usize> {
    let link = fields::link(network.widths, record).ok_or(5_usize)?;
    if link.one == link.other || ![link.one, link.other].iter().all(|end| network.is_external(*end))
    {
        return Err(6);
    }
    network.links.push(link);
    Ok(())
}

/// A miss: rows 5, 7 and 16.
fn take_miss(network: &mut Network, named: &Named, record: &Record) -> Result<(), usize> {
    let (switch, actions) = fields::miss(network.widths, record).ok_or(5_usize)?;
    if switch != network.misses.len() {
        return Err(7);
    }
    named.need_groups_of(record[1], &actions)?;
    network.misses.push(actions);
    Ok(())
}

/// Row 7 where the misses must be complete.
fn need_misses(network: &Network) -> Result<(), usize> {
    match network.misses.len() == network.widths.switches() {
        true => Ok(()),
        false => Err(7),
    }
}

/// A rule: rows 5, 7, 8, 10 and 16.
fn take_rule(network: &mut Network, named: &Named, record: &Record) -> Result<(), usize> {
    let rule = fields::rule(network.widths, record).ok_or(5_usize)?;
    need_misses(network)?;
    if network.same_rule(rule.matching).is_some() {
        return Err(8);
    }
    if network.rules.len() == MOST_RULES {
        return Err(10);
    }
    named.need_groups_of(rule.matching.switch, &rule.actions)?;
    network.rules.push(rule);
    Ok(())
}

/// A policy node: rows 5, 7, 9 and 10.
fn take_node(network: &mut Network, record: &Record, next: Option<&Record>) -> Result<(), usize> {
    let (number, node) = fields::node(network.widths, record).ok_or(5_usize)?;
    need_misses(network)?;
    let mut policy = earlier_nodes(network, number).ok_or(9_usize)?;
    let place = policy.nodes.len();
    if node.operands().iter().any(|operand| *operand >= place) {
        return Err(9);
    }
    policy.push(node);
    if is_last(record, next) && policy.free[place].y {
        return Err(9);
    }
    if number == MOST_POLICIES || place == MOST_NODES {
        return Err(10);
    }
    network.policies.truncate(number);
    network.policies.push(policy);
    Ok(())
}

/// A group: rows 7 and 16.
fn take_group(network: &mut Network, named: &Named, record: &Record) -> Result<(), usize> {
    need_misses(network)?;
    let group = fields::group(network.widths, record).ok_or(16_usize)?;
    let place = |group: &Group| (group.switch, group.number);
    let follows = network.groups.last().is_none_or(|last| place(last) < place(&group));
    let open = group.buckets.iter().all(|bucket| named.is_open(&group, bucket.target));
    if !follows || !open || network.groups.len() == MOST_GROUPS {
        return Err(16);
    }
    network.groups.push(group);
    Ok(())
}

/// The nodes before a node of this policy, if the policy is the last one or one more.
fn earlier_nodes(network: &Network, number: usize) -> Option<Policy> {
    let policies = &network.policies;
    if number == policies.len() {
        Some(Policy::default())
    } else if number + 1 == policies.len() {
        policies.last().cloned()
    } else {
        None
    }
}

/// Whether a node is its policy's last: the next record is not kind 5 with the same byte 1.
fn is_last(record: &Record, next: Option<&Record>) -> bool {
    match next {
        Some(next) => next[..2] != record[..2],
        None => true,
    }
}
