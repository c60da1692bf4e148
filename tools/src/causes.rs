//! Why a row refuses: which of its causes it is, and the other record that is part of it.

use crate::fields::{field_fault, width_fault};
use crate::formula::{node_of, print_nodes, Node};
use crate::groups::{buckets, place_of, Target, MOST_GROUPS};
use crate::kind::{self, action, node};
use crate::names::Names;
use crate::steps::DROP;
use crate::widths::Widths;
use crate::{actions, is_same_rule, Record};
use wegbaro::{Refusal, MOST_RECORDS};

/// Why a row refuses.
#[derive(Clone, Debug, PartialEq, Eq)]
pub struct Cause {
    pub words: String,
    /// The place of the other record.
    pub other: Option<usize>,
}

impl From<String> for Cause {
    fn from(words: String) -> Cause {
        Cause { words, other: None }
    }
}

/// How causes tell what they are about.
#[derive(Clone, Copy)]
pub struct Telling<'a> {
    /// Where a record stands, in words.
    pub at: &'a dyn Fn(usize) -> String,
    pub names: &'a Names,
}

impl Telling<'_> {
    fn at(self, place: usize) -> String {
        (self.at)(place)
    }

    fn switch(self, switch: u8) -> String {
        format!("switch {}", self.names.switch_words(switch))
    }

    fn group(self, switch: u8, group: u8) -> String {
        format!("group {}", self.names.group_words(switch, group))
    }
}

/// Why a row of 1, 3 to 10 or 16 refuses a network.
pub fn network_cause(records: &[Record], refusal: Refusal, telling: Telling) -> Option<Cause> {
    let place = refusal.place;
    match refusal.row {
        1 => Some(count_cause(records.len()).into()),
        3 => kind_cause(records, place, telling),
        4 => width_fault(records.get(place)?).map(Cause::from),
        5 => field_fault(widths(records, place)?, records.get(place)?).map(Cause::from),
        6 => link_cause(records, place, telling),
        7 => miss_cause(records, place, telling),
        8 => same_rule_cause(records, place, telling),
        9 => policy_cause(records, place, telling),
        10 => full_cause(records, place),
        16 => group_cause(records, place, telling),
        _ => None,
    }
}

/// Why row 12, 13 or 16 refuses a command to a network.
pub fn command_cause(
    records: &[Record],
    given: &[u8],
    refusal: Refusal,
    telling: Telling,
) -> Option<Cause> {
    match refusal.row {
        12 => {
            let Ok(command) = Record::try_from(given) else {
                return Some(format!("it has {} bytes, and a command has 24", given.len()).into());
            };
            let kind = command[0];
            if !kind::is_command(kind) {
                let kinds = "6 (add), 7 (modify) or 8 (delete)";
                return Some(format!("its kind is {kind}, and a command's is {kinds}").into());
            }
            field_fault(Widths::of(records.first()?)?, &command).map(Cause::from)
        }
        13 => Some(table_full_cause(given).into()),
        16 => absent_cause(records, given.try_into().ok()?, telling),
        _ => None,
    }
}

/// Why a command that adds is refused; a modify is, where it acts as an add.
fn table_full_cause(given: &[u8]) -> String {
    let words = "256 rules are there, and this one is new";
    match given.first() {
        Some(&kind::MODIFY) => {
            format!("{words}: in OpenFlow 1.0 a modify without its rule adds it")
        }
        _ => words.to_string(),
    }
}

fn widths(records: &[Record], place: usize) -> Option<Widths> {
    Widths::of(records.first()?).filter(|_| place < records.len())
}

fn count_cause(count: usize) -> String {
    match count {
        0 => "there are no records".to_string(),
        _ => format!("there are more than {MOST_RECORDS} records"),
    }
}

fn kind_cause(records: &[Record], place: usize, telling: Telling) -> Option<Cause> {
    let kind = records.get(place)?[0];
    if !matches!(kind, kind::WIDTHS..=kind::POLICY | kind::GROUP) {
        return Some(format!("its kind is {kind}, and kinds are 1 to 5 and 9").into());
    }
    let name = kind::words(kind);
    let Some(before) = place.checked_sub(1) else {
        return Some(format!("the first record is a {name}, and must be the widths").into());
    };
    if kind == kind::WIDTHS {
        let words = format!("the widths are there already, {}", telling.at(0));
        return Some(Cause { words, other: Some(0) });
    }
    let earlier = kind::words(records[before][0]);
    let words = format!("a {name} stands after a {earlier} ({})", telling.at(before));
    Some(Cause { words, other: Some(before) })
}

fn link_cause(records: &[Record], place: usize, telling: Telling) -> Option<Cause> {
    let of = widths(records, place)?;
    let ends = |link: &Record| [[link[1], link[2]], [link[3], link[4]]];
    let points = ends(&records[place]);
    for [switch, port] in points {
        if port == DROP || port == of.controller() {
            let role = if port == DROP { "drop" } else { "the controller" };
            let switch = telling.switch(switch);
            let words = format!("port {port} of {switch} is {role}, and takes no link");
            return Some(words.into());
        }
    }
    if points[0] == points[1] {
        return Some("both ends are the same point".to_string().into());
    }
    for (earlier, record) in records[..place].iter().enumerate() {
        let taken = |point: &&[u8; 2]| record[0] == kind::LINK && ends(record).contains(point);
        if let Some([switch, port]) = points.iter().find(taken) {
            let port = telling.names.port_words(*switch, *port);
            let [switch, at] = [telling.switch(*switch), telling.at(earlier)];
            let words = format!("port {port} of {switch} is linked already, {at}");
            return Some(Cause { words, other: Some(earlier) });
        }
    }
    None
}

fn miss_cause(records: &[Record], place: usize, telling: Telling) -> Option<Cause> {
    let misses = records[..place].iter().filter(|record| record[0] == kind::MISS).count() as u8;
    let here = records.get(place).filter(|record| record[0] == kind::MISS);
    let Some(switch) = here.map(|record| record[1]) else {
        return Some(format!("{} has no miss", telling.switch(misses)).into());
    };
    let earlier = records[..place].iter().position(|record| record[..2] == [kind::MISS, switch]);
    let words = match earlier {
        Some(earlier) => {
            format!("{} has its miss already, {}", telling.switch(switch), telling.at(earlier))
        }
        None => {
            let [first, later] = [misses, switch].map(|switch| telling.switch(switch));
            format!("the miss of {first} comes before that of {later}")
        }
    };
    Some(Cause { words, other: earlier })
}

fn same_rule_cause(records: &[Record], place: usize, telling: Telling) -> Option<Cause> {
    let rule = records.get(place)?;
    let earlier = records[..place].iter().position(|other| is_same_rule(other, rule))?;
    let words = format!(
        "a rule with this switch, priority, port and header is there already, {}",
        telling.at(earlier)
    );
    Some(Cause { words, other: Some(earlier) })
}

/// The nodes of the policy of the record at a place, up to that record.
fn nodes_to(records: &[Record], place: usize) -> Vec<Node> {
    let policy = records[place][1];
    let same = |record: &&Record| record[..2] == [kind::POLICY, policy];
    let nodes = records[..=place].iter().rev().take_while(same);
    let mut nodes: Vec<Node> = nodes.map(node_of).collect();
    nodes.reverse();
    nodes
}

fn policy_cause(records: &[Record], place: usize, telling: Telling) -> Option<Cause> {
    let policy = records.get(place)?[1];
    let before = place.checked_sub(1)?;
    let last = (records[before][0] == kind::POLICY).then(|| records[before][1]);
    match last {
        None if policy != 0 => {
            return Some(format!("the first policy is {policy}, and must be 0").into());
        }
        Some(last) if policy != last && u16::from(policy) != u16::from(last) + 1 => {
            let words =
                format!("policy {policy} stands after policy {last} ({})", telling.at(before));
            return Some(Cause { words, other: Some(before) });
        }
        _ => {}
    }
    let nodes = nodes_to(records, place);
    let number = nodes.len() - 1;
    let [kind, one, other] = nodes[number];
    let operands: &[u8] = match kind {
        node::NOT | node::SOME | node::ALL | node::TC => &[one],
        node::AND | node::OR => &[one, other],
        _ => &[],
    };
    let node = print_nodes(&nodes[number..])?;
    let late = operands.iter().find(|operand| usize::from(**operand) >= number);
    let words = match late {
        Some(operand) => format!("operand {operand} of `{node}` is not an earlier node"),
        // Of the row's causes this alone is left.
        None => format!("Y is free at `{node}`, the policy's last node"),
    };
    Some(words.into())
}

fn group_cause(records: &[Record], place: usize, telling: Telling) -> Option<Cause> {
    let record = records.get(place)?;
    if record[0] != kind::GROUP {
        return absent_cause(records, record, telling);
    }
    let fault = field_fault(widths(records, place)?, record).map(Cause::from);
    fault
        .or_else(|| absent_cause(records, record, telling))
        .or_else(|| order_cause(records, place, telling))
        .or_else(|| {
            let before = records[..place].iter().filter(|record| record[0] == kind::GROUP).count();
            let words = format!("{MOST_GROUPS} groups stand before it, and that is the most");
            (before >= MOST_GROUPS).then(|| words.into())
        })
}

/// Why a group is out of order: the one before it is the same or comes later.
fn order_cause(records: &[Record], place: usize, telling: Telling) -> Option<Cause> {
    let before = place.checked_sub(1)?;
    let [_, switch, group, ..] = records[place];
    let [kind, switch_before, group_before, ..] = records[before];
    if kind != kind::GROUP || [switch_before, group_before] < [switch, group] {
        return None;
    }
    let name = |switch: u8, group: u8| {
        format!("{} of {}", telling.group(switch, group), telling.switch(switch))
    };
    let own = name(switch, group);
    let earlier = place_of(&records[..place], switch, group);
    let words = match earlier {
        Some(earlier) => format!("{own} is there already, {}", telling.at(earlier)),
        None => format!(
            "{own} comes before {} ({})",
            name(switch_before, group_before),
            telling.at(before)
        ),
    };
    Some(Cause { words, other: earlier.or(Some(before)) })
}

/// The action or bucket of a record that names a group which no record of its switch has.
fn absent_cause(records: &[Record], record: &Record, telling: Telling) -> Option<Cause> {
    let switch = record[1];
    let part = if record[0] == kind::GROUP { "bucket" } else { "action" };
    let is_absent = |group: &u8| place_of(records, switch, *group).is_none();
    let named = (1..).zip(named_groups(record));
    let mut absent = named.filter_map(|(number, group)| Some(number).zip(group.filter(is_absent)));
    let (number, group) = absent.next()?;
    let [group, switch] = [telling.group(switch, group), telling.switch(switch)];
    Some(format!("{part} {number} is {group}, which {switch} does not have").into())
}

/// The group that each action, or each bucket, of a record names.
fn named_groups(record: &Record) -> Vec<Option<u8>> {
    match record[0] {
        kind::GROUP => buckets(record)
            .map(|bucket| match bucket.target {
                Target::Group(group) => Some(group),
                Target::Port(_) => None,
            })
            .collect(),
        _ => actions(record)
            .map(|[kind, group, _]| (kind == action::GROUP).then_some(group))
            .collect(),
    }
}

fn full_cause(records: &[Record], place: usize) -> Option<Cause> {
    let record = records.get(place)?;
    let words = match record[0] {
        kind::RULE => "256 rules stand before it, and that is the most",
        _ if record[1] == 8 => "8 policies stand before it, and that is the most",
        _ => "32 nodes of its policy stand before it, and that is the most",
    };
    Some(words.to_string().into())
}
