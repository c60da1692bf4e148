//! Reading a file record by record: rows 3 to 10 and 16.

use super::fields;
use super::network::{actions, buckets, match_of, Network};
use crate::records::Record;
use crate::second::file::{Refusal, MOST_RULES};
use crate::second::states::{Point, Widths};

const MOST_POLICIES: usize = 8;
const MOST_NODES: usize = 32;
const MOST_GROUPS: usize = 16;

/// The network of some records, or the first refusal.
pub fn read(records: &[Record]) -> Result<Network<'_>, Refusal> {
    let at = |place| move |number| Refusal { number, place };
    let mut reader = Reader::begin(records).map_err(at(0))?;
    for place in 1..records.len() {
        let before = records[place - 1][0];
        reader.take(before, &records[place], records.get(place + 1)).map_err(at(place))?;
    }
    reader.need_misses().map_err(at(records.len()))?;
    Ok(Network::of(records))
}

/// The number of a row, unless the record is sound by it.
fn need(is_sound: bool, row: usize) -> Result<(), usize> {
    match is_sound {
        true => Ok(()),
        false => Err(row),
    }
}

/// What is known of the records up to some place.
struct Reader {
    widths: Widths,
    /// The groups that have a record anywhere in the file: for each switch a bit for each number.
    named: [u16; 16],
    /// The points where a link ends: for each switch a bit for each port.
    linked: [u16; 16],
    /// How many misses there are.
    misses: usize,
    /// The match of each rule.
    rules: Vec<u64>,
    /// How many policies there are.
    policies: usize,
    /// The free variables of each node of the last policy: bit 0 is X, bit 1 is Y.
    free: Vec<u8>,
    /// The switch and the number of each group.
    groups: Vec<[u8; 2]>,
}

impl Reader {
    /// The first record: rows 3, 4 and 5.
    fn begin(records: &[Record]) -> Result<Reader, usize> {
        let [kind, header, port, switch, ..] = records[0];
        need(kind == 1, 3)?;
        let widths = Widths::within_limits(header, port, switch).ok_or(4_usize)?;
        need(fields::is_version(&records[0]), 5)?;
        Ok(Reader {
            widths,
            named: named(records),
            linked: [0; 16],
            misses: 0,
            rules: Vec::with_capacity(MOST_RULES),
            policies: 0,
            free: Vec::with_capacity(MOST_NODES),
            groups: Vec::with_capacity(MOST_GROUPS),
        })
    }

    /// A later record, with the kind of the one before it and the next.
    fn take(&mut self, before: u8, record: &Record, next: Option<&Record>) -> Result<(), usize> {
        match record[0] {
            kind if kind < before => Err(3),
            2 => self.take_link(record),
            3 => self.take_miss(record),
            4 => self.take_rule(record),
            5 => self.take_node(record, next),
            9 => self.take_group(record),
            _ => Err(3),
        }
    }

    /// A link: rows 5 and 6.
    fn take_link(&mut self, record: &Record) -> Result<(), usize> {
        need(fields::is_link(self.widths, record), 5)?;
        let [one, other] = fields::ends(record);
        need(one != other && self.is_external(one) && self.is_external(other), 6)?;
        for end in [one, other] {
            self.linked[usize::from(end.switch)] |= 1 << end.port;
        }
        Ok(())
    }

    /// Whether a point is at an ordinary port and no link ends there yet.
    fn is_external(&self, point: Point) -> bool {
        let linked = self.linked[usize::from(point.switch)] >> point.port & 1 == 1;
        self.widths.is_ordinary(point.port) && !linked
    }

    /// A miss: rows 5, 7 and 16.
    fn take_miss(&mut self, record: &Record) -> Result<(), usize> {
        need(fields::is_miss(self.widths, record), 5)?;
        need(usize::from(record[1]) == self.misses, 7)?;
        self.need_groups_of(record)?;
        self.misses += 1;
        Ok(())
    }

    /// Row 7 where the misses must be complete.
    fn need_misses(&self) -> Result<(), usize> {
        need(self.misses == self.widths.switches(), 7)
    }

    /// Row 16 where a rule or miss runs a group that its switch has not.
    fn need_groups_of(&self, record: &Record) -> Result<(), usize> {
        let has = |[kind, number, _]: [u8; 3]| kind != 4 || self.is_named(record[1], number);
        need(actions(record).all(has), 16)
    }

    fn is_named(&self, switch: u8, number: u8) -> bool {
        self.named[usize::from(switch)] >> number & 1 == 1
    }

    /// A rule: rows 5, 7, 8, 10 and 16.
    fn take_rule(&mut self, record: &Record) -> Result<(), usize> {
        need(fields::is_rule(self.widths, record), 5)?;
        self.need_misses()?;
        need(!self.rules.contains(&match_of(record)), 8)?;
        need(self.rules.len() < MOST_RULES, 10)?;
        self.need_groups_of(record)?;
        self.rules.push(match_of(record));
        Ok(())
    }

    /// A policy node: rows 5, 7, 9 and 10.
    fn take_node(&mut self, record: &Record, next: Option<&Record>) -> Result<(), usize> {
        need(fields::is_node(self.widths, record), 5)?;
        self.need_misses()?;
        let number = usize::from(record[1]);
        if number == self.policies {
            self.policies += 1;
            self.free.clear();
        }
        need(number + 1 == self.policies, 9)?;
        let free = self.free_of(record).ok_or(9_usize)?;
        let is_last = next.is_none_or(|next| next[..2] != record[..2]);
        need(!is_last || free & 2 == 0, 9)?;
        need(number < MOST_POLICIES && self.free.len() < MOST_NODES, 10)?;
        self.free.push(free);
        Ok(())
    }

    /// The free variables of a node, if its operands are earlier nodes.
    fn free_of(&self, record: &Record) -> Option<u8> {
        let [_, _, kind, one, other, ..] = *record;
        let operand = |number: u8| self.free.get(usize::from(number)).copied();
        match kind {
            0 | 2 => Some(1 << one),
            1 => Some(1 << one | 1 << other),
            3 => operand(one),
            4 | 5 => Some(operand(one)? | operand(other)?),
            6 | 7 => Some(operand(one)? & !(1 << other)),
            _ => operand(one).map(|_| 1 << (other / 2) | 1 << (other % 2)),
        }
    }

    /// A group: rows 7 and 16.
    fn take_group(&mut self, record: &Record) -> Result<(), usize> {
        self.need_misses()?;
        need(fields::is_group(self.widths, record), 16)?;
        let [_, switch, number, ..] = *record;
        let is_open = |[_, _, kind, target]: [u8; 4]| {
            kind == 1 || target < number && self.is_named(switch, target)
        };
        need(self.groups.last().is_none_or(|last| *last < [switch, number]), 16)?;
        need(buckets(record).all(is_open) && self.groups.len() < MOST_GROUPS, 16)?;
        self.groups.push([switch, number]);
        Ok(())
    }
}

/// The groups that have a record, wherever it stands and whether or not it is sound.
fn named(records: &[Record]) -> [u16; 16] {
    let mut named = [0; 16];
    for [_, switch, number, ..] in records.iter().filter(|record| record[0] == 9) {
        if *switch < 16 && *number < 16 {
            named[usize::from(*switch)] |= 1 << number;
        }
    }
    named
}
