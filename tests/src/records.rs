//! Records put together field by field.

use crate::gate::RECORD;

pub type Record = [u8; RECORD];
/// Kind, value and care of an action.
pub type Action = [u8; 3];
/// Value and care.
pub type Pattern = [u8; 2];
/// Header value and care, kind and number of the target.
pub type Bucket = [u8; 4];

/// The pattern that fixes nothing.
pub const ANY: Pattern = [0, 0];

/// The action that sends back to the port of arrival.
pub const IN_PORT: Action = [3, 0, 0];

/// A record from its first bytes; the others are zero.
pub fn record(bytes: &[u8]) -> Record {
    let mut record = [0; RECORD];
    record[..bytes.len()].copy_from_slice(bytes);
    record
}

/// A record with one byte set.
pub fn with(record: Record, byte: usize, value: u8) -> Record {
    let mut changed = record;
    changed[byte] = value;
    changed
}

pub fn widths(h: u8, p: u8, w: u8) -> Record {
    record(&[1, h, p, w])
}

/// What byte 4 of a widths record may be: no version, which reads as 1.3, or 1.0 or 1.3.
pub const VERSIONS: [u8; 3] = [0, 1, 4];

/// A network's records with another wire version.
pub fn in_version(records: &[Record], version: u8) -> Vec<Record> {
    let mut records = records.to_vec();
    records[0][4] = version;
    records
}

pub fn link(switch: u8, port: u8, other_switch: u8, other_port: u8) -> Record {
    record(&[2, switch, port, other_switch, other_port])
}

pub fn miss(switch: u8, actions: &[Action]) -> Record {
    let mut miss = rule(switch, 0, ANY, ANY, actions);
    miss[0] = 3;
    miss
}

pub fn rule(
    switch: u8,
    priority: u16,
    port: Pattern,
    header: Pattern,
    actions: &[Action],
) -> Record {
    let priority = priority.to_le_bytes();
    let mut bytes = vec![4, switch];
    bytes.extend(priority.iter().chain(&port).chain(&header));
    bytes.push(actions.len() as u8);
    bytes.extend(actions.concat());
    record(&bytes)
}

pub const fn output(value: u8, care: u8) -> Action {
    [1, value, care]
}

pub fn set(value: u8, care: u8) -> Action {
    [2, value, care]
}

/// The action that runs a group.
pub fn run(group: u8) -> Action {
    [4, group, 0]
}

pub fn group(switch: u8, number: u8, buckets: &[Bucket]) -> Record {
    let mut group = record(&[9, switch, number]);
    group[8] = buckets.len() as u8;
    group[9..9 + 4 * buckets.len()].copy_from_slice(&buckets.concat());
    group
}

/// The bucket that sends to a port.
pub fn to_port([value, care]: Pattern, port: u8) -> Bucket {
    [value, care, 1, port]
}

/// The bucket that goes on to a group.
pub fn to_group([value, care]: Pattern, group: u8) -> Bucket {
    [value, care, 2, group]
}

/// The numbers of a switch's groups among some records.
pub fn groups_at(records: &[Record], switch: u8) -> Vec<u8> {
    records.iter().filter(|record| record[..2] == [9, switch]).map(|record| record[2]).collect()
}

/// The command that adds a rule.
pub fn add(rule: Record) -> Record {
    with(rule, 0, 6)
}

/// The command that modifies the same rule.
pub fn modify(rule: Record) -> Record {
    with(rule, 0, 7)
}

/// The command that deletes the same rule.
pub fn delete(rule: Record) -> Record {
    let mut command = record(&rule[..8]);
    command[0] = 8;
    command
}

/// Whether two records, rules or commands, mean the same rule.
pub fn same_rule(one: &Record, other: &Record) -> bool {
    one[1..8] == other[1..8]
}
