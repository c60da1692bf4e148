//! Whether the fields of one record are sound: row 5, 16 in a group, and 12 in a command.

use super::network::{actions, buckets};
use crate::records::Record;
use crate::second::states::{Point, Widths};

/// The highest number of a group.
const HIGHEST_GROUP: u8 = 15;

/// A widths record but for its widths, which have a row of their own.
pub fn is_version(record: &Record) -> bool {
    matches!(record[4], 0 | 1 | 4) && are_zero(&record[5..])
}

/// The two ends of a link.
pub fn ends(record: &Record) -> [Point; 2] {
    let [_, switch, port, other_switch, other_port, ..] = *record;
    [Point { switch, port }, Point { switch: other_switch, port: other_port }]
}

pub fn is_link(widths: Widths, record: &Record) -> bool {
    ends(record).iter().all(|end| widths.has(*end)) && are_zero(&record[5..])
}

pub fn is_miss(widths: Widths, record: &Record) -> bool {
    is_rule(widths, record) && are_zero(&record[2..8])
}

/// A rule, from a record or a command.
pub fn is_rule(widths: Widths, record: &Record) -> bool {
    is_match(widths, record) && are_actions(widths, record)
}

/// A delete: a match alone.
pub fn is_delete(widths: Widths, record: &Record) -> bool {
    is_match(widths, record) && are_zero(&record[8..21])
}

/// Switch, priority and patterns, and zeros behind the actions.
fn is_match(widths: Widths, record: &Record) -> bool {
    let [_, switch, _, _, port, port_care, header, header_care, ..] = *record;
    usize::from(switch) < widths.switches()
        && is_pattern(widths.port, port, port_care)
        && is_pattern(widths.header, header, header_care)
        && are_zero(&record[21..])
}

/// A pattern: value within care, care within the width.
fn is_pattern(width: u8, value: u8, care: u8) -> bool {
    value & !care == 0 && care >> width == 0
}

/// One to four actions, the last of them not SET; unused ones are zero.
fn are_actions(widths: Widths, record: &Record) -> bool {
    let count = usize::from(record[8]);
    (1..=4).contains(&count)
        && actions(record).all(|action| is_action(widths, action))
        && record[6 + 3 * count] != 2
        && are_zero(&record[9 + 3 * count..21])
}

/// One action: kind, value, care.
fn is_action(widths: Widths, action: [u8; 3]) -> bool {
    match action {
        [1, value, care] => is_pattern(widths.port, value, care),
        [2, value, care] => is_pattern(widths.header, value, care),
        [3, 0, 0] => true,
        [4, number, 0] => number <= HIGHEST_GROUP,
        _ => false,
    }
}

/// A group, but for what its buckets go on to.
pub fn is_group(widths: Widths, record: &Record) -> bool {
    let [_, switch, number, ..] = *record;
    let count = usize::from(record[8]);
    usize::from(switch) < widths.switches()
        && number <= HIGHEST_GROUP
        && are_zero(&record[3..8])
        && (1..=3).contains(&count)
        && buckets(record).all(|bucket| is_bucket(widths, bucket))
        && are_zero(&record[9 + 4 * count..])
}

/// One bucket: header value and care, target kind and number.
fn is_bucket(widths: Widths, [value, care, kind, number]: [u8; 4]) -> bool {
    let has_target = match kind {
        1 => number < widths.ports(),
        2 => number <= HIGHEST_GROUP,
        _ => false,
    };
    has_target && is_pattern(widths.header, value, care)
}

/// A policy node. Policy 8 is left to the later rows, and so is every operand.
pub fn is_node(widths: Widths, record: &Record) -> bool {
    let [_, policy, kind, one, other, ..] = *record;
    let is_sound = match kind {
        0 => one < 2 && other < widths.bits(),
        1 => one < 2 && other < 2,
        2 => one < 2 && other == 0,
        3 => other == 0,
        4 | 5 => true,
        6 | 7 => other < 2,
        8 => other < 4,
        _ => false,
    };
    is_sound && policy <= 8 && are_zero(&record[5..])
}

fn are_zero(bytes: &[u8]) -> bool {
    bytes.iter().all(|byte| *byte == 0)
}
