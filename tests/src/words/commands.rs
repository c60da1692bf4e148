//! Commands and what they make of a network's records.

use super::fields;
use super::network::{actions, match_of, Network};
use crate::records::{with, Record};
use crate::second::file::MOST_RULES;

/// The records that a command leaves of a network's, or the number of a row: 12, 16 or 13.
pub fn result(records: &[Record], network: &Network, given: &[u8]) -> Result<Vec<Record>, usize> {
    let command: &Record = given.try_into().map_err(|_| 12_usize)?;
    let is_sound = match command[0] {
        6 | 7 => fields::is_rule(network.widths, command),
        8 => fields::is_delete(network.widths, command),
        _ => false,
    };
    if !is_sound {
        return Err(12);
    }
    if !has_groups_of(network, command) {
        return Err(16);
    }
    apply(records, network, command)
}

/// Whether a switch has each group that a command's actions run.
fn has_groups_of(network: &Network, command: &Record) -> bool {
    let has = |number: u8| network.groups.iter().any(|group| group[1..3] == [command[1], number]);
    actions(command).all(|[kind, number, _]| kind != 4 || has(number))
}

/// The records that a sound command leaves, or row 13.
fn apply(records: &[Record], network: &Network, command: &Record) -> Result<Vec<Record>, usize> {
    let behind = records.partition_point(|record| record[0] < 5);
    let first = behind - network.rules.len();
    let same = network.rules.iter().position(|rule| match_of(rule) == match_of(command));
    // In OpenFlow 1.0 a modify without its rule acts as an add.
    let adds = command[0] == 6 || command[0] == 7 && network.is_old;
    let mut left = records.to_vec();
    match same {
        Some(place) if command[0] == 8 => {
            left.remove(first + place);
        }
        Some(place) => left[first + place] = with(*command, 0, 4),
        None if adds && network.rules.len() == MOST_RULES => return Err(13),
        None if adds => left.insert(behind, with(*command, 0, 4)),
        None => {}
    }
    Ok(left)
}
