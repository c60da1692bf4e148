//! Random commands against a network: sound ones of each kind, malformed ones of each kind, and ones
//! that run a group that is not there.

use crate::gate::RECORD;
use crate::networks::{random_actions, random_new_rule, random_rule, Widths};
use crate::random::Random;
use crate::records::{
    add, delete, groups_at, modify, output, run, set, with, Action, Record, IN_PORT,
};

/// What a random command is to be.
#[derive(Clone, Copy, Debug, PartialEq, Eq)]
pub enum Wish {
    AddNew,
    AddSame,
    ModifyPresent,
    ModifyAbsent,
    DeletePresent,
    DeleteAbsent,
    /// Of any kind but delete; sound where a switch has every group.
    RunsAbsentGroup,
    Malformed(Fault),
}

/// What is wrong with a malformed command.
#[derive(Clone, Copy, Debug, PartialEq, Eq)]
pub enum Fault {
    Cut,
    Overlong,
    Kind,
    Switch,
    PortValue,
    PortCare,
    HeaderValue,
    HeaderCare,
    NoAction,
    FiveActions,
    ActionKind,
    ActionValue,
    ActionCare,
    InPortValue,
    InPortCare,
    GroupValue,
    GroupCare,
    LastSets,
    UnusedAction,
    UnnamedByte,
    DeleteActions,
}

pub const SOUND: [Wish; 6] = [
    Wish::AddNew,
    Wish::AddSame,
    Wish::ModifyPresent,
    Wish::ModifyAbsent,
    Wish::DeletePresent,
    Wish::DeleteAbsent,
];

pub const FAULTS: [Fault; 21] = [
    Fault::Cut,
    Fault::Overlong,
    Fault::Kind,
    Fault::Switch,
    Fault::PortValue,
    Fault::PortCare,
    Fault::HeaderValue,
    Fault::HeaderCare,
    Fault::NoAction,
    Fault::FiveActions,
    Fault::ActionKind,
    Fault::ActionValue,
    Fault::ActionCare,
    Fault::InPortValue,
    Fault::InPortCare,
    Fault::GroupValue,
    Fault::GroupCare,
    Fault::LastSets,
    Fault::UnusedAction,
    Fault::UnnamedByte,
    Fault::DeleteActions,
];

/// A random command, two times in sixteen a malformed one, once one without its group.
pub fn random_command(random: &mut Random, records: &[Record]) -> Vec<u8> {
    let wish = match random.below(16) {
        0 | 1 => Wish::Malformed(random.pick(&FAULTS)),
        2 => Wish::RunsAbsentGroup,
        _ => random.pick(&SOUND),
    };
    command(random, records, wish)
}

/// A random command against a table that is almost full: mostly one that wants room for a rule, as
/// a modify in version 1 does.
pub fn filling_command(random: &mut Random, records: &[Record]) -> Vec<u8> {
    let wish = match random.below(12) {
        0 => Wish::Malformed(random.pick(&FAULTS)),
        1 => Wish::RunsAbsentGroup,
        2..6 => Wish::ModifyAbsent,
        6 | 7 => Wish::AddNew,
        _ => random.pick(&SOUND),
    };
    command(random, records, wish)
}

/// The bytes of a command as wished; without a rule in the records, none is present.
pub fn command(random: &mut Random, records: &[Record], wish: Wish) -> Vec<u8> {
    let of = Widths::of(&records[0]);
    let rules: Vec<Record> = records.iter().copied().filter(|r| r[0] == 4).collect();
    let absent = random_new_rule(random, of, records);
    let present = match rules.is_empty() {
        true => absent,
        false => random_same_rule(random, of, records, &rules),
    };
    match wish {
        Wish::AddNew => add(absent).to_vec(),
        Wish::AddSame => add(present).to_vec(),
        Wish::ModifyPresent => modify(present).to_vec(),
        Wish::ModifyAbsent => modify(absent).to_vec(),
        Wish::DeletePresent => delete(present).to_vec(),
        Wish::DeleteAbsent => delete(absent).to_vec(),
        Wish::RunsAbsentGroup => {
            let (rule, kind) = (random.pick(&[absent, present]), random.pick(&[add, modify]));
            kind(running_absent_group(random, records, rule)).to_vec()
        }
        Wish::Malformed(fault) => malformed(random, of, records, fault),
    }
}

/// One of the rules with actions of its own.
fn random_same_rule(
    random: &mut Random,
    of: Widths,
    records: &[Record],
    rules: &[Record],
) -> Record {
    let rule = random.pick(rules);
    let groups = groups_at(records, rule[1]);
    let actions = random_actions(random, of, [rule[4], rule[5]], &groups);
    with_actions(rule, &actions)
}

/// The rule with an action that runs a group which its switch has not, but perhaps another one has.
fn running_absent_group(random: &mut Random, records: &[Record], rule: Record) -> Record {
    let there = groups_at(records, rule[1]);
    let elsewhere: Vec<u8> = (0..16).flat_map(|switch| groups_at(records, switch)).collect();
    let any: Vec<u8> = (0..16).collect();
    let mut absent = [elsewhere, any].concat();
    absent.retain(|number| !there.contains(number));
    if absent.is_empty() {
        return rule;
    }
    let action = 9 + 3 * random.below(usize::from(rule[8]));
    let mut running = rule;
    running[action..action + 3].copy_from_slice(&run(random.pick(&absent)));
    running
}

/// A rule with other actions.
fn with_actions(rule: Record, actions: &[Action]) -> Record {
    let mut changed = rule;
    changed[8..21].fill(0);
    changed[8] = actions.len() as u8;
    changed[9..9 + 3 * actions.len()].copy_from_slice(&actions.concat());
    changed
}

/// A command that is sound but for one fault.
fn malformed(random: &mut Random, of: Widths, records: &[Record], fault: Fault) -> Vec<u8> {
    let rule = random_rule(random, of, records);
    let any_kind = random.pick(&[add, modify, delete]);
    let add_or_modify = random.pick(&[add, modify]);
    let sound = any_kind(rule);
    let switches = 1 << of.w;
    let faulty = match fault {
        Fault::Cut => return sound[..random.below(RECORD)].to_vec(),
        Fault::Overlong => return [&sound[..], &vec![0; 1 + random.below(RECORD)]].concat(),
        Fault::Kind => with(sound, 0, random.pick(&[0, 1, 3, 4, 5, 9, 14, 255])),
        Fault::Switch => with(sound, 1, (switches + random.below(256 - switches)) as u8),
        Fault::PortValue => stray_value(random, sound, 4, of.p),
        Fault::PortCare => wide_care(random, sound, 5, of.p),
        Fault::HeaderValue => stray_value(random, sound, 6, of.h),
        Fault::HeaderCare => wide_care(random, sound, 7, of.h),
        Fault::UnnamedByte => with(sound, 21 + random.below(3), nonzero(random)),
        Fault::DeleteActions => with(delete(rule), 8 + random.below(13), nonzero(random)),
        _ => add_or_modify(with_action_fault(random, of, rule, fault)),
    };
    faulty.to_vec()
}

/// A rule whose actions are sound but for one fault.
fn with_action_fault(random: &mut Random, of: Widths, rule: Record, fault: Fault) -> Record {
    let mut faulty = rule;
    let used = usize::from(rule[8]);
    let action = 9 + 3 * random.below(used);
    let patterned = with_pattern(rule, action);
    let width = if patterned[action] == 1 { of.p } else { of.h };
    match fault {
        Fault::NoAction => faulty[8..21].fill(0),
        Fault::FiveActions => {
            faulty = with_actions(rule, &[output(0, 0); 4]);
            faulty[8] = 5 + random.below(251) as u8;
        }
        Fault::ActionKind => faulty[action] = random.pick(&[0, 5, 6, 255]),
        Fault::ActionValue => faulty = stray_value(random, patterned, action + 1, width),
        Fault::ActionCare => faulty = wide_care(random, patterned, action + 2, width),
        Fault::InPortValue => {
            faulty[action..action + 3].copy_from_slice(&[3, nonzero(random), 0]);
        }
        Fault::InPortCare => {
            faulty[action..action + 3].copy_from_slice(&[3, 0, nonzero(random)]);
        }
        Fault::GroupValue => {
            let above = 16 + random.below(240) as u8;
            faulty[action..action + 3].copy_from_slice(&run(above));
        }
        Fault::GroupCare => {
            let runs = [4, random.bits(4), nonzero(random)];
            faulty[action..action + 3].copy_from_slice(&runs);
        }
        Fault::LastSets => {
            let earlier = random.pick(&[output(0, 0), IN_PORT]);
            faulty = with_actions(rule, &[earlier, set(0, 0)]);
        }
        Fault::UnusedAction => {
            faulty = with_actions(rule, &[output(0, 0)]);
            faulty[12 + random.below(9)] = nonzero(random);
        }
        _ => unreachable!("not a fault of actions: {fault:?}"),
    }
    faulty
}

/// The rule, with OUTPUT in the place of an action that has no pattern.
fn with_pattern(rule: Record, action: usize) -> Record {
    let mut patterned = rule;
    if matches!(rule[action], 3 | 4) {
        patterned[action..action + 3].copy_from_slice(&output(0, 0));
    }
    patterned
}

/// The record with a value bit outside its care, which stands behind it.
fn stray_value(random: &mut Random, record: Record, value: usize, width: u8) -> Record {
    let bit = 1 << random.below(usize::from(width));
    let mut stray = record;
    stray[value] |= bit;
    stray[value + 1] &= !bit;
    stray
}

/// The record with a care bit beyond the width.
fn wide_care(random: &mut Random, record: Record, care: usize, width: u8) -> Record {
    let beyond = usize::from(8 - width);
    let mut wide = record;
    wide[care] |= 1 << (usize::from(width) + random.below(beyond));
    wide
}

fn nonzero(random: &mut Random) -> u8 {
    1 + random.below(255) as u8
}
