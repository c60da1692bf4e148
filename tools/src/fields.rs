//! What is wrong with the fields of one record: the causes of rows 4, 5 and 12, and of row 16 those
//! of a group itself.

use crate::groups::{BUCKET_BYTES, LAST_GROUP, MOST_BUCKETS};
use crate::kind::{self, action, node, target};
use crate::version::version_fault;
use crate::widths::Widths;
use crate::Record;

/// What is wrong with the widths.
pub fn width_fault(record: &Record) -> Option<String> {
    let [_, h, p, w, ..] = *record;
    let limits = [("header", "H", h, 1, 6), ("port", "P", p, 2, 4), ("switch", "W", w, 0, 4)];
    let outside = limits.iter().find(|(_, _, width, least, most)| !(least..=most).contains(&width));
    if let Some((name, letter, width, least, most)) = outside {
        return Some(format!("the {name} width {letter} is {width}, outside {least} to {most}"));
    }
    let bits = 1 + h + p + w;
    (bits > 10).then(|| format!("1 + H + P + W is {bits}, and 10 is the most"))
}

/// What is wrong with a record's fields.
pub fn field_fault(of: Widths, record: &Record) -> Option<String> {
    match record[0] {
        kind::WIDTHS => version_fault(record[4]).or_else(|| unused(record, 5, 24)),
        kind::LINK => link_fault(of, record),
        kind::MISS => switch_fault(of, record[1])
            .or_else(|| unused(record, 2, 8))
            .or_else(|| actions_fault(of, record)),
        kind::RULE | kind::ADD | kind::MODIFY => {
            match_fault(of, record).or_else(|| actions_fault(of, record))
        }
        kind::POLICY => node_fault(of, record),
        kind::DELETE => match_fault(of, record).or_else(|| unused(record, 8, 24)),
        kind::GROUP => group_fault(of, record),
        _ => None,
    }
}

/// The first byte of a part that is not zero though nothing is kept there.
fn unused(record: &Record, from: usize, to: usize) -> Option<String> {
    let place = (from..to).find(|place| record[*place] != 0)?;
    Some(format!("byte {place} is {}, and must be zero", record[place]))
}

fn switch_fault(of: Widths, switch: u8) -> Option<String> {
    let last = of.last_switch();
    (switch > last).then(|| format!("there is no switch {switch}, the last is {last}"))
}

fn port_fault(of: Widths, port: u8) -> Option<String> {
    let last = of.controller();
    (port > last).then(|| format!("there is no port {port}, the last is {last}"))
}

fn link_fault(of: Widths, record: &Record) -> Option<String> {
    let [_, switch, port, other_switch, other_port, ..] = *record;
    switch_fault(of, switch)
        .or_else(|| port_fault(of, port))
        .or_else(|| switch_fault(of, other_switch))
        .or_else(|| port_fault(of, other_port))
        .or_else(|| unused(record, 5, 24))
}

fn match_fault(of: Widths, record: &Record) -> Option<String> {
    switch_fault(of, record[1])
        .or_else(|| pattern_fault("the port", [record[4], record[5]], of.p))
        .or_else(|| pattern_fault("the header", [record[6], record[7]], of.h))
}

fn pattern_fault(what: &str, [value, care]: [u8; 2], width: u8) -> Option<String> {
    if u32::from(care) >= 1 << width {
        return Some(format!("{what} has care {care}, which does not fit its width {width}"));
    }
    let stray = value & !care != 0;
    stray.then(|| format!("{what} has value {value}, with a bit that care {care} leaves open"))
}

fn actions_fault(of: Widths, record: &Record) -> Option<String> {
    let count = usize::from(record[8]);
    if !(1..=4).contains(&count) {
        return Some(format!("the action count is {count}, and must be 1 to 4"));
    }
    let action_fault = |number: usize| {
        let place = 9 + 3 * number;
        let [kind, value, care] = [record[place], record[place + 1], record[place + 2]];
        let what = format!("action {}", number + 1);
        match kind {
            action::OUTPUT => pattern_fault(&what, [value, care], of.p),
            action::SET if number + 1 == count => {
                Some(format!("{what}, the last one, is a set, and sends nothing"))
            }
            action::SET => pattern_fault(&what, [value, care], of.h),
            action::IN_PORT => in_port_fault(&what, [value, care]),
            action::GROUP => group_action_fault(&what, [value, care]),
            _ => {
                let kinds = "1 (output), 2 (set), 3 (in_port) or 4 (group)";
                Some(format!("{what} has kind {kind}, not {kinds}"))
            }
        }
    };
    (0..count).find_map(action_fault).or_else(|| unused(record, 9 + 3 * count, 24))
}

fn in_port_fault(what: &str, [value, care]: [u8; 2]) -> Option<String> {
    let bytes = [("value", value), ("care", care)];
    let (name, byte) = bytes.into_iter().find(|(_, byte)| *byte != 0)?;
    Some(format!("{what} is in_port, and its {name} is {byte}, where it must be zero"))
}

fn group_action_fault(what: &str, [group, care]: [u8; 2]) -> Option<String> {
    if group > LAST_GROUP {
        return Some(format!("{what} is group {group}, and the last is {LAST_GROUP}"));
    }
    (care != 0).then(|| format!("{what} is a group, and its care is {care}, where it must be zero"))
}

fn group_fault(of: Widths, record: &Record) -> Option<String> {
    let [_, switch, group, ..] = *record;
    let number = || {
        (group > LAST_GROUP).then(|| format!("there is no group {group}, the last is {LAST_GROUP}"))
    };
    switch_fault(of, switch)
        .or_else(number)
        .or_else(|| unused(record, 3, 8))
        .or_else(|| buckets_fault(of, record))
}

fn buckets_fault(of: Widths, record: &Record) -> Option<String> {
    let count = usize::from(record[8]);
    if !(1..=MOST_BUCKETS).contains(&count) {
        return Some(format!("the bucket count is {count}, and must be 1 to {MOST_BUCKETS}"));
    }
    let mut buckets = (1..).zip(record[9..21].chunks(BUCKET_BYTES)).take(count);
    let fault = buckets.find_map(|(number, bucket)| bucket_fault(of, record[2], number, bucket));
    fault.or_else(|| unused(record, 9 + BUCKET_BYTES * count, 24))
}

/// What is wrong with the bucket of a number, from 1, of a group.
fn bucket_fault(of: Widths, group: u8, number: usize, bucket: &[u8]) -> Option<String> {
    let what = format!("bucket {number}");
    let [value, care, kind, number] = [bucket[0], bucket[1], bucket[2], bucket[3]];
    let last = of.controller();
    let target_fault = || match kind {
        target::PORT if number > last => {
            Some(format!("{what} sends to port {number}, and the last is {last}"))
        }
        target::GROUP if number >= group => {
            Some(format!("{what} goes on to group {number}, which is not below its own, {group}"))
        }
        target::PORT | target::GROUP => None,
        _ => Some(format!("{what} has target kind {kind}, not 1 (port) or 2 (group)")),
    };
    pattern_fault(&what, [value, care], of.h).or_else(target_fault)
}

fn node_fault(of: Widths, record: &Record) -> Option<String> {
    let [_, policy, kind, one, other, ..] = *record;
    if policy > 8 {
        return Some(format!("there is no policy {policy}, the last is 7"));
    }
    let variable =
        |byte: u8| (byte > 1).then(|| format!("variable {byte} is neither 0 (X) nor 1 (Y)"));
    let zero = || unused(record, 4, 5);
    let fault = match kind {
        node::BIT => variable(one).or_else(|| {
            let bits = of.bits();
            (other >= bits).then(|| format!("bit {other} is not below {bits}"))
        }),
        node::R => variable(one).or_else(|| variable(other)),
        node::E => variable(one).or_else(zero),
        node::NOT => zero(),
        node::AND | node::OR => None,
        node::SOME | node::ALL => variable(other),
        node::TC => (other > 3).then(|| format!("{other} is no pair of variables, 0 to 3")),
        _ => Some(format!("node kind {kind} is not 0 to 8")),
    };
    fault.or_else(|| unused(record, 5, 24))
}
