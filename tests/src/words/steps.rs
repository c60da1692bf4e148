//! The plane of all steps, and the row of external states.

use super::fields::ends;
use super::groups::{arriving, departing, Groups};
use super::network::{actions, put_into, Network};
use super::planes::{collect, set_bit, zip, Row};
use crate::records::Record;
use crate::second::states::{Widths, DROP};

/// Puts all steps into an empty plane.
pub fn fill<const W: usize>(network: &Network, plane: &mut [Row<W>]) {
    fill_arriving(network, plane);
    fill_departing(network, plane);
}

/// The steps of arriving states. Each rule is taken twice over the states that it matches: for the
/// highest rank of each, and to act where that is its own.
fn fill_arriving<const W: usize>(network: &Network, plane: &mut [Row<W>]) {
    let widths = network.widths;
    let groups = Groups::of(network);
    let mut highest = [0; 512];
    for rule in network.rules {
        each_match(widths, rule, |state| highest[state] = rank(rule).max(highest[state]));
    }
    let mut run = |state: usize, record: &Record| act(widths, &groups, plane, state, record);
    for rule in network.rules {
        each_match(widths, rule, |state| {
            if highest[state] == rank(rule) {
                run(state, rule);
            }
        });
    }
    for state in (0..widths.states() / 2).filter(|state| highest[*state] == 0) {
        run(state, &network.misses[state >> (widths.port + widths.header)]);
    }
}

/// A priority, above that of a miss record.
fn rank(rule: &Record) -> u32 {
    1 + u32::from(u16::from_le_bytes([rule[2], rule[3]]))
}

/// Takes each arriving state that a rule matches: its fixed bits, with any of its stars set.
fn each_match(widths: Widths, rule: &Record, mut take: impl FnMut(usize)) {
    let [_, switch, _, _, port, port_care, header, header_care, ..] = *rule;
    let fixed = arriving(widths, switch, port, header);
    let below = (1 << (widths.port + widths.header)) - 1;
    let stars = below - arriving(widths, 0, port_care, header_care);
    let mut set = 0;
    loop {
        take(fixed | set);
        set = set.wrapping_sub(stars) & stars;
        if set == 0 {
            return;
        }
    }
}

/// Puts what a record's actions send of an arriving state into its row.
fn act<const W: usize>(
    widths: Widths,
    groups: &Groups<W>,
    plane: &mut [Row<W>],
    state: usize,
    record: &Record,
) {
    let row = &mut plane[state];
    let switch = record[1];
    let port = (state >> widths.header) as u8 & (widths.ports() - 1);
    let mut header = state as u8 & ((1 << widths.header) - 1);
    if port == DROP {
        return;
    }
    for [kind, value, care] in actions(record) {
        match kind {
            1 => {
                each_port(widths, value, care, port, |port| {
                    set_bit(row, departing(widths, switch, port, header));
                });
            }
            2 => header = put_into(header, value, care),
            3 => set_bit(row, departing(widths, switch, port, header)),
            _ => {
                let sent = groups.sent(widths, [switch, port], value, header);
                *row = zip(row, &sent, |mine, its| mine | its);
            }
        }
    }
}

/// Takes each port that an OUTPUT reaches: its one port, by stars ordinary ones, never that of arrival.
fn each_port(widths: Widths, value: u8, care: u8, arrival: u8, mut take: impl FnMut(u8)) {
    let ports = match care == widths.ports() - 1 {
        true => value..value + 1,
        false => 1..widths.controller(),
    };
    for port in ports.filter(|port| port & care == value && *port != arrival) {
        take(port);
    }
}

/// The steps of departing states, over the links.
fn fill_departing<const W: usize>(network: &Network, plane: &mut [Row<W>]) {
    let widths = network.widths;
    for link in network.links {
        let [one, other] = ends(link);
        for header in 0..1 << widths.header {
            for (from, to) in [(one, other), (other, one)] {
                let row = &mut plane[departing(widths, from.switch, from.port, header)];
                set_bit(row, arriving(widths, to.switch, to.port, header));
            }
        }
    }
}

/// The external states: at an ordinary port where no link ends.
pub fn external<const W: usize>(network: &Network) -> Row<W> {
    let widths = network.widths;
    let mut linked = [0_u16; 16];
    for end in network.links.iter().flat_map(ends) {
        linked[usize::from(end.switch)] |= 1 << end.port;
    }
    collect(widths.states(), |state| {
        let port = (state >> widths.header) as u8 & (widths.ports() - 1);
        let switch = state >> (widths.header + widths.port) & (widths.switches() - 1);
        widths.is_ordinary(port) && linked[switch] >> port & 1 == 0
    })
}
