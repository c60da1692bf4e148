//! Networks with the longest routes that their widths allow.
//!
//! Every ordinary point is linked. A frame crosses each link once in either direction, counts its
//! header up by one and goes round again, so that it meets every state at a linked point.

use crate::networks::Widths;
use crate::records::{
    link, miss, output, rule, set, widths, Action, Pattern, Record, ANY, IN_PORT,
};

/// A network and the one route from its first state to its last.
#[derive(Clone, Debug)]
pub struct Winding {
    pub records: Vec<Record>,
    pub route: Vec<usize>,
}

/// Where a frame arrives in a round, and the port that it is sent to.
#[derive(Clone, Copy)]
struct Turn {
    switch: u8,
    port: u8,
    out: u8,
}

/// After the last round the frame goes to the controller.
pub fn winding(of: Widths) -> Winding {
    let full = controller(of);
    Winding { records: records(of, &[output(full, full)]), route: route(of) }
}

/// After the last round the header is 0 again: a loop through every state at a linked point.
pub fn looping(of: Widths) -> Winding {
    let actions = [set(0, ones(of)), IN_PORT];
    let mut route = route(of);
    route.pop();
    route[0] = route[route.len() - 1];
    Winding { records: records(of, &actions), route }
}

/// How many states the longest route has: at each linked point an arriving and a departing one for
/// each header, a start where no link ends, and an end where none begins.
pub fn longest(of: Widths) -> usize {
    2 * (((1 << of.p) - 2) << (of.w + of.h)) + 2
}

fn last_switch(of: Widths) -> u8 {
    (1 << of.w) - 1
}

fn controller(of: Widths) -> u8 {
    (1 << of.p) - 1
}

fn ones(of: Widths) -> u8 {
    (1 << of.h) - 1
}

/// Port 2 of each switch is linked to port 1 of the next, ports 3 and 4 to each other, and so on.
fn links(of: Widths) -> Vec<Record> {
    let last = last_switch(of);
    let mut links = vec![];
    for switch in 0..=last {
        links.push(link(switch, 2, if switch == last { 0 } else { switch + 1 }, 1));
        links.extend(
            (3..controller(of)).step_by(2).map(|port| link(switch, port, switch, port + 1)),
        );
    }
    links
}

/// A round: by ports 1 from switch 1 on to switch 0, and by ports 2 back to it.
fn round(of: Widths) -> Vec<Turn> {
    let last = last_switch(of);
    let there = (1..=last).chain([0]);
    let back = (1..=last).rev().chain([0]);
    let back = back.map(|switch| Turn { switch, port: 2, out: if switch == 0 { 2 } else { 1 } });
    there.flat_map(|switch| turns_from_port_1(of, switch)).chain(back).collect()
}

/// From port 1 over the links of a switch to itself, and on; switch 0 turns the frame back.
fn turns_from_port_1(of: Widths, switch: u8) -> Vec<Turn> {
    let own = 3..controller(of);
    let onward = if switch == 0 { 1 } else { 2 };
    let ports =
        [1].into_iter().chain(own.clone().map(|out| if out % 2 == 1 { out + 1 } else { out - 1 }));
    let outs = own.chain([onward]);
    ports.zip(outs).map(|(port, out)| Turn { switch, port, out }).collect()
}

/// The records, with what is done at the end of the last round.
fn records(of: Widths, at_last: &[Action]) -> Vec<Record> {
    let full = controller(of);
    let mut records = vec![widths(of.h, of.p, of.w)];
    records.extend(links(of));
    records.extend((0..=last_switch(of)).map(|switch| miss(switch, &[output(0, full)])));
    let round = round(of);
    for turn in &round[..round.len() - 1] {
        records.push(going(of, turn.switch, turn.port, ANY, &[sending(of, turn)]));
    }
    records.extend((0..of.h).map(|bit| counting(of, bit)));
    records.push(going(of, 0, 2, [ones(of); 2], at_last));
    records.push(going(of, 0, full, ANY, &[output(2, full)]));
    records
}

/// The action of a turn: on to another port, or back to that of arrival.
fn sending(of: Widths, turn: &Turn) -> Action {
    match turn.out == turn.port {
        true => IN_PORT,
        false => output(turn.out, controller(of)),
    }
}

/// A rule for one point.
fn going(of: Widths, switch: u8, port: u8, header: Pattern, actions: &[Action]) -> Record {
    rule(switch, 1, [port, controller(of)], header, actions)
}

/// The rule at the end of a round for headers whose lowest 0 is this bit: it becomes 1, lower ones 0.
fn counting(of: Widths, bit: u8) -> Record {
    let (top, care) = (1 << bit, (2 << bit) - 1);
    going(of, 0, 2, [top - 1, care], &[set(top, care), IN_PORT])
}

fn route(of: Widths) -> Vec<usize> {
    let [arriving, departing] = [0, 1].map(|direction| {
        move |switch: u8, port: u8, header: usize| {
            let switch = direction << of.w | usize::from(switch);
            (switch << of.p | usize::from(port)) << of.h | header
        }
    });
    let mut route = vec![arriving(0, controller(of), 0), departing(0, 2, 0)];
    for header in 0..1 << of.h {
        for turn in round(of) {
            route.push(arriving(turn.switch, turn.port, header));
            route.push(departing(turn.switch, turn.out, header));
        }
        // The round ends with a new header, or at the controller.
        route.pop();
        route.push(match header + 1 {
            counted if counted < 1 << of.h => departing(0, 2, counted),
            _ => departing(0, controller(of), header),
        });
    }
    route
}
