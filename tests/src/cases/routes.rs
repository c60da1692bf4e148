//! Routes worked out by hand, and rows 14 and 15.

use super::commands::inserted;
use super::starred::{k_with_rule, K_WORK};
use super::{bare, lend, Case, SPARE};
use crate::gate::{Answer, Call, Lent};
use crate::k::{first_add, k};
use crate::networks::{all_widths, work_needed, Widths};
use crate::records::{
    group, link, miss, output, rule, run, set, to_group, to_port, widths, with, Action, Record,
    ANY, IN_PORT,
};
use crate::winding::{looping, winding};

/// What the entries of a list are before the call.
const BEFORE: u16 = 0xBEEF;
/// Entries beyond the 2^N + 1 that a list has at least.
const MORE: usize = 3;

pub fn cases() -> Vec<Case> {
    [
        on_k(),
        loops(),
        returns(),
        through_groups(),
        by_equals(),
        choices(),
        longest(),
        states(),
        lists(),
        order(),
    ]
    .concat()
}

/// The case of a route; with no states, of there being none.
fn case(name: &str, records: &[Record], [start, end]: [usize; 2], route: &[usize]) -> Case {
    let answer = match route.len() {
        0 => Answer::NoRoute,
        count => Answer::Found { count },
    };
    let zeroed = work_needed(records);
    let states = 1 << Widths::of(&records[0]).bits();
    let lent = with_list(lend(records, zeroed + SPARE), states + 1 + MORE);
    let listed = route.iter().map(|state| *state as u16).collect();
    let name = format!("{name}: {start} to {end}");
    Case { zeroed, listed, ..Case::on(&name, lent, Call::Route { start, end }, answer) }
}

/// The buffers with a list of so many entries.
fn with_list(lent: Lent, entries: usize) -> Lent {
    Lent { list: vec![BEFORE; entries], ..lent }
}

fn found(name: &str, records: &[Record], route: &[usize]) -> Case {
    case(name, records, [route[0], route[route.len() - 1]], route)
}

fn none(name: &str, records: &[Record], start: usize, end: usize) -> Case {
    case(name, records, [start, end], &[])
}

/// A case refused instead.
fn refused(case: Case, number: usize) -> Case {
    let answer = Answer::Refused { number, place: 0 };
    Case { answer, listed: vec![], zeroed: 0, ..case }
}

/// State 2 reaches 20, 10 and 28 only; header 1 gets through as soon as a rule lets it, and the
/// network is violated then.
fn on_k() -> Vec<Case> {
    let route = [2, 20, 10, 28];
    let mut cases = vec![none("K", &k(), 28, 2), none("K", &k(), 3, 29)];
    for end in 0..32 {
        cases.push(match route.iter().position(|state| *state == end) {
            None | Some(0) => none("K", &k(), 2, end),
            Some(steps) => found("K", &k(), &route[..=steps]),
        });
    }
    let violated = k_with_rule(with(first_add(), 0, 4));
    cases.push(found("K violated", &violated, &[3, 21, 11, 29]));
    cases.push(found("K without its policy", &bare(), &route));
    cases
}

/// One switch, header width 1 and port width 2, whose ports 1 and 2 are linked: a state is
/// 8 (departing) + 2 port + header.
fn turning(rules: &[Record]) -> Vec<Record> {
    [&[widths(1, 2, 0), link(0, 1, 0, 2), miss(0, &[output(0, 3)])], rules].concat()
}

/// From a state to itself: a step turns arriving into departing or back, so two steps at least.
fn loops() -> Vec<Case> {
    let from_1 = |header, actions: &[Action]| rule(0, 1, [1, 3], header, actions);
    let same = turning(&[rule(0, 1, ANY, ANY, &[output(2, 3)])]);
    let changing = turning(&[
        from_1([0, 1], &[set(1, 1), output(2, 3)]),
        from_1([1, 1], &[set(0, 1), output(2, 3)]),
    ]);
    let ending = turning(&[from_1([0, 1], &[set(1, 1), output(2, 3)])]);
    vec![
        found("loop of two steps", &same, &[2, 12, 2]),
        found("loop of two steps, departing", &same, &[13, 3, 13]),
        none("into a loop", &same, 6, 6),
        found("loop of four steps", &changing, &[2, 13, 3, 12, 2]),
        found("once round and on", &changing, &[12, 2, 13, 3]),
        none("to its own header changed", &ending, 2, 2),
        none("dropped", &ending, 3, 3),
        none("port 0 arriving", &same, 0, 0),
    ]
}

/// OUTPUT never leads back over the link of arrival, IN_PORT always.
fn returns() -> Vec<Case> {
    let turning_by = |actions: &[Action]| turning(&[rule(0, 1, ANY, ANY, actions)]);
    let back = turning_by(&[IN_PORT]);
    let to_2 = turning_by(&[output(2, 3)]);
    let flood = turning_by(&[output(0, 0)]);
    let set_between = turning_by(&[output(0, 0), set(1, 1), IN_PORT]);
    vec![
        found("returned at both ends", &back, &[2, 10, 4, 12, 2]),
        found("returned to the controller", &back, &[6, 14]),
        none("returned, not on", &back, 2, 14),
        none("OUTPUT to the arrival port", &to_2, 4, 12),
        none("flood to the arrival port", &flood, 2, 10),
        found("flood to the other port", &flood, &[2, 12, 2]),
        none("flood without a turn", &flood, 2, 4),
        found("returned with a header set", &set_between, &[2, 11, 5]),
        none("returned with the header of arrival", &set_between, 2, 10),
    ]
}

/// K whose rule A runs group 1: it sends header 1 to drop, and on to group 0, which sends to port 2. A
/// way through groups is one step.
fn through_groups() -> Vec<Case> {
    let mut records = k();
    records[4] = rule(0, 10, [1, 3], [0, 1], &[run(1)]);
    records.push(group(0, 0, &[to_port(ANY, 2)]));
    records.push(group(0, 1, &[to_port([1, 1], 0), to_port(ANY, 1), to_group(ANY, 0)]));
    vec![
        found("K with groups", &records, &[2, 20, 10, 28]),
        found("K with groups, to drop", &records, &[2, 17]),
        none("K with groups, to the arrival port", &records, 2, 18),
        none("K with groups, with a header of another bucket", &records, 2, 21),
        none("K with groups, the header not set", &records, 2, 16),
    ]
}

/// K with a second rule of A's or B's priority, behind the others or before them: it adds routes and
/// takes none away. One of higher priority takes A's away.
fn by_equals() -> Vec<Case> {
    let setting = [set(1, 1), output(2, 3)];
    let set_at_0 = rule(0, 10, [1, 3], ANY, &setting);
    let set_at_1 = rule(1, 10, ANY, [0, 1], &setting);
    let dropping = rule(0, 10, ANY, [0, 1], &[output(0, 3)]);
    let back = rule(1, 10, ANY, ANY, &[IN_PORT]);
    let higher = rule(0, 11, ANY, [0, 1], &[output(0, 3)]);
    let mut cases = vec![
        none("K with a higher rule", &k_with_rule(higher), 2, 28),
        found("K with a higher rule", &k_with_rule(higher), &[2, 16]),
    ];
    for (name, place) in [("behind", 6), ("before", 4)] {
        let with = |rule: Record| inserted(&k(), place, rule);
        cases.extend([
            found(&format!("A's equal sets, {name}"), &with(set_at_0), &[2, 21, 11, 29]),
            found(&format!("A's equal sets, {name}"), &with(set_at_0), &[2, 20, 10, 28]),
            found(&format!("B's equal sets, {name}"), &with(set_at_1), &[2, 20, 10, 29]),
            found(&format!("B's equal sets, {name}"), &with(set_at_1), &[2, 20, 10, 28]),
            none(&format!("B's equal sets, {name}"), &with(set_at_1), 2, 21),
            found(&format!("A's equal drops, {name}"), &with(dropping), &[2, 16]),
            found(&format!("A's equal drops, {name}"), &with(dropping), &[2, 20, 10, 28]),
            found(&format!("B's equal returns, {name}"), &with(back), &[2, 20, 10, 26, 4, 16]),
            found(&format!("B's equal returns, {name}"), &with(back), &[2, 20, 10, 28]),
        ]);
    }
    cases
}

/// One switch, header width 1 and port width 3: a state is 16 (departing) + 2 port + header. Ports
/// 1 and 4 are linked, and 2 and 3. What arrives at port 5 goes to 1 and 2, at 3 to 6.
fn forked(at_4: &[Action]) -> Vec<Record> {
    let at = |port, actions: &[Action]| rule(0, 1, [port, 7], ANY, actions);
    vec![
        widths(1, 3, 0),
        link(0, 1, 0, 4),
        link(0, 2, 0, 3),
        miss(0, &[output(0, 7)]),
        at(5, &[output(2, 7), output(1, 7)]),
        at(3, &[output(6, 7)]),
        at(4, at_4),
    ]
}

/// The same network, where what arrives at 4 goes to 6, with two rules in place of that for port 5.
fn forked_by_equals(rules: [Record; 2]) -> Vec<Record> {
    let mut records = forked(&[output(6, 7)]);
    records.splice(4..5, rules);
    records
}

/// Fewest steps first; among as many, the smaller state at the first difference.
fn choices() -> Vec<Case> {
    let as_many = forked(&[output(6, 7)]);
    let longer = forked(&[output(2, 7)]);
    let later_header = forked(&[set(1, 1), output(6, 7)]);
    let two_headers = turning(&[rule(0, 1, [1, 3], ANY, &[output(2, 3), set(1, 1), output(2, 3)])]);
    let to_2 = rule(0, 1, [5, 7], ANY, &[output(2, 7)]);
    let to_1 = rule(0, 1, ANY, [0, 1], &[output(1, 7)]);
    let to_6 = rule(0, 1, [4, 4], [0, 1], &[output(6, 7)]);
    vec![
        found("smaller by way of a larger one", &as_many, &[10, 18, 8, 28]),
        found("larger with fewer steps", &longer, &[10, 20, 6, 28]),
        found("smaller with another header", &later_header, &[10, 18, 8, 29]),
        found("larger with its header", &later_header, &[10, 20, 6, 28]),
        found("with the header kept", &two_headers, &[2, 12, 2]),
        found("with the header set", &two_headers, &[2, 13, 3]),
        found("smaller by an equal behind", &forked_by_equals([to_2, to_1]), &[10, 18, 8, 28]),
        found("smaller by an equal before", &forked_by_equals([to_1, to_2]), &[10, 18, 8, 28]),
        found("fewer steps by an equal behind", &forked_by_equals([to_2, to_6]), &[10, 28]),
        found("fewer steps by an equal before", &forked_by_equals([to_6, to_2]), &[10, 28]),
    ]
}

/// The longest routes and loops of every width: 897 and 896 steps at N = 10 with port width 4.
fn longest() -> Vec<Case> {
    let case = |of: Widths| {
        let name = format!("longest, widths {} {} {}", of.h, of.p, of.w);
        let (long, round) = (winding(of), looping(of));
        let (start, end) = (long.route[0], long.route[long.route.len() - 1]);
        [
            found(&name, &long.records, &long.route),
            none(&name, &long.records, end, start),
            found(&name, &round.records, &round.route),
        ]
    };
    all_widths().into_iter().flat_map(case).collect()
}

/// Row 14: 2^N − 1 is a state, and nothing from 2^N on, whatever its low bits are.
fn states() -> Vec<Case> {
    let mut cases = vec![none("last state", &k(), 31, 2), none("last state", &k(), 2, 31)];
    for state in [32, 34, 1 << 16, 2 + (1 << 16), 2 + (1 << 32), 2 + (1 << 63), usize::MAX] {
        for ends in [[state, 28], [2, state], [state, state]] {
            cases.push(refused(case("no state", &k(), ends, &[]), 14));
        }
    }
    for bits in 4..=10 {
        let (records, states) = (one_switch(bits), 1 << bits);
        let name = format!("N of {bits}");
        cases.push(none(&name, &records, states - 1, states - 1));
        for ends in [[states, 0], [0, states]] {
            cases.push(refused(case(&name, &records, ends, &[]), 14));
        }
    }
    cases
}

/// A network of one switch with so many bits of state.
fn one_switch(bits: u8) -> Vec<Record> {
    let p = if bits == 10 { 3 } else { 2 };
    vec![widths(bits - 1 - p, p, 0), miss(0, &[output(0, 0)])]
}

/// Row 15: a list of 2^N + 1 entries, and of fewer.
fn lists() -> Vec<Case> {
    let listing = |case: Case, entries: usize| Case {
        name: format!("{}, list of {entries}", case.name),
        lent: with_list(case.lent, entries),
        ..case
    };
    let route = || found("K", &k(), &[2, 20, 10, 28]);
    let mut cases = vec![listing(route(), 33), listing(route(), 5_000)];
    for entries in [0, 1, 4, 31, 32] {
        cases.push(listing(refused(route(), 15), entries));
        cases.push(listing(refused(none("K", &k(), 28, 2), 15), entries));
    }
    for bits in 4..=10 {
        let missed = none("one switch", &one_switch(bits), 0, 0);
        cases.push(listing(missed.clone(), (1 << bits) + 1));
        cases.push(listing(refused(missed, 15), 1 << bits));
    }
    cases
}

/// Row 11 comes before row 14, and that before row 15.
fn order() -> Vec<Case> {
    let lent_so = |work: usize, start: usize, entries: usize, number: usize| Case {
        name: format!("K, work of {work}, start {start}, list of {entries}"),
        lent: with_list(lend(&k(), work), entries),
        ..refused(none("K", &k(), start, 28), number)
    };
    vec![
        lent_so(K_WORK - 1, 32, 32, 11),
        lent_so(K_WORK - 1, 32, 33, 11),
        lent_so(K_WORK - 1, 2, 32, 11),
        lent_so(K_WORK - 1, 2, 33, 11),
        lent_so(K_WORK, 32, 32, 14),
        lent_so(K_WORK, 32, 33, 14),
        lent_so(K_WORK, 2, 32, 15),
    ]
}
