//! Plain Rust on 64-bit words beside the proved library: the same answers, and the same bytes in the
//! store and the work.

use wegbaro_tests::cases::{self, expect_all};
use wegbaro_tests::commands::random_command;
use wegbaro_tests::compare::{self, ADDED_BY_MODIFY, FULL_TO_MODIFY};
use wegbaro_tests::formulas::{and, policy, push, push_is_state, r, some, tc, Node, X, Y};
use wegbaro_tests::gate::{Answer, Call, Lent};
use wegbaro_tests::library::Library;
use wegbaro_tests::networks::{all_widths, random_network, work_needed, Sizes, MODEST};
use wegbaro_tests::random::Random;
use wegbaro_tests::winding::winding;
use wegbaro_tests::words::Words;

#[test]
fn every_case() {
    expect_all(cases::all().map(|case| case.run(&Words)));
}

#[test]
fn every_case_in_every_version() {
    expect_all(cases::versions::in_each().iter().map(|case| case.run(&Words)));
}

#[test]
fn sound_networks_of_every_width() {
    let small = Sizes { links: 4, rules: 6, policies: 2, nodes: 6, groups: 4 };
    let linked = Sizes { links: 40, rules: 40, policies: 4, nodes: 12, groups: 16 };
    for (seed, rounds, most) in [(71, 6, small), (72, 3, MODEST), (73, 2, linked)] {
        let tally = compare::sound_networks(&Words, &Library, seed, rounds, most).unwrap();
        tally.expect("check", &[("holds", 10), ("violated", 10), ("refused 11", 0)]);
    }
}

/// Each with work to spare, whose bytes must stay.
#[test]
fn commands_of_every_width() {
    let mut random = Random::new(74);
    for of in all_widths() {
        for _ in 0..4 {
            let records = random_network(&mut random, of, MODEST);
            let spare = random.below(100);
            let lent = compare::lend(&mut random, &records, work_needed(&records) + spare);
            let given = random_command(&mut random, &records);
            compare::same(&Words, &Library, &Call::Command(given), &lent).unwrap();
        }
    }
}

/// What leads to a state is forbidden, by steps and closure of a pair of variables.
fn nothing_leads_to(end: usize, bits: u8, [from, to]: [u8; 2]) -> Vec<Node> {
    let mut nodes = vec![r(from, to), tc(0, from, to)];
    let is_end = push_is_state(&mut nodes, Y, end, bits);
    let leads = push(&mut nodes, and(1, is_end));
    push(&mut nodes, some(leads, Y));
    nodes
}

/// On a route through every state at a linked point each state leads to each later one.
#[test]
fn long_routes_of_every_width() {
    let mut random = Random::new(83);
    for of in all_widths() {
        let long = winding(of);
        for pair in [[X, Y], [X, Y], [Y, X], [Y, X]] {
            let place = 1 + random.below(long.route.len() - 1);
            let nodes = nothing_leads_to(long.route[place], of.bits(), pair);
            let records = [long.records.clone(), policy(0, &nodes)].concat();
            let lent = compare::lend(&mut random, &records, work_needed(&records));
            let state = long.route[..place].iter().copied().min().unwrap();
            let outcome = compare::same(&Words, &Library, &Call::Check, &lent).unwrap();
            assert_eq!(outcome.answer, Answer::Violated { policy: 0, state }, "{of:?}");
        }
    }
}

/// Counts and store lengths around the limits, rows 1 and 2, with any work.
#[test]
fn any_arguments() {
    let mut random = Random::new(75);
    for _ in 0..400 {
        let of = random.pick(&compare::widths_up_to(6));
        let records = random_network(&mut random, of, MODEST);
        let work = random.below(work_needed(&records) + 100);
        let Lent { mut store, n, work, .. } = compare::lend(&mut random, &records, work);
        let any = random.below(700);
        let n = random.pick(&[0, 1, n - 1, n, n, n + 1, 657, 658, any, usize::MAX]);
        store.truncate(random.pick(&[0, 24, 15_767, 15_768, store.len()]));
        let lent = Lent { store, n, work, ..Lent::default() };
        compare::same(&Words, &Library, &Call::Check, &lent).unwrap();
        let given = random_command(&mut random, &records);
        compare::same(&Words, &Library, &Call::Command(given), &lent).unwrap();
    }
}

#[test]
fn largest_networks() {
    compare::largest_networks(&Words, &Library, 76, 4).unwrap();
}

#[test]
fn damaged_networks() {
    let tally = compare::damaged_networks(&Words, &Library, 77, 6_000, 6).unwrap();
    tally.expect_rows(&[3, 4, 5, 6, 7, 8, 9, 12, 16]);
    let tally = compare::damaged_networks(&Words, &Library, 78, 400, 10).unwrap();
    tally.expect_rows(&[3, 5, 7, 9, 12, 16]);
}

#[test]
fn crowded_networks() {
    let tally = compare::crowded_networks(&Words, &Library, 79, 200, 6).unwrap();
    tally.expect_rows(&[8, 9, 10, 12, 13, 16]);
}

#[test]
fn series_of_every_width() {
    let tally = compare::series(&Words, &Library, 80, 40, 7, 60).unwrap();
    tally.expect("command", &[("forwarded", 200), ("blocked", 100), (ADDED_BY_MODIFY, 50)]);
    tally.expect("command", &[("refused 12", 0), ("refused 16", 0)]);
    compare::series(&Words, &Library, 81, 40, 10, 10).unwrap();
}

#[test]
fn full_tables() {
    let tally = compare::full_tables(&Words, &Library, 82, 120, 8, 16).unwrap();
    tally.expect("command", &[(ADDED_BY_MODIFY, 20), (FULL_TO_MODIFY, 100)]);
    tally.expect("command", &[("forwarded", 200), ("blocked", 20)]);
}
