//! The proved library and its program against the cases and against the second implementation.

use wegbaro_tests::cases::{self, expect_all, patterns};
use wegbaro_tests::compare::{self, routes, ADDED_BY_MODIFY, FULL_TO_MODIFY};
use wegbaro_tests::library::{program, Library};
use wegbaro_tests::networks::{Sizes, MODEST};
use wegbaro_tests::reordered::Reordered;
use wegbaro_tests::second::{self, Second};
use wegbaro_tests::unversioned::Unversioned;

#[test]
fn every_case() {
    expect_all(cases::all().map(|case| case.run(&Library)));
}

/// The cases of all rows in the versions that their networks do not name.
#[test]
fn every_case_in_every_version() {
    expect_all(cases::versions::in_each().iter().map(|case| case.run(&Library)));
}

#[test]
fn every_program_case() {
    expect_all(cases::programs::cases().iter().map(|case| case.run(&program)));
}

#[test]
fn header_patterns() {
    let cases = (1..=6).flat_map(patterns::headers);
    expect_all(cases.map(|case| case.run(&Library)));
}

#[test]
fn port_patterns() {
    let cases = (2..=4).flat_map(patterns::ports);
    expect_all(cases.map(|case| case.run(&Library)));
}

#[test]
fn output_patterns() {
    let cases = (2..=4).flat_map(patterns::outputs);
    expect_all(cases.map(|case| case.run(&Library)));
}

/// With headers of 6 bits only the one that SET must make is tried: that no other departs is seen
/// by [`set_patterns_at_once`].
#[test]
fn set_patterns() {
    let near = (1..=5).flat_map(|h| patterns::sets(h, 1));
    let cases = near.chain(patterns::sets(6, 0));
    expect_all(cases.map(|case| case.run(&Library)));
}

#[test]
fn set_patterns_at_once() {
    let cases = (1..=6).flat_map(patterns::sets_at_once);
    expect_all(cases.map(|case| case.run(&Library)));
}

#[test]
fn set_patterns_mistaken() {
    let cases = (1..=3).flat_map(patterns::sets_mistaken);
    expect_all(cases.map(|case| case.run(&Library)));
}

#[test]
fn bucket_patterns() {
    let headers = (1..=5).flat_map(|h| patterns::bucket_sets(h, 1));
    let ports = (2..=4).flat_map(patterns::bucket_ports);
    let cases = headers.chain(patterns::bucket_sets(6, 0)).chain(ports);
    expect_all(cases.map(|case| case.run(&Library)));
}

/// 256 rules of one priority, all of which match one state.
#[test]
fn every_rule_of_one_priority() {
    expect_all([cases::equals::every_rule().run(&Library)]);
}

#[test]
fn the_order_of_rules_does_not_matter() {
    let linked = Sizes { links: 40, rules: 12, policies: 0, nodes: 0, groups: 8 };
    compare::orders(&Library, 58, 2).unwrap();
    routes::of_every_width(&Library, &Reordered::new(&Library, 59), 59, 1, 12, linked).unwrap();
}

#[test]
fn sound_networks_of_every_width() {
    let small = Sizes { links: 4, rules: 6, policies: 2, nodes: 6, groups: 4 };
    let tally = compare::sound_networks(&Second, &Library, 41, 2, small).unwrap();
    tally.expect("check", &[("holds", 10), ("violated", 10)]);
    compare::sound_networks(&Second, &Library, 42, 1, MODEST).unwrap();
}

#[test]
fn largest_networks() {
    compare::largest_networks(&Second, &Library, 43, 2).unwrap();
}

#[test]
fn damaged_networks() {
    let tally = compare::damaged_networks(&Second, &Library, 44, 4_000, 6).unwrap();
    tally.expect_rows(&[3, 4, 5, 6, 7, 8, 9, 12, 14, 15, 16]);
}

#[test]
fn crowded_networks() {
    let tally = compare::crowded_networks(&Second, &Library, 45, 100, 5).unwrap();
    tally.expect_rows(&[8, 9, 10, 12, 13, 16]);
}

#[test]
fn rules_repeated_anywhere() {
    compare::repeated_rules(&Second, &Library, 60, 400, 5).unwrap();
}

#[test]
fn points_linked_twice_anywhere() {
    compare::repeated_points(&Second, &Library, 61, 200).unwrap();
}

#[test]
fn long_series() {
    let tally = compare::series(&Second, &Library, 46, 12, 6, 400).unwrap();
    tally.expect("command", &[("forwarded", 500), ("blocked", 80), (ADDED_BY_MODIFY, 100)]);
    tally.expect("command", &[("refused 12", 200), ("refused 16", 100)]);
}

#[test]
fn full_tables() {
    let tally = compare::full_tables(&Second, &Library, 54, 200, 6, 16).unwrap();
    tally.expect("command", &[(ADDED_BY_MODIFY, 50), (FULL_TO_MODIFY, 200)]);
    tally.expect("command", &[("forwarded", 500), ("blocked", 50)]);
}

/// What the library does in each version, told by what it does without one.
#[test]
fn versions_as_without_one() {
    let unversioned = Unversioned(&Library);
    let of_series = compare::series(&Library, &unversioned, 55, 100, 8, 40).unwrap();
    of_series.expect("command", &[(ADDED_BY_MODIFY, 100)]);
    let of_full = compare::full_tables(&Library, &unversioned, 56, 200, 6, 16).unwrap();
    of_full.expect("command", &[(FULL_TO_MODIFY, 200)]);
    compare::damaged_networks(&Library, &unversioned, 57, 2_000, 6).unwrap();
}

#[test]
fn series_of_every_width() {
    compare::series(&Second, &Library, 47, 60, 8, 12).unwrap();
}

#[test]
fn random_inputs_of_the_program() {
    compare::programs(&second::program, &program, 48, 400).unwrap();
}

#[test]
fn routes_of_every_width() {
    let linked = Sizes { links: 40, rules: 12, policies: 2, nodes: 6, groups: 8 };
    let tally = routes::of_every_width(&Second, &Library, 51, 4, 12, linked).unwrap();
    tally.expect("route", &[("found", 5_000), ("no route", 10_000)]);
    tally.expect("route", &[("refused 11", 100), ("refused 14", 100), ("refused 15", 100)]);
}

#[test]
fn routes_of_largest_networks() {
    let tally = routes::of_largest(&Second, &Library, 52, 40).unwrap();
    tally.expect("route", &[("found", 10)]);
    tally.expect_count("route", 4);
}

/// Each call would take minutes, if every way were gone.
#[test]
fn every_way_through_nested_groups_at_once() {
    expect_all([cases::group_steps::every_way().run(&Library)]);
}

#[test]
fn winding_routes() {
    let tally = routes::of_winding(&Second, &Library, 53, 2, 20).unwrap();
    tally.expect("route", &[("found", 500)]);
    tally.expect_count("route", 500);
}
