//! Generated networks: texts without a fault that the library says hold.

mod common;

use common::parsed;
use wegbaro_tests::gate::{Answer, Call, Gate, Lent};
use wegbaro_tests::library::Library;
use wegbaro_tests::records::Record;
use wegbaro_tools::generate::{generate, Kind, Options};
use wegbaro_tools::print::whole_records;
use wegbaro_tools::priorities::acting_together;
use wegbaro_tools::steps::{Network, State};

fn text(kind: Kind, switches: usize, flows: usize, seed: u64) -> String {
    with_groups(kind, switches, 0, flows, seed)
}

fn with_groups(kind: Kind, switches: usize, groups: usize, flows: usize, seed: u64) -> String {
    generate(kind, Options::new(switches, flows, groups).unwrap(), seed)
}

fn records(text: &str) -> Vec<Record> {
    let parsed = parsed(text);
    assert_eq!(parsed.notes, Vec::<String>::new(), "{text}");
    whole_records(&parsed.bytes).0
}

fn check(records: &[Record]) -> Answer {
    Library.answer(&Call::Check, &mut Lent::just(records))
}

/// Each network holds, and no two rules of it act together.
#[test]
fn networks_of_every_size_hold() {
    for kind in Kind::ALL {
        for switches in 2..=16 {
            let flows = 2 * switches;
            let text = text(kind, switches, flows, switches as u64);
            let records = records(&text);
            assert!(records.iter().any(|record| record[0] == 4), "{text}");
            assert!(records[0][1..4].iter().sum::<u8>() < 10);
            assert_eq!(acting_together(Network::new(&records).unwrap()), [], "{text}");
            assert_eq!(check(&records), Answer::Holds, "{text}");
        }
    }
}

/// The groups of a network, and the rules that send through one.
fn grouped(records: &[Record]) -> [usize; 2] {
    let groups = records.iter().filter(|record| record[0] == 9).count();
    let through = records.iter().filter(|record| record[0] == 4 && record[9] == 4).count();
    [groups, through]
}

/// Rules that send through groups take every state where they take it without.
#[test]
fn groups_change_no_step() {
    for kind in Kind::ALL {
        let plain = records(&text(kind, 12, 24, 3));
        assert_eq!(grouped(&plain), [0, 0]);
        let without = Network::new(&plain).unwrap();
        for groups in [1, 5, 16] {
            let text = with_groups(kind, 12, groups, 24, 3);
            let through = records(&text);
            let [count, rules] = grouped(&through);
            assert!(count == groups && rules >= groups, "{text}");
            let with = Network::new(&through).unwrap();
            for number in 0..with.states() {
                let state = State::numbered(number, with.widths);
                assert_eq!(with.next(state), without.next(state), "state {number} of {text}");
            }
            assert_eq!(check(&through), Answer::Holds, "{text}");
        }
    }
}

/// Routes have the length that the last policy allows: with one hop less it is broken.
#[test]
fn the_longest_route() {
    for kind in Kind::ALL {
        let text = text(kind, 6, 4, 5);
        let (before, hops) = text.trim_end().rsplit_once("more than ").unwrap();
        let hops: usize = hops.split(' ').next().unwrap().parse().unwrap();
        assert!(hops > 2, "{text}");
        let less = format!("{before}more than {} hop{}", hops - 1, if hops > 2 { "s" } else { "" });
        let answer = check(&records(&less));
        assert!(matches!(answer, Answer::Violated { policy: 2, .. }), "{answer:?} for {less}");
    }
}

/// Routes of up to seven hops are held to their length, longer ones are not: no policy says more.
#[test]
fn the_most_hops() {
    let mut seen = [false; 2];
    for seed in 0..200 {
        let text = text(Kind::Ring, 16, 3, seed);
        let routes = records(&text);
        let network = Network::new(&routes).unwrap();
        let longest = (0..network.states()).map(|state| hops(network, state)).max().unwrap();
        let held = text.lines().find(|line| line.starts_with("policy 2: "));
        match longest {
            7 => assert_eq!(held, Some("policy 2: no route of more than 7 hops")),
            8 => assert_eq!(held, None),
            _ => continue,
        }
        seen[longest - 7] = true;
    }
    assert_eq!(seen, [true, true]);
}

/// The switches that a frame comes to from an external state.
fn hops(network: Network, state: usize) -> usize {
    let mut at = vec![State::numbered(state, network.widths)];
    at.retain(|state| !state.departing && network.is_external(state.point));
    let mut hops = 0;
    while !at.is_empty() && hops < 16 {
        let sent: Vec<State> = at.iter().flat_map(|state| network.next(*state)).collect();
        hops += usize::from(sent.iter().any(|state| state.point[1] != 0));
        at = sent.iter().flat_map(|state| network.next(*state)).collect();
    }
    hops
}

#[test]
fn the_same_seed_gives_the_same_text() {
    for kind in Kind::ALL {
        assert_eq!(Kind::of(kind.word()), Some(kind));
        assert_eq!(text(kind, 9, 7, 3), text(kind, 9, 7, 3));
        assert_ne!(text(kind, 9, 7, 3), text(kind, 9, 7, 4));
    }
}

/// A tree of fourteen switches has tiers of eight, four and two, joined as 2 to 4.
#[test]
fn shapes() {
    let links = |text: &str| records(text).iter().filter(|record| record[0] == 2).count();
    assert_eq!(links(&text(Kind::Tree, 16, 0, 1)), 8 * 2 + 4 * 2);
    assert_eq!(links(&text(Kind::Ring, 16, 0, 1)), 16);
    assert_eq!(links(&text(Kind::Ring, 2, 0, 1)), 1);
    assert!(links(&text(Kind::Plod, 16, 0, 1)) >= 15);
    // Few switches have most of the links.
    let text = text(Kind::Plod, 16, 0, 2);
    let mut degrees = [0; 16];
    for record in records(&text).iter().filter(|record| record[0] == 2) {
        degrees[usize::from(record[1])] += 1;
        degrees[usize::from(record[3])] += 1;
    }
    degrees.sort();
    assert!(degrees[11..].iter().sum::<usize>() >= degrees[..11].iter().sum(), "{text}");
}

#[test]
fn options_out_of_range() {
    for (switches, flows, groups) in [(1, 1, 0), (17, 1, 0), (2, 65, 0), (2, 1, 17)] {
        assert!(Options::new(switches, flows, groups).is_err());
    }
}
