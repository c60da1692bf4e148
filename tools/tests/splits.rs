//! Sentences over several points have room: in a second form, or as several policies.

mod common;
mod seeded;

use common::parsed;
use seeded::seeded;
use wegbaro::{Checked, Gate};
use wegbaro_tests::random::Random;
use wegbaro_tools::parse::{parse, Parsed};
use wegbaro_tools::print::whole_records;

/// Eight switches in a chain that send frames up, down or out at random.
fn ward(random: &mut Random) -> String {
    let links: String = (0..7).map(|it| format!("link {it}:2 - {}:4\n", it + 1)).collect();
    let mut port = || ["1", "2", "4", "6", "drop"][random.below(5)];
    let misses: String =
        (0..8).map(|it| format!("miss {it}: output {}, output {}\n", port(), port())).collect();
    format!("widths H 1 P 3 W 3\n{links}{misses}")
}

fn verdict(parsed: &Parsed) -> Checked {
    Gate::new(&whole_records(&parsed.bytes).0).unwrap().check()
}

/// The lowest state that breaks a policy between one point and another.
fn lowest(ward: &str, one: &[String], other: &[String]) -> Option<usize> {
    let pairs = one.iter().flat_map(|one| other.iter().map(move |other| (one, other)));
    let broken = pairs.filter_map(|(one, other)| {
        match verdict(&parsed(&format!("{ward}policy 0: {one} and {other} never meet\n"))) {
            Checked::Holds => None,
            Checked::Violated { state, .. } => Some(state),
        }
    });
    broken.min()
}

/// Points at some ports of some switches.
fn points(random: &mut Random, ports: &[u8]) -> Vec<String> {
    let mut points = vec![];
    for _ in 0..1 + random.below(4) {
        let switch = random.below(8);
        points.extend(ports.iter().map(|port| format!("{switch}:{port}")));
    }
    points.sort();
    points.dedup();
    points
}

#[test]
fn points_that_never_meet() {
    let mut random = seeded(12);
    let [mut held, mut violated, mut split] = [0; 3];
    for _ in 0..60 {
        let ward = ward(&mut random);
        let [one, other] = [&[1, 5][..], &[3, 6]].map(|ports| points(&mut random, ports));
        let policy = format!("{} and {} never meet", one.join(", "), other.join(", "));
        let Ok(parsed) = parse(&format!("{ward}policy 0: {policy}\n")) else { continue };
        let expected = lowest(&ward, &one, &other);
        match verdict(&parsed) {
            Checked::Holds => {
                assert_eq!(expected, None, "{policy} in\n{ward}");
                held += 1;
            }
            Checked::Violated { state, .. } => {
                assert!(expected.is_some(), "{policy} in\n{ward}");
                assert!(parsed.policies.len() > 1 || expected == Some(state), "{policy}\n{ward}");
                violated += 1;
            }
        }
        let is_told = parsed.notes.iter().any(|note| note.contains("parts of it are policy 1"));
        assert_eq!(is_told, parsed.policies.len() > 1, "{policy}");
        split += usize::from(is_told);
    }
    assert!(held >= 8 && violated >= 8 && split >= 4, "{held}, {violated}, {split}");
}

/// Eight pumps and eight guests.
#[test]
fn pumps_and_guests() {
    let ward = ward(&mut seeded(1));
    for (policy, policies) in [
        ("4:3, 4:6, 5:3, 5:6, 6:3, 6:6, 7:3, 7:6 and 1:1, 1:5, 2:1, 2:5, 3:1, 3:5, 5:1, 5:5", 1),
        ("0:1, 0:6, 3:1, 3:6, 4:1, 4:6, 5:1, 5:6 and 0:3, 1:3, 2:3, 3:3, 4:3, 5:3, 6:3, 7:3", 2),
    ] {
        let parsed = parsed(&format!("{ward}policy 0: {policy} never meet\n"));
        assert_eq!(parsed.policies.len(), policies, "{policy}");
    }
}

/// Points that are linked are left by frames too, so that a second form would not be the same.
#[test]
fn linked_points_that_never_meet() {
    let mut random = seeded(13);
    let mut violated = 0;
    for _ in 0..160 {
        let ward = ward(&mut random);
        let [one, other] = [&[1, 2][..], &[3, 4]].map(|ports| points(&mut random, ports));
        let policy = format!("{} and {} never meet", one.join(", "), other.join(", "));
        let Ok(parsed) = parse(&format!("{ward}policy 0: {policy}\n")) else { continue };
        let is_broken = verdict(&parsed) != Checked::Holds;
        assert_eq!(is_broken, lowest(&ward, &one, &other).is_some(), "{policy} in\n{ward}");
        violated += usize::from(is_broken);
    }
    assert!(violated >= 4, "{violated}");
}
