//! Every broken policy is told by `check`, and where a frame goes that does not get there.

mod running;
mod seeded;

use running::{expect, wegbaro};
use seeded::seeded;
use wegbaro_tests::gate::{Answer, Call, Gate, Lent};
use wegbaro_tests::networks::{random_network, Sizes, Widths, MODEST};
use wegbaro_tests::records::Record;
use wegbaro_tests::second::Second;
use wegbaro_tools::answers::instead::Instead;
use wegbaro_tools::steps::Network;

/// A frame that enters at 0:1 leaves at 0:6 and goes round; one that enters at 0:5 gets nowhere.
const WARD: &str = "\
widths H 1 P 3 W 1
link 0:2 - 1:4
link 0:3 - 1:5
miss 0: output drop
miss 1: output drop
rule 0 priority 1 port 1 header 0: output 6, output 2
rule 0 priority 2 port 3: output 2
rule 0 priority 1 port 5: output 5
rule 1 priority 1 port 4: output 5
policy 0: header 1 never leaves
policy 1: what enters at 0:1 reaches 1:3
policy 2: nothing from 1:1 is dropped
policy 3: what enters at 0:5 reaches 1:3
";

#[test]
fn every_broken_policy() {
    let words = "\
start: violated: policy 1, line 11, is broken by state 2 (switch 0, port 1, arriving, header 0)
    instead the frame goes
    - to its end in state 44 (switch 0, port 6, departing, header 0)
    - round by state 6 (switch 0, port 3, arriving, header 0)
start: also violated: policy 2, line 12, is broken by state 18 (switch 1, port 1, arriving, header 0)
    with Y = state 48 (switch 1, port drop (0), departing, header 0), by this way:
    - switch 1: in at port 1, out at port drop (0), header 0 (line 5: miss 1: output drop)
start: also violated: policy 3, line 13, is broken by state 10 (switch 0, port 5, arriving, header 0)
    instead the frame goes
    - nowhere: no copy of it is sent
";
    expect(&["check", "-"], WARD.as_bytes(), 1, words);
    expect(&["check", "--gate", "-"], WARD.as_bytes(), 1, "start violated 1 2\n");
    let ran = wegbaro(&["check", "--json", "-"], WARD.as_bytes());
    let broken = ran.text().lines().filter(|line| line.contains("\"answer\":\"violated\""));
    let broken: Vec<&str> = broken.collect();
    assert_eq!(broken.len(), 3, "{}", ran.text());
    assert!(broken[0].contains("\"ends\":[{\"number\":44,"), "{}", broken[0]);
    assert!(broken[0].contains("\"rounds\":[{\"number\":6,"), "{}", broken[0]);
    assert!(!broken[1].contains("\"ends\""), "{}", broken[1]);
    assert!(broken[2].contains("\"ends\":[{\"number\":10,"), "{}", broken[2]);
    // The commands of a file are judged only if the network holds, so that `run` tells the lowest.
    let ran = wegbaro(&["run", "-"], WARD.as_bytes());
    assert!(!ran.text().contains("also violated"), "{}", ran.text());
}

/// What the second implementation says of each policy alone.
fn each_alone(records: &[Record]) -> Vec<(usize, usize)> {
    let mut broken = vec![];
    for policy in 0..8 {
        let is_kept = |it: &&Record| it[0] != 5 || it[1] == policy;
        let mut alone: Vec<Record> = records.iter().filter(is_kept).copied().collect();
        alone.iter_mut().filter(|it| it[0] == 5).for_each(|it| it[1] = 0);
        let answer = Second.answer(&Call::Check, &mut Lent::just(&alone));
        if let Answer::Violated { state, .. } = answer {
            broken.push((policy.into(), state));
        }
    }
    broken
}

#[test]
fn random_policies() {
    let mut random = seeded(9);
    let most = Sizes { policies: 8, ..MODEST };
    let mut several = 0;
    for _ in 0..40 {
        let records = random_network(&mut random, Widths { h: 1, p: 2, w: 1 }, most);
        let ran = wegbaro(&["check", "--json", "-"], &records.concat());
        let number = |line: &str, word: &str| -> usize {
            let start = line.find(word).unwrap() + word.len();
            line[start..].split([',', '}']).next().unwrap().parse().unwrap()
        };
        let broken = ran.text().lines().filter(|line| line.contains("\"answer\":\"violated\""));
        let told: Vec<(usize, usize)> = broken
            .map(|line| (number(line, "\"policy\":"), number(line, "\"state\":{\"number\":")))
            .collect();
        assert_eq!(told, each_alone(&records), "{}", ran.text());
        several += usize::from(told.len() > 1);
    }
    assert!(several >= 8, "{several}");
}

/// A frame from any state ends somewhere or goes round, and each state told is one where it does.
#[test]
fn where_a_frame_goes() {
    let mut random = seeded(10);
    let [mut ends, mut rounds] = [0, 0];
    for _ in 0..40 {
        let records = random_network(&mut random, Widths { h: 1, p: 2, w: 1 }, MODEST);
        let network = Network::new(&records).unwrap();
        let leads = |from: usize, to: usize| {
            let found = wegbaro_tools::route::find(&records, [from, to]);
            found.unwrap().is_some()
        };
        for from in 0..network.states() {
            let instead = Instead::of(network, from);
            assert!(instead.ends.len() + instead.rounds.len() > 0);
            for end in &instead.ends {
                assert!(*end == from || leads(from, *end));
                assert!((0..network.states()).all(|state| !network.steps(*end, state)));
            }
            for round in &instead.rounds {
                assert!((*round == from || leads(from, *round)) && leads(*round, *round));
            }
            ends += instead.ends.len();
            rounds += instead.rounds.len();
        }
    }
    assert!(ends >= 8 && rounds >= 8, "{ends}, {rounds}");
}
