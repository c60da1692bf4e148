//! The sentences of README.md mean the formulas that stand below them.

mod common;
mod seeded;

use common::{parsed, with_policies};
use seeded::seeded;
use wegbaro_tests::formulas::policy;
use wegbaro_tests::gate::{Answer, Call, Gate, Lent};
use wegbaro_tests::networks::{random_network, Sizes, Widths, MODEST};
use wegbaro_tests::random::Random;
use wegbaro_tests::records::Record;
use wegbaro_tests::second::Second;
use wegbaro_tools::compile::{compile, Compiled};
use wegbaro_tools::names::Names;
use wegbaro_tools::parse::{parse, Reader};
use wegbaro_tools::print::{print, whole_records};
use wegbaro_tools::priorities::is_even;
use wegbaro_tools::templates::read_sentence;
use wegbaro_tools::tokens::statements;
use wegbaro_tools::widths::Widths as Wide;

/// The most networks that are drawn until enough of them hold and enough are violated.
const MOST_NETWORKS: usize = 20_000;

/// Each sentence and its formula.
fn sentences() -> Vec<(String, String)> {
    let readme = include_str!("../README.md");
    let block = &readme[readme.find("    no loops\n").unwrap()..];
    let mut found: Vec<(String, String)> = vec![];
    for line in block.lines().map_while(|line| line.strip_prefix("    ")) {
        match (line.strip_prefix("    "), found.last_mut()) {
            (Some(more), Some((_, formula))) => *formula += &format!(" {more}"),
            _ => found.push((line.to_string(), String::new())),
        }
    }
    found
}

/// The records of a network with one policy more, unless the policy says nothing of it.
fn with_policy(network: &[Record], policy: &str) -> Option<Vec<Record>> {
    let text = print(&network.concat());
    let groups = text.find("\ngroup ").unwrap_or(text.len());
    let (before, groups) = text.split_at(groups);
    match parse(&format!("{before}\npolicy 0: {policy}\n{groups}")) {
        Ok(parsed) => Some(whole_records(&parsed.bytes).0),
        Err(faults) => {
            let message = &faults[0].message;
            assert!(message.starts_with("nothing enters or leaves"), "{message}");
            None
        }
    }
}

fn check(records: &[Record]) -> Answer {
    Second.answer(&Call::Check, &mut Lent::just(records))
}

#[test]
fn every_sentence_is_its_formula() {
    let sentences = sentences();
    assert_eq!(sentences.len(), 15);
    let mut random = seeded(1);
    let of = Widths { h: 1, p: 2, w: 2 };
    let most = Sizes { links: 3, rules: 10, policies: 0, nodes: 0, ..MODEST };
    for (sentence, formula) in sentences {
        let [mut held, mut violated] = [0, 0];
        for _ in 0..MOST_NETWORKS {
            if held >= 4 && violated >= 4 {
                break;
            }
            let network = random_network(&mut random, of, most);
            let Some(records) = with_policy(&network, &sentence) else { continue };
            let answer = check(&records);
            let same = with_policy(&network, &formula).map(|records| check(&records));
            assert_eq!(same, Some(answer), "{sentence}");
            match answer {
                Answer::Holds => held += 1,
                Answer::Violated { .. } => violated += 1,
                _ => panic!("{answer:?} for {sentence}"),
            }
        }
        assert!(held >= 4 && violated >= 4, "{held} held, {violated} violated: {sentence}");
    }
}

/// Of the sentences one is not even: a frame that reaches a point may not reach it where a switch
/// takes just one of several rules of equal priority.
#[test]
fn every_sentence_but_one_is_even() {
    let nodes = |sentence: &str| {
        let parsed = parsed(&format!("widths H 1 P 2 W 2\npolicy 0: {sentence}\n"));
        let (records, _) = whole_records(&parsed.bytes);
        records[1..].iter().map(|node| [node[2], node[3], node[4]]).collect::<Vec<_>>()
    };
    let sentences = sentences();
    let uneven = sentences.iter().filter(|(sentence, _)| !is_even(&nodes(sentence)));
    let uneven: Vec<&str> = uneven.map(|(sentence, _)| sentence.as_str()).collect();
    assert_eq!(uneven, ["what enters at 0:1 reaches 3:2"]);
}

/// The second form of a sentence is true for the same states as the first.
#[test]
fn both_forms_of_a_sentence() {
    let mut random = seeded(3);
    let of = Widths { h: 1, p: 2, w: 2 };
    let wide = Wide { h: 1, p: 2, w: 2 };
    let most = Sizes { links: 4, rules: 12, policies: 0, nodes: 0, ..MODEST };
    let sentences = [
        "what enters at 0:1 with header 1 reaches 3:2",
        "what enters at 0:1, 1:1 reaches switch 2",
        "what enters at 0:1 never reaches 3:2, 0:2",
        "what enters at 0:1 leaves at 3:2 only by way of switch 2",
        "what enters at 0:1, 2:1 leaves at 3:2 only by way of switch 2, switch 1",
    ];
    for sentence in sentences {
        let [mut held, mut violated] = [0, 0];
        for _ in 0..MOST_NETWORKS {
            if held >= 8 && violated >= 8 {
                break;
            }
            let network = random_network(&mut random, of, most);
            if with_policy(&network, sentence).is_none() {
                continue;
            }
            let mut reader = Reader::with(wide, Names::default());
            let forms = read_sentence(&mut reader, &mut statements(sentence)[0], wide);
            let answers: Vec<Answer> = (forms.unwrap().unwrap().iter())
                .map(|form| match compile(form, wide) {
                    Compiled::One(nodes, _) => check(&with_policies(&network, &policy(0, &nodes))),
                    other => panic!("{other:?} for {sentence}"),
                })
                .collect();
            assert_eq!(answers.len(), 2);
            assert_eq!(answers[0], answers[1], "{sentence}");
            match answers[0] {
                Answer::Holds => held += 1,
                _ => violated += 1,
            }
        }
        assert!(held >= 8 && violated >= 8, "{held} held, {violated} violated: {sentence}");
    }
    // A frame that comes back to its point by the first step: one form alone.
    let mut reader = Reader::with(wide, Names::default());
    for sentence in ["what enters at 0:1 reaches 0:1", "what enters reaches 0:1"] {
        let forms = read_sentence(&mut reader, &mut statements(sentence)[0], wide);
        assert_eq!(forms.unwrap().unwrap().len(), 1);
    }
}

/// In a ward of ten bits one line says it, and every point reaches every other by one policy.
#[test]
fn wards_of_ten_bits() {
    let mut random = seeded(2);
    for (h, p, w) in [(6, 2, 1), (4, 2, 3), (1, 4, 4), (2, 3, 4), (5, 4, 0)] {
        let misses: String = (0..1 << w).map(|it| format!("miss {it}: output drop\n")).collect();
        let ward = format!("widths H {h} P {p} W {w}\n{misses}");
        let nodes = |policy: &str| {
            let parsed = parsed(&format!("{ward}policy 0: {policy}\n"));
            assert_eq!(parsed.policies.len(), 1, "{policy}");
            // Without links, rules cannot break what is said of several switches.
            let is_told = |note: &String| note.contains("whatever the rules are");
            assert!(parsed.notes.iter().all(is_told), "{:?}", parsed.notes);
            whole_records(&parsed.bytes).0.iter().filter(|record| record[0] == 5).count()
        };
        assert!(nodes("header 1 never leaves") <= 25);
        assert!(nodes("no frame comes back to a switch it left") <= 32);
        assert_eq!(nodes("no route of more than 3 hops"), 15);
        for _ in 0..50 {
            let point = |random: &mut Random| {
                format!("{}:{}", random.below(1 << w), 1 + random.below((1 << p) - 2))
            };
            let [one, other] = [point(&mut random), point(&mut random)];
            let header = random.below(1 << h);
            nodes(&format!("what enters at {one} reaches {other}"));
            if one != other {
                nodes(&format!("what enters at {one} with header {header} reaches {other}"));
            }
            nodes(&format!("what enters at {one} never reaches {other}"));
            nodes(&format!("what enters at {one} leaves only at {other}"));
            nodes(&format!("nothing from {one} is dropped"));
        }
    }
}

/// The fault of a sentence in a ward of two linked switches.
fn fault(sentence: &str, message: &str) {
    let text =
        format!("widths H 1 P 2 W 1\nlink 0:1 - 1:1\nlink 0:2 - 1:2\npolicy 0: {sentence}\n");
    let faults = parse(&text).unwrap_err();
    assert_eq!(faults[0].to_string(), format!("line 4, {message}"));
    assert_eq!(faults.len(), 1);
}

#[test]
fn sentences_that_say_nothing() {
    let nothing = "nothing enters or leaves at";
    fault(
        "what enters at 0:1 reaches 1:2",
        &format!("column 26: {nothing} 0:1, which is linked in line 2"),
    );
    fault(
        "header 1 never leaves at 0:drop",
        &format!("column 36: {nothing} 0:drop, which is no ordinary port"),
    );
    fault(
        "nothing from switch 1 is dropped",
        &format!("column 24: {nothing} switch 1: its ports are linked"),
    );
    fault("switch 0 and 0:1 never meet", "column 24: switch 0 is in both");
    fault(
        "what enters leaves only by way of 0:1",
        "column 45: a way leads over switches, not over a point alone",
    );
    fault(
        "no route of more than 0 hops",
        "column 33: expected a number of hops (1 to 7), found `0`",
    );
    fault("no routes", "column 14: expected `loops`, `loop`, `frame` or `route`, found `routes`");
    fault(
        "what enters vanishes",
        "column 23: expected `reaches`, `never reaches` or `leaves`, found `vanishes`",
    );
}
