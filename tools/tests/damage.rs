//! Texts with random damage: whatever they are, they are read or their faults are told.

mod seeded;

use seeded::seeded;
use std::path::Path;
use wegbaro_tests::random::Random;
use wegbaro_tools::expand::expand;
use wegbaro_tools::parse::{parse, Parsed, MOST_FAULTS};
use wegbaro_tools::print::print;

/// Words put in where they do not belong.
const WORDS: [&str; 36] = [
    "policy",
    "0",
    "1",
    "9:9",
    "(",
    ")",
    "&",
    "|",
    "!",
    "exists Y.",
    "X",
    "Y",
    "reaches(X,Y)",
    "and",
    "switch(X) = 1",
    "header",
    "\"",
    "#",
    "\n",
    "\n  ",
    "*",
    "name port 1 a\n",
    "tc(",
    "=",
    "&&",
    "no loops",
    "\u{7}",
    "bytes 05 00",
    "in_port",
    ", in_port",
    "group 0/1: output 1; set 1, output 2\n",
    "group",
    "; group 1",
    ", group 1",
    "version",
    "version 1",
];

/// The text with a piece taken out, put in, or said twice.
fn damaged(random: &mut Random, text: &str) -> String {
    let characters: Vec<char> = text.chars().collect();
    let from = random.up_to(characters.len());
    let to = (from + random.below(12)).min(characters.len());
    let [before, piece, behind] =
        [&characters[..from], &characters[from..to], &characters[to..]].map(String::from_iter);
    match random.below(4) {
        0 => format!("{before}{behind}"),
        1 => format!("{before}{piece}{piece}{behind}"),
        2 => format!("{before} {} {behind}", random.pick(&WORDS)),
        _ => format!("{before}{}{behind}", random.pick(&WORDS)),
    }
}

/// What is read gives its records back; what is not has faults in the order of the text, and no
/// control character among what is shown.
fn told(text: &str) -> bool {
    match parse(text) {
        Ok(Parsed { bytes, lines, .. }) => {
            assert_eq!(lines.len(), bytes.len().div_ceil(24));
            assert_eq!(parse(&print(&bytes)).unwrap().bytes, bytes, "{text}");
            let expanded = expand(text, &parse(text).unwrap());
            assert_eq!(parse(&expanded).unwrap().bytes, bytes, "{text}");
            false
        }
        Err(faults) => {
            assert!((1..=MOST_FAULTS).contains(&faults.len()));
            let place = |fault: &wegbaro_tools::fault::Fault| (fault.line, fault.column);
            assert!(faults.is_sorted_by_key(place), "{text}");
            for fault in faults {
                let shown = fault.show("ward", text);
                assert!(shown.contains('^'), "{shown}");
                assert!(shown.chars().all(|it| it == '\n' || !it.is_control()), "{shown}");
            }
            true
        }
    }
}

#[test]
fn damaged_examples() {
    let mut random = seeded(1);
    let folder = Path::new(env!("CARGO_MANIFEST_DIR")).join("../examples");
    let read = |example| std::fs::read_to_string(folder.join(example).join("network.txt")).unwrap();
    let texts = ["chain", "flood", "k", "openflow10", "routes", "templates", "uplinks"].map(read);
    let [mut faulty, mut sound] = [0, 0];
    for _ in 0..1_500 {
        let mut text = texts[random.below(texts.len())].clone();
        for _ in 0..1 + random.below(3) {
            text = damaged(&mut random, &text);
        }
        match told(&text) {
            true => faulty += 1,
            false => sound += 1,
        }
    }
    assert!(faulty > 300 && sound > 100, "{faulty} faulty, {sound} sound");
}
