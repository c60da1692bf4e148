//! `miss all` is the miss of every switch that has no miss line of its own.

mod common;
mod running;
mod seeded;

use common::parsed;
use running::{complains, expect, wegbaro};
use seeded::seeded;
use wegbaro_tests::random::Random;
use wegbaro_tools::parse::{parse, Parsed};
use wegbaro_tools::print::{print, whole_records};

/// A text of a ward with these miss lines.
fn ward(w: u8, misses: &str) -> String {
    format!("widths H 1 P 3 W {w}\n{misses}rule 0 priority 1: output 2\npolicy 0: no loops\n")
}

/// The bytes of a ward with these miss lines.
fn bytes(w: u8, misses: &str) -> Vec<u8> {
    parsed(&ward(w, misses)).bytes
}

/// The lines of the misses.
fn lines(parsed: &Parsed) -> Vec<usize> {
    let records = whole_records(&parsed.bytes).0;
    let misses = records.iter().zip(&parsed.lines).filter(|(record, _)| record[0] == 3);
    misses.map(|(_, line)| *line).collect()
}

#[test]
fn every_switch_has_it() {
    for w in 0..=4 {
        let each: String = (0..1 << w).map(|it| format!("miss {it}: set 1, in_port\n")).collect();
        assert_eq!(bytes(w, "miss all: set 1, in_port\n"), bytes(w, &each), "{w}");
    }
}

/// The records have their own lines, and the order of the statements does not matter.
#[test]
fn switches_with_a_miss_of_their_own() {
    let whole =
        bytes(2, "miss 0: output 1\nmiss 1: output drop\nmiss 2: output 2\nmiss 3: output drop\n");
    for (misses, its_lines) in [
        ("miss 0: output 1\nmiss 2: output 2\nmiss all: output drop\n", [2, 4, 3, 4]),
        ("miss all: output drop\nmiss 0: output 1\nmiss 2: output 2\n", [3, 2, 4, 2]),
        ("miss 2: output 2\nmiss all: output drop\nmiss 0: output 1\n", [4, 3, 2, 3]),
        (
            "miss 2: output 2\nname switch 1 icu\nmiss 0: output 1\nmiss all: output drop\n",
            [4, 5, 2, 5],
        ),
    ] {
        let parsed = parsed(&ward(2, misses));
        assert_eq!(parsed.bytes, whole, "{misses}");
        assert_eq!(lines(&parsed), its_lines, "{misses}");
    }
}

/// Lines in a random order.
fn shuffled(random: &mut Random, mut lines: Vec<String>) -> String {
    let mut text = String::new();
    while !lines.is_empty() {
        text += &lines.swap_remove(random.below(lines.len()));
    }
    text
}

#[test]
fn random_misses() {
    let mut random = seeded(31);
    let actions = ["output drop", "output 3", "in_port", "set 1, output 4", "output ***"];
    let [mut own, mut of_all] = [0; 2];
    for _ in 0..200 {
        let w = random.below(5) as u8;
        let action = |random: &mut Random| actions[random.below(actions.len())];
        let default = action(&mut random);
        let mut few = vec![format!("miss all: {default}\n")];
        let mut each = String::new();
        for switch in 0..1 << w {
            let is_own = random.below(2) == 0;
            let action = if is_own { action(&mut random) } else { default };
            let line = format!("miss {switch}: {action}\n");
            each += &line;
            few.extend(Some(line).filter(|_| is_own));
        }
        own += few.len() - 1;
        of_all += (1 << w) + 1 - few.len();
        let few = shuffled(&mut random, few);
        assert_eq!(bytes(w, &few), bytes(w, &each), "{few}");
    }
    assert!(own > 100 && of_all > 100, "{own}, {of_all}");
}

/// A name is that of each switch's own port or group. A switch that has none needs a miss of its own.
#[test]
fn names_of_each_switch() {
    let names = "name switch 1 core\nname port 0:1 up\nname port core:2 up\nname group 0/1 both\n";
    let each = "miss 0: output 1\nmiss 1: output 2\n";
    assert_eq!(bytes(1, &format!("{names}miss all: output up\n")), bytes(1, each));
    for (miss, word) in [("miss all: group both\n", "group"), ("miss all: output pump\n", "port")] {
        let names = format!("{names}name port 0:5 pump\n");
        let text = ward(1, &format!("{names}{miss}"));
        let faults = parse(&text).unwrap_err();
        assert_eq!(faults.len(), 1, "{faults:?}");
        assert!(
            faults[0].message.starts_with(&format!("switch core has no {word} with")),
            "{faults:?}"
        );
        let hint = "`miss all` is for switch core too: give it a miss of its own";
        assert_eq!((faults[0].line, faults[0].hint.as_deref()), (7, Some(hint)));
        let own = format!("{names}{miss}miss core: output drop\n");
        assert_eq!(lines(&parsed(&ward(1, &own))), [7, 8]);
    }
}

/// Where a switch has the name `all`, it is that switch, as it was before there was another meaning.
#[test]
fn a_switch_with_that_name() {
    let each = "miss 0: output drop\nmiss 1: output 2\n";
    let named = "name switch 1 all\nmiss 0: output drop\nmiss all: output 2\n";
    assert_eq!(bytes(1, named), bytes(1, each));
}

#[test]
fn faults() {
    for (misses, words) in [
        (
            "miss all: output drop\nmiss all: output drop\n",
            "`miss all` is given already, in line 2",
        ),
        ("miss all: output 9\n", "expected a port pattern"),
        ("miss all: set 1\n", "the last action must be `output`, `in_port` or `group`"),
        ("miss all output drop\n", "expected `:`, found `output`"),
        ("miss all: output drop 3\n", "expected the end of the statement, found `3`"),
    ] {
        let faults = parse(&ward(3, misses)).unwrap_err();
        assert_eq!(faults.len(), 1, "{faults:?}");
        assert!(faults[0].message.starts_with(words), "{faults:?}");
    }
    // A fault of a miss of its own is told alone.
    let text = "name port 0:5 pump\nmiss all: output pump\nmiss 1: output 9\n";
    let faults = parse(&ward(1, text)).unwrap_err();
    assert_eq!((faults.len(), faults[0].line), (1, 4), "{faults:?}");
}

/// What is wrong between records is left to the gate.
#[test]
fn rows() {
    let twice = ward(2, "miss 1: output drop\nmiss all: output drop\nmiss 1: output 2\n");
    let ran = wegbaro(&["check", "-"], twice.as_bytes());
    let words =
        "start: refused: row 7, switch 1 has its miss already, line 2, at record 3 (miss of \
                 switch 1), line 4\n";
    assert_eq!(ran.status, Some(2));
    assert!(ran.text().starts_with(words), "{}", ran.text());
    let apart = ward(1, "miss all: output drop\n") + "miss 1: output drop\n";
    let ran = wegbaro(&["check", "-"], apart.as_bytes());
    assert_eq!(ran.status, Some(2));
    assert!(ran.text().starts_with("start: refused: row 3, "), "{}", ran.text());
    let absent = ward(1, "miss all: group 1\n") + "group 0/1: output 2\n";
    let ran = wegbaro(&["check", "-"], absent.as_bytes());
    assert_eq!(ran.status, Some(2));
    assert!(ran.text().starts_with("start: refused: row 16, "), "{}", ran.text());
}

/// Answers tell the line of `miss all`, and a network is printed with a miss for each switch.
#[test]
fn what_is_told_and_printed() {
    let text = "widths H 1 P 2 W 1\nname switch 1 icu\nlink 0:1 - icu:1\nmiss all: output drop\n\
                policy 0: nothing from icu:2 is dropped\n";
    let way =
        "    - switch icu (1): in at port 2, out at port drop (0), header 0 (line 4: miss icu: \
               output drop)";
    let ran = wegbaro(&["check", "-"], text.as_bytes());
    assert!(ran.text().lines().any(|line| line == way), "{}", ran.text());
    let printed = print(&parsed(text).bytes);
    assert!(printed.contains("miss 0: output 0\nmiss 1: output 0\n"), "{printed}");
    assert_eq!(parsed(&printed).bytes, parsed(text).bytes);
}

/// A cut record behind the misses stays there.
#[test]
fn bytes_beside_it() {
    let text = |misses: &str| format!("widths H 1 P 2 W 1\n{misses}bytes 03 01 00\n");
    let each = parsed(&text("miss 0: in_port\nmiss 1: in_port\n"));
    let all = parsed(&text("miss all: in_port\n"));
    assert_eq!((&all.bytes, all.lines), (&each.bytes, vec![1, 2, 2, 3]));
    // A whole one is the switch's own miss.
    let whole = "bytes 03 01 00 00 00 00 00 00 01 03 00 00 00 00 00 00 00 00 00 00 00 00 00 00\n";
    let own = format!("{whole}miss all: output drop\n");
    assert_eq!(bytes(1, &own), bytes(1, "miss 0: output drop\nmiss 1: in_port\n"));
}

/// `miss` alone takes `all`.
#[test]
fn nowhere_else() {
    complains(
        &["check", "-"],
        ward(1, "miss all: in_port\n").replace("rule 0", "rule all").as_bytes(),
        2,
        "expected a switch",
    );
    let holds = "start: the network holds, no policy is broken\n";
    expect(&["check", "-"], ward(1, "miss all: in_port\n").as_bytes(), 0, holds);
}
