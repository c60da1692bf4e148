//! Bytes to text to bytes, and text to bytes to text.

mod common;
mod seeded;

use common::{group, parsed};
use seeded::seeded;
use wegbaro_tests::commands::{command, SOUND};
use wegbaro_tests::inputs::random_input;
use wegbaro_tests::k::{first_add, k, second_add};
use wegbaro_tests::library::program;
use wegbaro_tests::networks::{
    all_widths, crowded, guarded_network, largest, random_network, MODEST,
};
use wegbaro_tests::records::{add, miss, modify, output, rule, set, widths, with};
use wegbaro_tests::records::{Action, ANY, IN_PORT, VERSIONS};
use wegbaro_tools::parse::parse;
use wegbaro_tools::print::print;

/// The text of the bytes, after checking that it gives them back and is printed the same again.
fn there_and_back(bytes: &[u8]) -> String {
    let text = print(bytes);
    let back = parsed(&text);
    assert_eq!(back.bytes, bytes, "{text}");
    assert_eq!(back.lines.len(), bytes.len().div_ceil(24));
    assert_eq!(print(&back.bytes), text);
    text
}

/// Checks that no statement of the text is byte by byte.
fn in_words(text: &str) {
    assert!(!text.lines().any(|line| line.starts_with("bytes")), "{text}");
}

#[test]
fn well_formed_networks_and_commands_of_every_width() {
    let mut random = seeded(1);
    for of in all_widths() {
        for round in 0..40 {
            let records = match round % 4 {
                0 => guarded_network(&mut random, of),
                _ => random_network(&mut random, of, MODEST),
            };
            let mut bytes = records.concat();
            bytes[4] = random.pick(&VERSIONS);
            for wish in SOUND {
                bytes.extend(command(&mut random, &records, wish));
            }
            in_words(&there_and_back(&bytes));
        }
    }
}

#[test]
fn the_largest_networks() {
    let mut random = seeded(2);
    for _ in 0..5 {
        in_words(&there_and_back(&largest(&mut random).concat()));
    }
    for of in all_widths() {
        in_words(&there_and_back(&crowded(&mut random, of).concat()));
    }
}

#[test]
fn damaged_and_cut_inputs() {
    let mut random = seeded(3);
    for _ in 0..3_000 {
        there_and_back(&random_input(&mut random));
    }
}

#[test]
fn bytes_without_any_order() {
    let mut random = seeded(4);
    for _ in 0..2_000 {
        let length = random.up_to(200);
        let mut bytes = random.bytes(length);
        for first in bytes.iter_mut().step_by(24) {
            *first %= 11;
        }
        there_and_back(&bytes);
    }
    assert_eq!(there_and_back(&[]), "");
    assert_eq!(there_and_back(&[6, 0]), "bytes 06 00\n");
}

#[test]
fn every_byte_of_k_changed() {
    let mut random = seeded(5);
    let bytes = [k(), vec![first_add(), second_add()]].concat().concat();
    for place in 0..bytes.len() {
        for change in [1, 2, 4, 128, random.byte()] {
            let mut changed = bytes.clone();
            changed[place] ^= change;
            there_and_back(&changed);
        }
    }
}

#[test]
fn k_in_text() {
    let text = "\
widths H 1 P 2 W 1

link 0:2 - 1:1

miss 0: output 0
miss 1: output 0

rule 0 priority 10 port 1 header 0: output 2
rule 1 priority 10 port 1 header *: output 2

# policy 0 is E(X) & !bit(X,4) & exists Y. tc(R(X,Y))(X,Y) & (E(Y) & bit(Y,4) & bit(Y,0))
policy 0 nodes: E X; BIT X 4; NOT 1; AND 0 2; R X Y; TC 4 X Y; E Y; BIT Y 4; BIT Y 0; AND 6 7;
    AND 9 8; AND 5 10; SOME 11 Y; AND 3 12
";
    assert_eq!(there_and_back(&k().concat()), text);
}

/// A version stands behind the widths, unless its byte is 0.
#[test]
fn versions_in_text() {
    for version in 0..=255 {
        let text =
            there_and_back(&[with(widths(1, 2, 0), 4, version), miss(0, &[IN_PORT])].concat());
        let [first, .., last] = text.lines().collect::<Vec<_>>()[..] else { panic!("{text}") };
        match version {
            0 => assert_eq!([first, last], ["widths H 1 P 2 W 0", "miss 0: in_port"]),
            1 | 4 => {
                let widths = format!("widths H 1 P 2 W 0 version {version}");
                assert_eq!([first, last], [&widths, "miss 0: in_port"]);
            }
            // What is no version is no widths statement either, so that nothing else is in words.
            _ => assert!(first.starts_with("bytes 01 01 02 00 ") && last.starts_with("bytes 03 ")),
        }
    }
    let byte_4 = |text: &str| parsed(text).bytes[4];
    assert_eq!(byte_4("widths H 1 P 2 W 0"), 0);
    assert_eq!(byte_4("widths H 1 P 2 W 0 version 0"), 0);
    assert_eq!(byte_4("widths H 1 P 2 W 0\n  version 1 # OpenFlow 1.0"), 1);
}

/// `in_port` stands at every place among the actions, alone and several times.
#[test]
fn in_port_at_every_place() {
    for (count, places) in (1..=4).flat_map(|count| (1..1 << count).map(move |it| (count, it))) {
        let action = |number: usize| match (places >> number & 1, number + 1 == count) {
            (1, _) => (IN_PORT, "in_port"),
            (_, true) => (output(0, 0), "output **"),
            (_, false) => (set(1, 1), "set 1"),
        };
        let (actions, words): (Vec<Action>, Vec<&str>) = (0..count).map(action).unzip();
        let words = words.join(", ");
        let rule = rule(0, 9, ANY, ANY, &actions);
        let matching = "0 priority 9 port ** header *";
        for (record, statement) in [
            (miss(0, &actions), "miss 0".to_string()),
            (rule, format!("rule {matching}")),
            (add(rule), format!("add {matching}")),
            (modify(rule), format!("modify {matching}")),
        ] {
            let text = there_and_back(&[widths(1, 2, 0), record].concat());
            assert!(text.ends_with(&format!("\n{statement}: {words}\n")), "{text}");
        }
    }
    // With a value or a care it is no action of the text.
    for stray in [[3, 1, 0], [3, 0, 1], [3, 1, 1]] {
        let text = there_and_back(&[widths(1, 2, 0), miss(0, &[stray])].concat());
        assert!(text.contains("\nbytes 03 00 "), "{text}");
    }
}

/// A group at every place among the actions, and as the last.
#[test]
fn group_actions_in_text() {
    for actions in [&[[4, 0, 0]][..], &[set(1, 1), [4, 15, 0]], &[[4, 3, 0], set(0, 1), IN_PORT]] {
        let words: Vec<String> = (actions.iter())
            .map(|[kind, value, _]| match kind {
                2 => format!("set {value}"),
                3 => "in_port".to_string(),
                _ => format!("group {value}"),
            })
            .collect();
        let text = there_and_back(&[widths(1, 2, 0), miss(0, actions)].concat());
        assert!(text.ends_with(&format!("\nmiss 0: {}\n", words.join(", "))), "{text}");
    }
    // Above 15 or with a care it is no action of the text.
    for stray in [[4, 16, 0], [4, 0, 1], [4, 1, 3]] {
        let text = there_and_back(&[widths(1, 2, 0), miss(0, &[stray])].concat());
        assert!(text.contains("\nbytes 03 00 "), "{text}");
    }
}

#[test]
fn groups_in_text() {
    let to_port = [0, 0, 1, 2];
    for (buckets, words) in [
        (&[to_port][..], "output 2"),
        (&[[1, 3, 1, 0], [2, 2, 2, 6], [0, 0, 1, 3]], "set 1, output 0; set 1*, group 6; output 3"),
        (&[[0, 0, 2, 0], [0, 0, 2, 0]], "group 0; group 0"),
        (&[[0, 1, 1, 1]], "set *0, output 1"),
    ] {
        let text = there_and_back(&[widths(2, 2, 1), group(1, 7, buckets)].concat());
        assert!(text.ends_with(&format!("\n\ngroup 1/7: {words}\n")), "{text}");
    }
    // What sets nothing is left out.
    let said = "widths H 2 P 2 W 1\ngroup 1/7: set **, output 2";
    assert_eq!(parsed(said).bytes[24..], group(1, 7, &[to_port]));
    // What the text cannot say is printed byte by byte.
    let sound = group(1, 7, &[to_port, [0, 0, 2, 6]]);
    for (byte, value) in
        [(1, 2), (2, 16), (3, 1), (8, 0), (8, 1), (9, 1), (10, 4), (11, 3), (16, 7), (23, 1)]
    {
        let text = there_and_back(&[widths(2, 2, 1), with(sound, byte, value)].concat());
        assert!(text.contains("\nbytes 09 "), "byte {byte} is {value}: {text}");
    }
}

/// A group behind a command would be taken for one, and is printed byte by byte.
#[test]
fn a_group_behind_a_command() {
    let sound = group(0, 0, &[[0, 0, 1, 2]]);
    let drop = rule(0, 9, ANY, ANY, &[output(0, 3)]);
    let text = there_and_back(&[widths(2, 2, 0), sound, add(drop), sound].concat());
    assert!(text.contains("\ngroup 0/0: output 2\n") && text.contains("\nbytes 09 "), "{text}");
}

/// The parts of a policy that is split stand before the groups.
#[test]
fn groups_behind_a_policy_that_is_split() {
    let misses: String = (0..8).map(|switch| format!("miss {switch}: output drop\n")).collect();
    let policy = "policy 0: what enters at 0:1, 6:3 never reaches 7:1, 3:6, 4:5, 2:3\n";
    let parsed = parsed(&format!("widths H 1 P 3 W 3\n{misses}{policy}group 0/0: output 2\n"));
    let kinds: Vec<u8> = parsed.bytes.iter().step_by(24).copied().collect();
    assert!(kinds.is_sorted() && kinds.last() == Some(&9), "{kinds:?}");
    assert!(parsed.policies.len() > 1, "{:?}", parsed.policies);
    assert_eq!(parsed.lines.last(), Some(&11));
}

#[test]
fn the_same_pattern_in_several_forms() {
    let forms = [
        "widths H 4 P 3 W 0\nadd 0 priority 7 port 7 header ****: set 1010, output 0",
        "widths H 4 P 3 W 0\nadd 0 priority 7 port 7 header *: set 1010, output 0",
        "widths H 4 P 3 W 0\nadd 0 priority 7 port 111: set 10, output 000",
        "widths H 4 P 3 W 0 # more\n\nadd 0 priority 7\n  port controller:\n\tset 10, output drop\n",
    ];
    let first = parsed(forms[0]);
    assert_eq!(first.bytes[24..40], [6, 0, 7, 0, 7, 7, 0, 0, 2, 2, 10, 15, 1, 0, 7, 0]);
    for form in forms {
        assert_eq!(parsed(form).bytes, first.bytes);
    }
}

/// The example in README.md is a network that the gate takes.
#[test]
fn the_text_of_the_readme() {
    let readme = include_str!("../README.md");
    let block = &readme[readme.find("    widths").unwrap()..];
    let lines: Vec<&str> = block.lines().map_while(|line| line.strip_prefix("    ")).collect();
    assert_eq!(lines.len(), 17);
    let output = String::from_utf8(program(&parsed(&lines.join("\n")).bytes)).unwrap();
    assert!(!output.contains("refused"), "{output}");
}

#[test]
fn records_know_their_lines() {
    let text =
        "# K\nwidths H 1 P 2 W 0\n\npolicy 0:\n  E(X)\n  & !E(X)\ndelete 0 priority 1\nbytes 06";
    assert_eq!(parsed(text).lines, [2, 4, 4, 4, 7, 8]);
    assert!(parse("bytes 06\nbytes 06").is_err());
}
