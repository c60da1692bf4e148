//! The program's calls: what is written, what is said, and the exit status.

mod running;
mod seeded;

use running::{complains, expect, file, program, run, wegbaro, K, K_LINES};
use seeded::seeded;
use std::fs::{File, OpenOptions};
use std::os::unix::process::CommandExt;
use std::process::Stdio;
use wegbaro_tests::formulas::{external, policy, r, tc, X, Y};
use wegbaro_tests::inputs::random_input;
use wegbaro_tests::k::{first_add, k, k_set, k_with_d, second_add};
use wegbaro_tests::library;
use wegbaro_tests::networks::full_switch;
use wegbaro_tests::random::Random;
use wegbaro_tests::records::{add, link, miss, output, rule, widths, with, Record, ANY, IN_PORT};
use wegbaro_tools::subcommands::{Subcommand, SUBCOMMANDS};

/// The words about K and its two adds, as a text.
const K_WORDS: &str = "\
start: the network holds, no policy is broken
command 1 (add 0 priority 5 port ** header *: output 2): blocked: policy 0 is broken by state 3 (switch 0, port 1, arriving, header 1)
    with Y = state 29 (switch 1, port 2, departing, header 1), by this way:
    - switch 0: in at port 1, out at port 2, header 1 (command 1: rule 0 priority 5 port ** header *: output 2)
    - switch 1: in at port 1, out at port 2, header 1 (record 5: rule 1 priority 10 port 1 header *: output 2)
command 2 (add 0 priority 5 port ** header 0: output 2): forwarded, the network then has 21 records
";

/// The records of K and its two adds.
fn k_and_adds() -> Vec<u8> {
    [k(), vec![first_add(), second_add()]].concat().concat()
}

/// A ward of one switch with 10 bits and a policy of 32 nodes.
fn wide() -> Vec<Record> {
    let mut ward = vec![widths(6, 3, 0), miss(0, &[output(0, 7)])];
    ward.extend(policy(0, &[vec![r(X, Y)], vec![external(X); 30], vec![tc(0, X, X)]].concat()));
    ward
}

#[test]
fn help_and_version() {
    let help = wegbaro(&["--help"], b"");
    assert_eq!((help.status, help.said.as_str()), (Some(0), ""));
    let column = |text: &str| text.find("judges the network").unwrap();
    let first = help.text().lines().nth(2).unwrap();
    assert_eq!(first, "  wegbaro check FILE        judges the network");
    let readme = include_str!("../README.md");
    for Subcommand { name, operands, .. } in SUBCOMMANDS {
        let call = format!("  wegbaro {name} {}", operands.shown);
        assert!(help.text().contains(&call), "{name}");
        assert!(readme.contains(&format!("  {call}")), "{name}");
    }
    let route = format!("  wegbaro route FILE FROM TO\n{:1$}how", "", column(first));
    assert!(help.text().contains(&route), "{}", help.text());
    let json = "  --json          check, run, session, explain, route: answers as JSON, one object";
    assert!(help.text().contains(json), "{}", help.text());
    assert!(help.text().contains("  --seed N        generate: the same seed"), "{}", help.text());
    assert!(help.text().lines().all(|line| line.chars().count() < 100));
    assert_eq!(wegbaro(&["check", "--help"], b"").text(), help.text());
    let version = format!("wegbaro {}\n", env!("CARGO_PKG_VERSION"));
    expect(&["--version"], b"", 0, &version);
}

#[test]
fn faulty_calls() {
    complains(&[], b"", 2, "expected a command (`wegbaro --help` has the calls)\n");
    complains(&["chekc", K], b"", 2, "`chekc` is no command, did you mean `check`?");
    complains(&["check"], b"", 2, "`check` takes one FILE");
    complains(&["check", K, K], b"", 2, "`check` takes one FILE");
    complains(&["check", "--rules", K], b"", 2, "`check` has no option `--rules` (");
    complains(&["check", "--jsno", K], b"", 2, "no option `--jsno`, did you mean `--json`? (");
    complains(&["--hlep"], b"", 2, "there is no option `--hlep`, did you mean `--help`? (");
    complains(&["--json=1"], b"", 2, "`--json` takes no value");
    for misspelt in
        [&["generate", "--switchs", "3", "tree"][..], &["generate", "--switchs=3", "tree"]]
    {
        complains(misspelt, b"", 2, "no option `--switchs`, did you mean `--switches`? (");
    }
    for words in [&["-h"][..], &["help"], &["help", "check"], &["check", "-h"]] {
        expect(words, b"", 0, wegbaro(&["--help"], b"").text());
    }
    complains(&["check", "--json=1", K], b"", 2, "`--json` takes no value");
    let both = wegbaro(&["check", "--json", "--gate", K], b"");
    assert!(both.status == Some(2) && both.said.contains("exclude each other"), "{both:?}");
    complains(&["session", "-"], b"", 2, "`session` reads commands from standard input");
    complains(&["explain", "-"], b"", 2, "`explain` reads answers from standard input");
    complains(&["generate"], b"", 2, "`generate` takes one KIND (plod, tree, ring)");
    complains(&["generate", "star"], b"", 2, "`star` is no KIND");
    complains(&["generate", "ring", "--seed"], b"", 2, "--seed needs a number");
    complains(&["generate", "ring", "--seed", "x"], b"", 2, "--seed `x` is no number");
    complains(&["generate", "ring", "--switches=99"], b"", 2, "switches");
    complains(&["generate", "ring", "--groups", "17"], b"", 2, "groups is at most 16, not 17");
    // Of an option given twice the later one counts.
    let twice = wegbaro(&["generate", "ring", "--seed", "1", "--seed=2"], b"");
    assert_eq!(twice.text(), wegbaro(&["generate", "ring", "--seed", "2"], b"").text());
    assert_ne!(twice.text(), wegbaro(&["generate", "ring", "--seed", "1"], b"").text());
    // Behind `--` an option is a file's name.
    complains(&["check", "--", "--json"], b"", 3, "--json: No such file");
}

#[test]
fn check_judges_the_network_alone() {
    let holds = "start: the network holds, no policy is broken\n";
    expect(&["check", "-"], &k().concat(), 0, holds);
    let ran = wegbaro(&["check", "-"], &k_and_adds());
    assert_eq!((ran.status, ran.text()), (Some(0), holds));
    assert_eq!(
        ran.said,
        "note: the file's commands are not judged; `wegbaro run` judges them too\n"
    );
    let mut broken = k_with_d();
    broken.remove(7);
    let words = "start: violated: policy 0 is broken by state 3 (switch 0, port 1, arriving, header 1)
    with Y = state 29 (switch 1, port 2, departing, header 1), by this way:
    - switch 0: in at port 1, out at port 2, header 1 (record 6: rule 0 priority 5 port ** header *: output 2)
    - switch 1: in at port 1, out at port 2, header 1 (record 5: rule 1 priority 10 port 1 header *: output 2)\n";
    expect(&["check", "-"], &broken.concat(), 1, words);
    expect(&["check", "--gate", "-"], &broken.concat(), 1, "start violated 0 3\n");
    expect(
        &["check", "-"],
        b"",
        2,
        "start: refused: row 1, there are no records\n  standard input\n",
    );
    let none = "start: the network holds, as it has no policies\n";
    expect(&["check", "-"], &k()[..6].concat(), 0, none);
    let cut = &k().concat()[..470];
    expect(&["check", "-"], cut, 2, "end: the input ends within a record\n");
}

#[test]
fn run_judges_the_commands_too() {
    expect(&["run", "-"], &k_and_adds(), 1, K_WORDS);
    expect(&["run", "--gate", K], b"", 1, K_LINES);
    let forwarded = [k(), vec![second_add()]].concat().concat();
    expect(&["run", "--gate", "-"], &forwarded, 0, "start holds\n1 forwarded 21\n");
    let cut = [&k_and_adds()[..], &[6, 0]].concat();
    expect(&["run", "--gate", "-"], &cut, 2, &format!("{K_LINES}end short\n"));
    // A command that no text can say is refused by a row, and the next is judged.
    let strange = [k(), vec![[10; 24], second_add()]].concat().concat();
    expect(&["run", "--gate", "-"], &strange[..21 * 24], 2, "start refused 3 20\n");
    let strange = [k(), vec![[9; 24], second_add()]].concat().concat();
    expect(&["run", "--gate", "-"], &strange, 2, "start refused 16 20\n");
    let strange = [k(), vec![second_add(), [9; 24], second_add()]].concat().concat();
    let words = "start holds\n1 forwarded 21\n2 refused 12 0\n3 forwarded 21\n";
    expect(&["run", "--gate", "-"], &strange, 1, words);
}

#[test]
fn a_loop_is_shown() {
    let ring = [widths(1, 2, 1), link(0, 1, 1, 1), miss(0, &[IN_PORT]), miss(1, &[IN_PORT])];
    let input = [ring.concat(), policy(0, &[[1, 0, 1], [8, 0, 0]]).concat()].concat();
    let words =
        "start: violated: policy 0 is broken by state 2 (switch 0, port 1, arriving, header 0)
    back to itself by this way:
    - switch 0: in at port 1, back out at port 1, header 0 (record 2: miss 0: in_port)
    - switch 1: in at port 1, back out at port 1, header 0 (record 3: miss 1: in_port)\n";
    expect(&["check", "-"], &input, 1, words);
}

/// A flood goes back to nobody; with `in_port` it does. The rule of a command is told with it.
#[test]
fn a_flood_and_in_port() {
    let ward =
        "widths H 1 P 2 W 0\nmiss 0: output **\npolicy 0: what enters at 0:1 never reaches 0:1\n\
                add 0 priority 1 header 1: output 1, output **, set 0, in_port\n";
    let words = "\
start: the network holds, no policy is broken
command 1 (add 0 priority 1 port ** header 1: output 1, output **, set 0, in_port), line 4: \
blocked: policy 0, line 3, is broken by state 3 (switch 0, port 1, arriving, header 1)
    with Y = state 10 (switch 0, port 1, departing, header 0), by this way:
    - switch 0: in at port 1, back out at port 1, header 1 set to 0 (line 4: rule 0 priority 1 port ** \
header 1: output 1, output **, set 0, in_port)
";
    expect(&["run", "-"], ward.as_bytes(), 1, words);
    expect(&["run", "--gate", "-"], ward.as_bytes(), 1, "start holds\n1 blocked 0 3\n");
    let file = file("flood", ward.as_bytes());
    expect(&["explain", &file], b"start holds\n1 blocked 0 3\n", 1, words);
    let ran = wegbaro(&["run", "--json", &file], b"");
    let command =
        r#""command":"add 0 priority 1 port ** header 1: output 1, output **, set 0, in_port""#;
    assert!(ran.text().contains(command), "{}", ran.text());
    assert!(ran.text().contains(r#","route":[3,10],"reasons":[{"y":"#), "{}", ran.text());
}

/// A note is said on standard error, and is no fault.
#[test]
fn an_output_that_sends_nothing() {
    let ward = b"widths H 1 P 2 W 0\nmiss 0: output drop\nrule 0 priority 1 port 1: output 1\n";
    let ran = wegbaro(&["check", "-"], ward);
    assert_eq!(ran.status, Some(0));
    assert!(ran.said.starts_with("note: line 3: `output 1` sends nothing here, "), "{}", ran.said);
}

#[test]
fn answers_as_json() {
    let state = r#"{"number":3,"switch":0,"port":1,"direction":"arriving","header":1,"words":"switch 0, port 1, arriving, header 1"}"#;
    let y = r#"{"number":29,"switch":1,"port":2,"direction":"departing","header":1,"words":"switch 1, port 2, departing, header 1"}"#;
    let by = |state: &str, by: &str| format!("{},{by}}}", state.strip_suffix('}').unwrap());
    let states = [
        by(state, r#""by":"rule 0 priority 5 port ** header *: output 2","by_record":6,"by_command":1"#),
        r#"{"number":21,"switch":0,"port":2,"direction":"departing","header":1,"words":"switch 0, port 2, departing, header 1","by":"link 0:2 - 1:1","by_record":1}"#.to_string(),
        r#"{"number":11,"switch":1,"port":1,"direction":"arriving","header":1,"words":"switch 1, port 1, arriving, header 1","by":"rule 1 priority 10 port 1 header *: output 2","by_record":5}"#.to_string(),
        y.to_string(),
    ];
    let lines = [
        r#"{"subject":"start","answer":"holds","records":20,"policies":1}"#.to_string(),
        format!(
            r#"{{"subject":"command","number":1,"command":"add 0 priority 5 port ** header *: output 2","answer":"blocked","policy":0,"state":{state},"y":{y},"route":[3,21,11,29],"reasons":[{{"y":{y},"walks":[{{"route":[3,21,11,29],"states":[{}]}}]}}]}}"#,
            states.join(",")
        ),
        r#"{"subject":"command","number":2,"command":"add 0 priority 5 port ** header 0: output 2","answer":"forwarded","records":21,"changed":true}"#.to_string(),
        r#"{"subject":"command","number":3,"command":"bytes 07 01 00 00 00 00 00 00 00 00 00 00 00 00 00 00 00 00 00 00 00 00 00 00","answer":"refused","row":12,"place":0,"cause":"the action count is 0, and must be 1 to 4"}"#.to_string(),
        r#"{"subject":"end","answer":"short"}"#.to_string(),
    ];
    let more = wegbaro_tests::records::record(&[7, 1]);
    let input = [&k_and_adds()[..], &more, &[6]].concat();
    expect(&["run", "--json", "-"], &input, 2, &(lines.join("\n") + "\n"));

    let group = wegbaro_tests::records::record(&[9, 1, 0, 0, 0, 0, 0, 0, 1, 0, 0, 1, 2]);
    let grouped = [k(), vec![group]].concat().concat();
    let holds = r#"{"subject":"start","answer":"holds","records":21,"policies":1}"#;
    expect(&["check", "--json", "-"], &grouped, 0, &format!("{holds}\n"));

    let twice = b"widths H 1 P 2 W 0\nmiss 0: output drop\nrule 0 priority 1: output 1\nrule 0 priority 1: output 2\n";
    let refused = r#"{"subject":"start","answer":"refused","row":8,"place":3,"cause":"a rule with this switch, priority, port and header is there already, line 3","file":"standard input","line":4,"other":2,"other_line":3}"#;
    expect(&["check", "--json", "-"], twice, 2, &format!("{refused}\n"));
    let broken = b"widths H 1 P 2 W 0\nmiss 0: output drop\npolicy 0 \"nothing \\ here\": E(X)\n";
    let ran = wegbaro(&["check", "--json", "-"], broken);
    let named =
        r#""answer":"violated","policy":0,"policy_name":"nothing \\ here","policy_line":3,"#;
    assert!(ran.status == Some(1) && ran.text().contains(named), "{ran:?}");

    // What is wrong with a text is told as objects too, and in words on standard error.
    let ran = wegbaro(&["check", "--json", "-"], b"widths H 1 P 2 W 1\nlink 0-1\nlink 0-1\n");
    assert_eq!(ran.status, Some(2));
    let lines: Vec<&str> = ran.text().lines().collect();
    let start = r#"{"answer":"faulty","file":"standard input","line":2,"column":7,"message":""#;
    assert!(lines.len() == 2 && lines[0].starts_with(start), "{lines:?}");
    assert!(ran.said.contains("standard input:2:7: "), "{}", ran.said);
    let ran = wegbaro(&["check", "--json", "-"], b"\xFF\xFE");
    assert!(ran.text().starts_with(r#"{"answer":"faulty","message":"standard input is neither"#));
    let ran = wegbaro(&["check", "--json", "no file"], b"");
    assert_eq!(ran.status, Some(3));
    assert!(ran.text().starts_with(r#"{"answer":"failed","message":"no file: No such file"#));
}

/// A ward whose commands do not change what their words say.
const EFFECTS: &str = "\
widths H 1 P 2 W 1
name port 0:1 pump
miss 0: output drop
miss 1: output drop
rule 0 priority 10 port 1 header 0: output 2
rule 0 priority 20 port 1: output 2
rule 1 priority 5: output 2
delete 0 priority 20 port 1 header 0
modify 0 priority 20 port 2: output drop
delete 1 priority 6 port 1 header 1
add 0 priority 10 port 1 header 0: output drop
add 0 priority 10 port 1 header 0: output drop
modify 1 priority 5: output 2
modify 1 priority 5: output 1
add 1 priority 7: output 1
delete 1 priority 7
";

/// A forwarded command that changes nothing says so, and an add that replaces a rule says which.
#[test]
fn what_a_command_changes() {
    let rule = |line: usize| match line {
        5 => "rule 0 priority 10 port pump header 0: output 2",
        _ => "rule 0 priority 20 port pump header *: output 2",
    };
    let nearest = |line: usize| {
        let rule = rule(line);
        format!("nothing changes, as there is no such rule; the nearest is line {line} ({rule}); ")
    };
    let effects = [
        (nearest(5), 6, r#"false,"nearest_record":3,"nearest_line":5"#),
        (nearest(6), 6, r#"false,"nearest_record":4,"nearest_line":6"#),
        ("nothing changes, as there is no such rule; ".to_string(), 6, "false"),
        (
            "it replaces the rule of line 5; ".to_string(),
            6,
            r#"true,"replaced_record":3,"replaced_line":5"#,
        ),
        (
            "nothing changes, as line 11 is this rule; ".to_string(),
            6,
            r#"false,"replaced_record":3,"replaced_line":11"#,
        ),
        (
            "nothing changes, as line 7 is this rule; ".to_string(),
            6,
            r#"false,"replaced_record":5,"replaced_line":7"#,
        ),
        (String::new(), 6, r#"true,"replaced_record":5,"replaced_line":13"#),
        (String::new(), 7, "true"),
        (String::new(), 6, "true"),
    ];
    let words = wegbaro(&["run", "-"], EFFECTS.as_bytes());
    let objects = wegbaro(&["run", "--json", "-"], EFFECTS.as_bytes());
    assert_eq!((words.status, objects.status), (Some(0), Some(0)), "{}", words.said);
    let told = words.text().lines().skip(1).zip(objects.text().lines().skip(1));
    let told: Vec<(&str, &str)> = told.collect();
    assert_eq!(told.len(), effects.len());
    for ((effect, records, changed), (words, object)) in effects.iter().zip(told) {
        let end = format!(": forwarded, {effect}the network then has {records} records");
        assert!(words.ends_with(&end), "{words}");
        let end = format!(r#""answer":"forwarded","records":{records},"changed":{changed}}}"#);
        assert!(object.ends_with(&end), "{object}");
    }
}

/// Commands are left alone where the network does not hold, and that is said.
#[test]
fn commands_that_are_not_judged() {
    let mut broken = k_with_d();
    broken[7] = with(broken[7], 10, 2);
    let input = [broken, vec![second_add()]].concat().concat();
    let ran = wegbaro(&["run", "--gate", "-"], &input);
    assert_eq!((ran.status, ran.text()), (Some(1), "start violated 0 3\n"));
    assert_eq!(ran.said, "note: the commands are not judged, as the network does not hold\n");
    let ran = wegbaro(&["session", "--gate", &file("unjudged", &input)], b"");
    assert_eq!((ran.status, ran.text()), (Some(1), "start violated 0 3\n"));
    assert!(ran.said.starts_with("note: the commands are not judged"));
}

/// On whatever input, the lines are those of the program `gate`, but where its work is too short:
/// the tool lends as much as the network needs.
#[test]
fn the_lines_of_the_gate() {
    let mut random = seeded(11);
    let mut compared = 0;
    for _ in 0..150 {
        let input = random_input(&mut random);
        if input.first().is_some_and(|kind| *kind > 8) {
            continue;
        }
        let lines = library::program(&input);
        if lines == b"start refused 11 0\n" {
            continue;
        }
        compared += 1;
        let ran = wegbaro(&["run", "--gate", "-"], &input);
        assert_eq!(ran.bytes, lines, "{}", ran.said);
        let lines = String::from_utf8(lines).unwrap();
        let status = match lines.as_str() {
            lines if lines.contains("end short") || lines.starts_with("start refused") => 2,
            lines if ["violated", "blocked", "refused"].iter().any(|w| lines.contains(w)) => 1,
            _ => 0,
        };
        assert_eq!(ran.status, Some(status), "{lines}");
        let file = file("gate-lines", &input);
        let explained = wegbaro(&["explain", &file], lines.as_bytes());
        assert_eq!(explained.status, Some(status), "{}", explained.said);
        assert_eq!(explained.text(), wegbaro(&["run", "-"], &input).text());
    }
    assert!(compared > 100, "{compared}");
}

/// A text or records with a few bytes changed, put in or taken out.
fn spoiled(random: &mut Random, bytes: &[u8]) -> Vec<u8> {
    let mut spoiled = bytes.to_vec();
    for _ in 0..random.up_to(4) {
        let place = random.below(spoiled.len());
        match random.below(3) {
            0 => spoiled[place] = random.pick(b"X*01:-()!&|.\"\n #\x00\x01\x05\xFF"),
            1 => spoiled.insert(place, random.pick(b"XY019:*(){\n\t\"\x03\x1b\xC3")),
            _ => drop(spoiled.remove(place)),
        }
    }
    spoiled
}

/// A state in words with a few characters changed, put in or taken out. An argument has no zero byte.
fn words(random: &mut Random) -> String {
    let spoiled = spoiled(random, b"0:1 in header 0");
    String::from_utf8_lossy(&spoiled).replace('\0', "")
}

/// Whatever the input is, every call ends with one of the four statuses.
#[test]
fn spoiled_inputs() {
    let mut random = seeded(12);
    let text = std::fs::read(K).unwrap();
    let tasks = ["check", "run", "records", "text", "expand", "picture"];
    let mut seen = [0; 3];
    for round in 0..400 {
        let bytes = if round % 2 == 0 { &text } else { &k_and_adds() };
        let input = spoiled(&mut random, bytes);
        let task = random.pick(&tasks);
        let ran = match random.below(6) {
            0 => wegbaro(&["explain", &file("spoiled", &input)], K_LINES.as_bytes()),
            1 => wegbaro(&["session", &file("spoiled", &input)], &input),
            2 => wegbaro(&["route", "-", "0:1 in header 0", "28"], &input),
            3 => wegbaro(&["route", "--dot", K, &words(&mut random), "28"], b""),
            _ => wegbaro(&[task, "-"], &input),
        };
        let status = ran.status.filter(|status| (0..=2).contains(status));
        let Some(status) = status else { panic!("{task} {input:?}: {ran:?}") };
        seen[status as usize] += 1;
        let raw = |c: char| c.is_control() && c != '\n';
        assert!(!ran.said.contains(raw), "{task}: {:?}", ran.said);
    }
    assert!(seen.iter().all(|count| *count > 20), "{seen:?}");
}

/// The gate has too little work for a ward of 10 bits; here it is judged.
#[test]
fn a_ward_of_ten_bits() {
    let ward = wide().concat();
    assert_eq!(library::program(&ward), b"start refused 11 0\n");
    expect(&["check", "--gate", "-"], &ward, 0, "start holds\n");
    let file = file("wide", &ward);
    let words = "start: refused: row 11, with 10 bits and its longest policy the network needs \
                 4456448 bytes of work, and there are 65536; `wegbaro check` and `wegbaro run` \
                 have as many as are needed\n";
    expect(&["explain", &file], b"start refused 11 0\n", 1, words);
}

#[test]
fn records_and_text() {
    let ran = wegbaro(&["records", K], b"");
    assert_eq!((ran.status, ran.said.as_str()), (Some(0), ""));
    assert_eq!(library::program(&ran.bytes), K_LINES.as_bytes());
    let text = wegbaro(&["text", "-"], &ran.bytes);
    assert_eq!(text.status, Some(0));
    assert_eq!(wegbaro(&["records", "-"], &text.bytes).bytes, ran.bytes);
    expect(&["text", "-"], &[6, 0], 0, "bytes 06 00\n");
    expect(&["text", "-"], b"", 0, "");
    expect(&["records", "-"], b"", 0, "");
}

/// A file of the wrong kind is told so.
#[test]
fn files_of_the_wrong_kind() {
    let text = std::fs::read(K).unwrap();
    let records = k_and_adds();
    let words = "standard input has records, and a text is expected (`wegbaro text` gives";
    complains(&["records", "-"], &records, 2, words);
    complains(&["expand", "-"], &records, 2, words);
    complains(&["text", "-"], &text, 2, "standard input is a text, and records are expected");
    let neither = "standard input is neither a text nor records: it is not UTF-8";
    for task in ["check", "run", "picture"] {
        complains(&[task, "-"], b"\x89PNG\r\n", 2, neither);
    }
    complains(&["check", "-"], b"\xFF\xFEw\0i\0", 2, "it is UTF-16, not UTF-8");
    let marked = [b"\xEF\xBB\xBF", &text[..]].concat();
    expect(&["run", "--gate", "-"], &marked, 1, K_LINES);
    let name = file("line\nbreak", b"widths\x1b");
    complains(&["check", &name], b"", 2, "line\\x0abreak");
    complains(&["check", "-"], b"w\0i\0d\0", 2, "nor records: it has a zero byte");
    complains(&["records", "-"], b"\xFF", 2, "standard input is no text: it is not UTF-8");
    let file = file("neither", b"\x89PNG\r\n");
    complains(&["session", &file], b"", 2, "is neither a text nor records");
    complains(&["explain", &file], b"", 2, "is neither a text nor records");
}

#[test]
fn faults_of_a_text() {
    let ran = wegbaro(&["check", "-"], b"widths H 1 P 2 W 1\nlink 0-1\n");
    assert_eq!((ran.status, ran.text()), (Some(2), ""));
    let shown = "standard input:2:7: expected `:`, found `-`\n    link 0-1\n          ^\n";
    assert_eq!(ran.said, shown);
    for task in ["run", "records", "expand", "picture"] {
        assert_eq!(wegbaro(&[task, "-"], b"widths H 1 P 2 W 1\nlink 0-1\n").said, shown);
    }
}

/// A fault is shown with its line, a mark under its column, and a hint.
#[test]
fn faults_with_hints() {
    let ands = "expected `&`, `|` or the end of the policy, found `&&`";
    let not_seen = "it is not seen on a screen, or it hides what follows; take it out";
    for (line, column, mark, message, hint) in [
        ("policy 0: external(X) && arriving(X)", 23, "^^", ands, "write `&` or `and`"),
        (
            "policy 0: TC(R(X,Y))(X,X)",
            11,
            "^^",
            "expected a formula, found `TC`",
            "did you mean `tc`?",
        ),
        ("policy 0: E(x)", 13, "^", "expected a variable, `X` or `Y`, found `x`", "write `X`"),
        ("policy 0: (E(X) & (E(X) & R(X,X))", 11, "^", "this parenthesis is not closed", ""),
        ("miss 0: \x1b[31m", 9, "^", "the character `\\x1b` may not stand in a text", not_seen),
    ] {
        let ran = wegbaro(&["check", "-"], format!("widths H 1 P 2 W 1\n{line}\n").as_bytes());
        assert_eq!((ran.status, ran.text()), (Some(2), ""));
        let (line, before) = (line.replace('\x1b', "\\x1b"), " ".repeat(column - 1));
        let hint = if hint.is_empty() { String::new() } else { format!("  hint: {hint}\n") };
        let shown =
            format!("standard input:2:{column}: {message}\n    {line}\n    {before}{mark}\n{hint}");
        assert_eq!(ran.said, shown);
    }
    let twice = b"widths H 1 P 2 W 0\nmiss 0: output drop\npolicy 0: E(X)\npolicy 0: R(X,X)\n";
    let shown = "standard input:4:8: policy 0 is given already, in line 3\n    policy 0: R(X,X)\n           \
                 ^\n  earlier: standard input:3:\n    policy 0: E(X)\n";
    assert_eq!(wegbaro(&["check", "-"], twice).said, shown);
}

#[test]
fn the_first_twenty_faults() {
    let text = format!("widths H 1 P 2 W 1\n{}", "miss x\n".repeat(30));
    let ran = wegbaro(&["check", "--json", "-"], text.as_bytes());
    assert_eq!((ran.status, ran.text().lines().count()), (Some(2), 20));
    assert_eq!(ran.said.matches("standard input:").count(), 20);
    assert!(ran.said.ends_with("these are the first 20 faults\n"), "{}", ran.said);
}

/// A long word or name is cut, wherever it is told.
#[test]
fn long_words() {
    let word = "a".repeat(1_000_000);
    let texts = [
        format!("{word}\n"),
        format!("widths H 1 P 2 W 0\nmiss 0: output {word}\n"),
        format!(
            "widths H 1 P 2 W 0\nname switch 0 {word}\nmiss {word}: output 1\npolicy 0: R(X,X)\n"
        ),
        format!(
            "widths H 1 P 2 W 0\nname switch 0 {word}\nmiss 0: output 1\n\
                 policy 0: exists Y. R(X,Y)\n"
        ),
        format!("widths H 1 P 2 W 0\nmiss 0: output 1\npolicy 0 \"{word}\": E(X)\n"),
        format!(
            "widths H 1 P 2 W 0\nname port 1 {word}\nmiss 0: output 2\n\
                 rule 0 priority 1 port {word}: output {word}\n"
        ),
    ];
    for text in texts {
        let ran = wegbaro(&["check", "-"], text.as_bytes());
        assert!(ran.text().len() + ran.said.len() < 1_000, "{}", ran.said.len());
    }
    let ran = wegbaro(&["session", "--gate", K], format!("{word}\n").as_bytes());
    assert!(
        ran.status == Some(2) && ran.text().ends_with("3 refused 12 0\n"),
        "{}",
        ran.said.len()
    );
    assert!(ran.said.len() < 1_000);
    let ran = wegbaro(&["explain", K], word.as_bytes());
    assert!(ran.status == Some(2) && ran.said.len() < 1_000);
}

#[test]
fn reading_fails() {
    let folder = env!("CARGO_MANIFEST_DIR");
    for task in ["check", "run", "session", "records", "text", "expand", "explain", "picture"] {
        complains(&[task, folder], b"", 3, "Is a directory");
        complains(&[task, "no such file"], b"", 3, "no such file: No such file or directory");
    }
}

/// An empty file of so many bytes, of which none is on the disk.
fn sparse(name: &str, bytes: u64) -> String {
    let path = file(name, b"");
    OpenOptions::new().write(true).open(&path).unwrap().set_len(bytes).unwrap();
    path
}

/// 64 MiB are read, of a file, of standard input and of answers; one byte more is told, not cut.
#[test]
fn as_much_as_is_read() {
    let most = 64 << 20;
    let [whole, more] = [sparse("most", most), sparse("more", most + 1)];
    let told = |arguments: &[&str], input: &str| {
        let mut program = program(arguments);
        program.stdin(Stdio::from(File::open(input).unwrap()));
        let ran = run(program, b"");
        assert_eq!((ran.status, ran.text()), (Some(2), ""), "{arguments:?}: {}", ran.said);
        ran.said
    };
    let text = "has records, and a text is expected (`wegbaro text` gives their text)\n";
    assert_eq!(told(&["records", &whole], K), format!("{whole} {text}"));
    assert_eq!(told(&["records", &more], K), format!("{more} has more than 64 MiB\n"));
    assert_eq!(told(&["records", "-"], &whole), format!("standard input {text}"));
    assert_eq!(told(&["records", "-"], &more), "standard input has more than 64 MiB\n");
    let answer = told(&["explain", K], &whole);
    assert!(answer.starts_with("line 1 of the answers is `\\x00"), "{answer}");
    let cut = "the answers on standard input have more than 64 MiB\n";
    assert_eq!(told(&["explain", K], &more), cut);
    std::fs::remove_file(whole).unwrap();
    std::fs::remove_file(more).unwrap();
}

/// Records are told by the kind that they start with, and a cut record is a command's by its kind.
#[test]
fn first_bytes_of_records() {
    let none = "start refused 1 0\n";
    for kind in 6..=8 {
        expect(&["check", "--gate", "-"], &[&[kind][..], &[0; 23]].concat(), 2, none);
        let cut = [&k().concat()[..], &[kind]].concat();
        expect(&["run", "--gate", "-"], &cut, 2, "start holds\nend short\n");
    }
    for kind in [5, 9] {
        let cut = [&k().concat()[..], &[kind]].concat();
        expect(&["run", "--gate", "-"], &cut, 2, "end short\n");
    }
    let many = |count: usize| [vec![1; 24 * count], vec![1]].concat();
    expect(&["run", "--gate", "-"], &many(657), 2, "end short\n");
    expect(&["run", "--gate", "-"], &many(658), 2, none);
}

/// A program with standard input or output closed from the start.
fn closed(arguments: &[&str], files: &'static [i32]) -> std::process::Command {
    extern "C" {
        fn close(file: i32) -> i32;
    }
    let mut program = program(arguments);
    // SAFETY: `close` may be called between fork and exec, and closes the child's own files.
    unsafe {
        program.pre_exec(move || {
            for file in files {
                close(*file);
            }
            Ok(())
        });
    }
    program
}

#[test]
fn closed_input() {
    let ran = run(closed(&["check", "-"], &[0]), b"");
    assert_eq!((ran.status, ran.said.as_str()), (Some(3), "standard input is closed\n"));
    // An input that is not needed may be closed.
    let ran = run(closed(&["run", "--gate", K], &[0]), b"");
    assert_eq!((ran.status, ran.text()), (Some(1), K_LINES));
    let ran = run(closed(&["explain", K], &[0]), b"");
    assert_eq!(ran.status, Some(3));
    let ran = run(closed(&["session", "--gate", K], &[0]), b"");
    assert_eq!((ran.status, ran.text()), (Some(3), K_LINES));
}

/// Every call that writes something, with its input.
fn writing() -> Vec<(Vec<&'static str>, Vec<u8>)> {
    vec![
        (vec!["--help"], vec![]),
        (vec!["--version"], vec![]),
        (vec!["check", K], vec![]),
        (vec!["check", "--json", K], vec![]),
        (vec!["run", K], vec![]),
        (vec!["session", K], vec![]),
        (vec!["records", K], vec![]),
        (vec!["text", "-"], k_and_adds()),
        (vec!["expand", K], vec![]),
        (vec!["explain", K], K_LINES.into()),
        (vec!["picture", K], vec![]),
        (vec!["generate", "ring"], vec![]),
        (vec!["check", "--json", "-"], b"width".into()),
    ]
}

/// No answer is lost silently.
#[test]
fn writing_fails() {
    for (arguments, input) in writing() {
        let full = OpenOptions::new().write(true).open("/dev/full").unwrap();
        let mut to_full = program(&arguments);
        to_full.stdout(Stdio::from(full));
        let ran = run(to_full, &input);
        assert_eq!(ran.status, Some(3), "{arguments:?}");
        assert!(ran.said.contains("writing to standard output: No space left"), "{}", ran.said);

        let ran = run(closed(&arguments, &[1]), &input);
        assert_eq!(ran.status, Some(3), "{arguments:?}");
        assert!(ran.said.ends_with("standard output is closed\n"), "{}", ran.said);

        // A null device is no closed output, and standard error may be closed or full.
        let mut to_null = closed(&arguments, &[2]);
        to_null.stdout(Stdio::from(
            OpenOptions::new().read(true).write(true).open("/dev/null").unwrap(),
        ));
        assert!(run(to_null, &input).status < Some(3), "{arguments:?}");
        let mut said_to_full = program(&arguments);
        said_to_full.stderr(Stdio::from(File::create("/dev/full").unwrap()));
        assert!(run(said_to_full, &input).status < Some(3), "{arguments:?}");
    }
}

#[test]
fn the_reader_is_gone() {
    let mut program = program(&["run", K]);
    let (reader, writer) = std::io::pipe().unwrap();
    drop(reader);
    program.stdout(writer);
    let ran = run(program, b"");
    assert_eq!(ran.status, Some(3));
    assert!(ran.said.contains("Broken pipe"), "{}", ran.said);
}

#[test]
fn pictures() {
    let records = k().concat();
    let plain = "graph network {\n    node [shape=box];\n    s0 [label=\"switch 0\"];\n    \
                 s1 [label=\"switch 1\"];\n    s0 -- s1 [label=\"0:2\\n1:1\"];\n}\n";
    expect(&["picture", "-"], &records, 0, plain);
    let ran = wegbaro(&["picture", "--rules", "-"], &records);
    let label =
        "s0 [label=\"switch 0\\nmiss: output drop\\lrule priority 10 port 1 header 0: output 2\\l\"]";
    assert!(ran.text().contains(label), "{}", ran.text());
    let back = k_set(&[(4, 9, 3), (4, 10, 0), (4, 11, 0)]).concat();
    let ran = wegbaro(&["picture", "--rules", "-"], &back);
    let label = "\\lrule priority 10 port 1 header 0: in_port\\l\"]";
    assert!(ran.text().contains(label), "{}", ran.text());
    complains(&["picture", "-"], &records[..48], 2, "the network is refused");
    let named = b"widths H 1 P 2 W 1\nname switch 1 core\nname port 1:1 up\nlink 0:2 - 1:1\n\
                  miss 0: output drop\nmiss 1: output drop\n";
    let ran = wegbaro(&["picture", "-"], named);
    assert!(ran.text().contains("s1 [label=\"switch 1\\ncore\"]"), "{}", ran.text());
    assert!(ran.text().contains("[label=\"0:2\\ncore:1 up\"]"), "{}", ran.text());
    // Each end has the name that its own switch gives.
    let both = b"widths H 1 P 3 W 1\nname port 0:2 down\nname port 1:2 line\n\
                 name port 0:1 pump\nname port 1:1 up\nlink 0:2 - 1:1\nmiss 0: output drop\n\
                 miss 1: output drop\n";
    let ran = wegbaro(&["picture", "-"], both);
    let labels = "s0 -- s1 [label=\"0:2 down\\n1:1 up\"];";
    assert!(ran.text().contains(labels), "{}", ran.text());
}

/// `explain` notices answers that are not about this file.
#[test]
fn answers_about_another_file() {
    let words = "line 2 of the answers is `1 blocked 0 2`, and the gate's answer about this file \
                 is `1 blocked 0 3`: these are not the answers about this file\n";
    let ran = wegbaro(&["explain", K], b"start holds\n1 blocked 0 2\n2 forwarded 21\n");
    assert_eq!((ran.status, ran.said.as_str()), (Some(2), words));
    assert_eq!(ran.text(), "start: the network holds, no policy is broken\n");
    for (answers, words) in [
        ("", "line 1 of the answers is missing"),
        ("start holds\n", "line 2 of the answers is missing"),
        (
            &format!("{K_LINES}3 forwarded 21\n"),
            "is `3 forwarded 21`, and the gate has no more answers about this file",
        ),
        ("start refused 1 0\n", "line 1 of the answers is `start refused 1 0`"),
        ("start \u{1b}[31m\n", "line 1 of the answers is `start \\x1b[31m`"),
    ] {
        let ran = wegbaro(&["explain", K], answers.as_bytes());
        assert_eq!(ran.status, Some(2), "{answers}");
        assert!(ran.said.contains(words), "{}", ran.said);
    }
    complains(&["explain", K], b"\xFF", 2, "the answers are not a text");
}

/// A command with a rule that is there, and one to a full table.
#[test]
fn a_full_table() {
    let mut full = full_switch(0);
    full.push(add(rule(0, 0, ANY, ANY, &[output(1, 3)])));
    full.push(add(rule(0, 256, ANY, ANY, &[output(0, 3)])));
    let ran = wegbaro(&["run", "-"], &full.concat());
    assert_eq!(ran.status, Some(1));
    let last = ran.text().lines().last().unwrap();
    assert!(last.ends_with("refused: row 13, 256 rules are there, and this one is new"), "{last}");
    full.insert(258, with(full[2], 2, 255));
    full.insert(259, rule(0, 256, ANY, ANY, &[output(0, 3)]));
    let ran = wegbaro(&["check", "--gate", "-"], &full.concat());
    assert_eq!(ran.text(), "start refused 8 258\n");
}
