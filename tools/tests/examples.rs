//! The example wards through the programs.

mod running;

use running::wegbaro;
use std::fs;
use std::path::{Path, PathBuf};
use wegbaro_tests::library::program;
use wegbaro_tests::second;
use wegbaro_tools::print::whole_records;
use wegbaro_tools::Record;

fn folder() -> PathBuf {
    Path::new(env!("CARGO_MANIFEST_DIR")).join("../examples")
}

fn file(example: &str, file: &str) -> String {
    folder().join(example).join(file).to_str().unwrap().to_string()
}

fn read(example: &str, name: &str) -> String {
    let path = file(example, name);
    fs::read_to_string(&path).unwrap_or_else(|error| panic!("{path}: {error}"))
}

/// The records of an example.
fn records(example: &str) -> Vec<u8> {
    let ran = wegbaro(&["records", &file(example, "network.txt")], b"");
    assert_eq!(ran.status, Some(0), "{example}: {}", ran.said);
    ran.bytes
}

/// The examples, each a folder with a network.
fn examples() -> Vec<String> {
    let entries = fs::read_dir(folder()).unwrap().map(|entry| entry.unwrap());
    let examples = entries.filter(|entry| entry.path().join("network.txt").exists());
    let mut names: Vec<String> =
        examples.map(|entry| entry.file_name().into_string().unwrap()).collect();
    names.sort();
    names
}

/// Every example: the words are those on file, also for the gate's lines, if it has the work.
#[test]
fn every_example() {
    let examples = examples();
    for known in ["chain", "equals", "flood", "k", "openflow10", "routes", "templates", "uplinks"] {
        assert!(examples.iter().any(|name| name == known), "{known}");
    }
    for example in examples {
        let text = file(&example, "network.txt");
        let expected = read(&example, "expected");
        let explained = read(&example, "explained");
        let ran = wegbaro(&["run", &text], b"");
        assert_eq!(ran.text(), explained, "{example}: {}", ran.said);
        assert_eq!(wegbaro(&["run", "--gate", &text], b"").text(), expected, "{example}");
        let bytes = records(&example);
        let lines = String::from_utf8(program(&bytes)).unwrap();
        assert_eq!(second::program(&bytes), lines.as_bytes(), "{example}");
        if lines != "start refused 11 0\n" {
            assert_eq!(lines, expected, "{example}");
            let words = wegbaro(&["explain", &text], lines.as_bytes());
            assert_eq!(words.text(), explained, "{example}: {}", words.said);
        }
        let there = wegbaro(&["text", "-"], &bytes);
        assert_eq!(wegbaro(&["records", "-"], &there.bytes).bytes, bytes, "{example}");
    }
}

/// The states that follow a state until one comes again or none follows.
fn walk(records: &[Record], from: usize) -> Vec<usize> {
    let Ok(network) = second::file::read(records) else { panic!("refused") };
    let steps = second::steps::all_steps(&network);
    let mut walked = vec![from];
    loop {
        let last = walked[walked.len() - 1];
        let next: Vec<usize> = (0..steps.len()).filter(|s| steps[last].contains(*s)).collect();
        match next[..] {
            [state] if !walked.contains(&state) => walked.push(state),
            _ => return walked,
        }
    }
}

/// The chain's delete opens a loop of 56 states over its eight switches.
#[test]
fn the_loop_in_the_chain() {
    let bytes = records("chain");
    let (records, _) = whole_records(&bytes);
    let first = records.iter().position(|record| record[0] == 6).unwrap();
    let before = &records[..first];
    let delete = records[first + 1];
    let same = |record: &Record| record[0] == 4 && record[1..8] == delete[1..8];
    let after: Vec<Record> = before.iter().copied().filter(|record| !same(record)).collect();
    assert_eq!(after.len() + 1, before.len());

    // State 9: switch 0, port 2, arriving, header 01.
    let round = walk(&after, 9);
    assert_eq!(round.len(), 56);
    assert_eq!(round.iter().min(), Some(&9));
    assert!(walk(&after, round[55]).contains(&9));
    // With the rule in place the frame goes round once more and leaves at switch 0, port 1.
    let out = walk(before, 9);
    assert_eq!(out.len(), 30);
    assert_eq!(out[29], 128 + (1 << 2) + 3);
}
