//! The header and the example in C: built without a warning against the static library, and run.

use std::collections::BTreeSet;
use std::path::Path;
use std::process::Command;
use wegbaro_tests::build::{compile, library, printed, printed_in_c, run, stub_library, version};
use wegbaro_tests::build::{version_number, Folder};
use wegbaro_tests::cases::{self, Case};
use wegbaro_tests::gate::Answer;
use wegbaro_tests::in_c::InC;
use wegbaro_tests::records::{
    add, delete, group, link, miss, modify, output, record, rule, run as run_group,
};
use wegbaro_tests::records::{set, to_group, to_port, with, Record, ANY, IN_PORT};

fn folder(name: &str) -> Folder {
    Folder::new(env!("CARGO_TARGET_TMPDIR"), name)
}

/// Builds the example and runs it.
fn example_by(compiler: &[&str]) {
    let folder = folder(&compiler.concat());
    let example = folder.path().join("check");
    compile(compiler, "examples/c/check.c", &library(), &example);

    let ran = run(&mut Command::new(&example));
    assert_eq!(String::from_utf8_lossy(&ran.stdout), printed_in_c(), "{compiler:?}");
    assert_eq!(String::from_utf8_lossy(&ran.stderr), "", "{compiler:?}");
}

#[test]
fn the_example_in_every_c() {
    for standard in ["-std=c89", "-std=c99", "-std=c11", "-std=c17"] {
        example_by(&["cc", standard]);
    }
}

#[test]
fn the_example_in_cpp() {
    let there = Command::new("c++").arg("--version").output().is_ok();
    assert!(there, "a C++ compiler is not installed: on Debian, apt-get install g++");
    for standard in ["-std=c++98", "-std=c++17"] {
        example_by(&["c++", "-x", "c++", standard]);
    }
}

/// The records that `tests/c/records.c` makes of their parts.
fn records_in_c() -> Vec<Record> {
    let actions = [set(1, 3), run_group(15), IN_PORT, output(4, 6)];
    let acting = rule(9, 0x1234, [5, 7], [8, 25], &actions);
    let sending = group(2, 14, &[to_port([1, 3], 5), to_group(ANY, 6), to_port([8, 12], 7)]);
    let (fifth, fourth) = (with(acting, 8, 5), with(sending, 8, 4));
    let mut records = vec![record(&[1, 6, 2, 1, 4]), link(1, 2, 3, 4), miss(9, &[output(2, 7)])];
    records.extend([acting, add(acting), modify(acting), delete(acting), fifth, fifth]);
    records.extend([sending, fourth]);
    let nodes = [
        [0, 1, 9],
        [1, 1, 0],
        [2, 1, 0],
        [3, 7, 0],
        [4, 5, 6],
        [5, 5, 6],
        [6, 5, 1],
        [7, 5, 0],
        [8, 5, 2],
    ];
    records.extend(nodes.map(|[kind, one, other]| record(&[5, 3, kind, one, other])));
    let unnamed = |record| with(record, 23, 1);
    let too_large = rule(0, 0, [255, 255], ANY, &[]);
    records.extend([link(255, 2, 3, 255), unnamed(too_large)]);
    records.extend([unnamed(record(&[8])), record(&[5, 3, 8, 5, 255])]);
    records
}

/// The header's functions lay out the same bytes in C and in C++.
#[test]
fn records_of_their_parts() {
    let hexadecimal = |record: &Record| -> String {
        record.iter().map(|byte| format!("{byte:02x}")).chain(["\n".to_owned()]).collect()
    };
    let expected: String = records_in_c().iter().map(hexadecimal).collect();
    let folder = folder("records");
    for compiler in [&["cc", "-std=c89"][..], &["cc", "-std=c99"], &["c++", "-x", "c++"]] {
        let built = folder.path().join("records");
        let strict = [compiler, &["-Wconversion"]].concat();
        compile(&strict, "tests/c/records.c", &library(), &built);
        assert_eq!(printed(&mut Command::new(&built)), expected, "{compiler:?}");
    }
}

/// What a program of the header's version makes of a library of another one.
#[test]
fn versions_in_c() {
    let folder = folder("versions");
    let told = |library: &Path| {
        let built = folder.path().join("version");
        compile(&["cc", "-std=c89"], "tests/c/version.c", library, &built);
        printed(&mut Command::new(&built))
    };
    let number = version_number();
    assert_eq!(told(&library()), format!("{} {number} {number} 1\n", version()));
    for (other, fits) in [
        (number, 1),
        (number + 1, 1),
        (number - 1, 0),
        (number + 1_000, 0),
        (number - 1_000, 0),
        (number + 1_000_000, 0),
    ] {
        let stub = stub_library(&folder.path().join(other.to_string()), other);
        assert_eq!(told(&stub), format!("{} {number} {other} {fits}\n", version()));
    }
}

/// The rows that refuse a call in one of the cases.
fn rows(cases: &[Case], call: &str) -> BTreeSet<usize> {
    let row = |case: &Case| match case.answer {
        Answer::Refused { number, .. } => Some(number),
        _ => None,
    };
    cases.iter().filter(|case| case.call.name() == call).filter_map(row).collect()
}

/// The cases of the rows through the header, and in them each row that a call can answer: number and
/// place as they must be, and every buffer byte by byte.
#[test]
fn every_row_in_c() {
    let cases: Vec<Case> = cases::of_rows().collect();
    assert_eq!(rows(&cases, "check"), (1..=11).chain([16]).collect());
    assert_eq!(rows(&cases, "command"), (1..=13).chain([16]).collect());
    assert_eq!(rows(&cases, "route"), (1..=11).chain(14..=16).collect());
    let folder = folder("calls");
    let in_c = InC::new(&folder);
    cases::expect_all(cases.iter().map(|case| case.run(&in_c)));
}
