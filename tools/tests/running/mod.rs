//! Runs the program.
#![allow(dead_code)]

use std::io::Write;
use std::path::PathBuf;
use std::process::{Command, Output, Stdio};
use std::sync::atomic::{AtomicUsize, Ordering};

/// Network K and its two adds as a text.
pub const K: &str = concat!(env!("CARGO_MANIFEST_DIR"), "/../examples/k/network.txt");

/// The program with arguments.
pub fn program(arguments: &[&str]) -> Command {
    let mut program = Command::new(env!("CARGO_BIN_EXE_wegbaro"));
    program.args(arguments).stdin(Stdio::piped()).stdout(Stdio::piped()).stderr(Stdio::piped());
    program
}

/// What a run left.
#[derive(Debug)]
pub struct Ran {
    pub status: Option<i32>,
    pub bytes: Vec<u8>,
    pub said: String,
}

impl Ran {
    fn of(output: Output) -> Ran {
        let said = String::from_utf8(output.stderr).unwrap();
        Ran { status: output.status.code(), bytes: output.stdout, said }
    }

    pub fn text(&self) -> &str {
        std::str::from_utf8(&self.bytes).unwrap()
    }
}

/// Runs a program on a whole input.
pub fn run(mut program: Command, input: &[u8]) -> Ran {
    let mut child = program.spawn().unwrap();
    if let Some(mut to) = child.stdin.take() {
        // It may stop before it has read its input.
        let _ = to.write_all(input);
    }
    Ran::of(child.wait_with_output().unwrap())
}

/// Runs the program with arguments on an input.
pub fn wegbaro(arguments: &[&str], input: &[u8]) -> Ran {
    run(program(arguments), input)
}

/// Checks the exit status and what is written to standard output.
pub fn expect(arguments: &[&str], input: &[u8], status: i32, text: &str) {
    let ran = wegbaro(arguments, input);
    assert_eq!((ran.status, ran.text()), (Some(status), text), "{arguments:?}: {}", ran.said);
}

/// Checks the exit status and that so much is said on standard error, and nothing written.
pub fn complains(arguments: &[&str], input: &[u8], status: i32, words: &str) {
    let ran = wegbaro(arguments, input);
    assert_eq!((ran.status, ran.text()), (Some(status), ""), "{arguments:?}: {}", ran.said);
    assert!(ran.said.contains(words), "{arguments:?}: {}", ran.said);
}

/// A file of its own with these bytes. It is there whole at once, as tests that run side by side may
/// write the same.
pub fn file(name: &str, bytes: &[u8]) -> String {
    static WRITTEN: AtomicUsize = AtomicUsize::new(0);
    let folder = PathBuf::from(env!("CARGO_TARGET_TMPDIR"));
    std::fs::create_dir_all(&folder).unwrap();
    let path = folder.join(format!("{name}-{}", std::process::id()));
    let number = WRITTEN.fetch_add(1, Ordering::Relaxed);
    let part = folder.join(format!("part-{}-{number}", std::process::id()));
    std::fs::write(&part, bytes).unwrap();
    std::fs::rename(&part, &path).unwrap();
    path.to_str().unwrap().to_string()
}

/// The gate's lines for K.
pub const K_LINES: &str = "start holds\n1 blocked 0 3\n2 forwarded 21\n";
