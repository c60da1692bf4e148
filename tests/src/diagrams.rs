//! Verdicts by decision diagrams on BuDDy, and their times.

use crate::gate::{Call, Gate, Lent};
use crate::library::Library;
use crate::records::Record;
use std::fs;
use std::path::{Path, PathBuf};
use std::process::{Command, Stdio};

/// The program `bdd/check.cpp`, compiled.
pub struct Diagrams {
    program: PathBuf,
    /// The file of networks that it is given.
    networks: PathBuf,
}

impl Diagrams {
    /// The program in a folder, if BuDDy's header is found.
    pub fn compiled(folder: &str) -> Option<Diagrams> {
        let mut probe = Command::new("c++");
        probe.args(["-fsyntax-only", "-include", "bdd.h", "-x", "c++", "-"]);
        let found = probe.stdin(Stdio::null()).stderr(Stdio::null()).status();
        if !found.is_ok_and(|status| status.success()) {
            return None;
        }
        let folder = Path::new(folder);
        let source = Path::new(env!("CARGO_MANIFEST_DIR")).join("bdd/check.cpp");
        let program = folder.join("bdd-check");
        let mut compiler = Command::new("c++");
        compiler.args(["-std=c++17", "-O2", "-Wall"]).arg(source).arg("-o").arg(&program);
        assert!(compiler.arg("-lbdd").status().unwrap().success(), "bdd/check.cpp is compiled");
        Some(Diagrams { program, networks: folder.join("bdd-networks") })
    }

    /// The medians of its times on networks in microseconds, each verdict compared with the library's.
    pub fn medians(&self, networks: &[Vec<Record>], runs: usize) -> Vec<f64> {
        fs::write(&self.networks, networks.concat().concat()).unwrap();
        let mut program = Command::new(&self.program);
        let output = program.arg(runs.to_string()).arg(&self.networks).output().unwrap();
        assert!(output.status.success());
        let lines = String::from_utf8(output.stdout).unwrap();
        assert_eq!(lines.lines().count(), networks.len());
        let judged = lines.lines().zip(networks);
        judged
            .map(|(line, records)| {
                let (verdict, median) = line.rsplit_once(' ').unwrap();
                assert_eq!(verdict, verdict_on(records), "{records:?}");
                median.parse().unwrap()
            })
            .collect()
    }
}

/// The library's verdict on a sound network, in the program's words.
fn verdict_on(records: &[Record]) -> String {
    Library.answer(&Call::Check, &mut Lent::just(records)).to_string()
}
