//! The proved library, through its crate for Rust, and the program built on it.

use crate::gate::{Answer, Call, Gate, Lent};
use std::io::Write;
use std::path::Path;
use std::process::{Command, Stdio};
use wegbaro::{Checked, Commanded, Refusal, Routed};

/// The proved library.
pub struct Library;

impl Gate for Library {
    fn answer(&self, call: &Call, lent: &mut Lent) -> Answer {
        let Lent { store, n, work, list } = lent;
        let answered = match call {
            Call::Check => wegbaro::check(store, *n, work).map(Answer::from),
            Call::Command(given) => wegbaro::command(store, *n, work, given).map(Answer::from),
            Call::Route { start, end } => {
                wegbaro::route(store, *n, work, *start, *end, list).map(Answer::from)
            }
        };
        answered.unwrap_or_else(|Refusal { row, place }| Answer::Refused { number: row, place })
    }
}

impl From<Checked> for Answer {
    fn from(checked: Checked) -> Answer {
        match checked {
            Checked::Holds => Answer::Holds,
            Checked::Violated { policy, state } => Answer::Violated { policy, state },
        }
    }
}

impl From<Commanded> for Answer {
    fn from(commanded: Commanded) -> Answer {
        match commanded {
            Commanded::Forwarded { count } => Answer::Forwarded { count },
            Commanded::Blocked { policy, state } => Answer::Blocked { policy, state },
        }
    }
}

impl From<Routed> for Answer {
    fn from(routed: Routed) -> Answer {
        match routed {
            Routed::Found { count } => Answer::Found { count },
            Routed::NoRoute => Answer::NoRoute,
        }
    }
}

/// The program, not yet started.
pub fn program_command() -> Command {
    Command::new(Path::new(env!("CARGO_MANIFEST_DIR")).join("../target/bin/gate"))
}

/// What the program prints for a whole input.
pub fn program(input: &[u8]) -> Vec<u8> {
    let mut gate = program_command()
        .stdin(Stdio::piped())
        .stdout(Stdio::piped())
        .spawn()
        .expect("the program is built by `rt check gate`");
    // The program may stop before it has read all of its input.
    let _ = gate.stdin.take().unwrap().write_all(input);
    gate.wait_with_output().unwrap().stdout
}
