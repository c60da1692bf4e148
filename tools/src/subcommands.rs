//! The subcommands and options of the program, a row for each, and the help that is made of them.
//!
//! A new call of the library is a file of `answers/`, with its answer and the function that asks for
//! it, and a row here.

use crate::answers::route::route;
use crate::arguments::Arguments;
use crate::conversions::{expand, records, text};
use crate::explain::explain;
use crate::generate;
use crate::judging::{check, run};
use crate::picture::picture;
use crate::session::session;
use crate::trouble::{Status, Trouble};
use std::ops::RangeInclusive;

/// A subcommand.
#[derive(Debug)]
pub struct Subcommand {
    pub name: &'static str,
    pub operands: Operands,
    pub options: &'static [ProgramOption],
    pub help: &'static str,
    /// What it reads from standard input, so that its FILE is not there.
    pub reads: Option<&'static str>,
    pub run: fn(&Arguments) -> Result<Status, Trouble>,
}

/// The operands of a subcommand.
#[derive(Debug)]
pub struct Operands {
    /// As the help shows them.
    pub shown: &'static str,
    /// As a fault tells them.
    pub told: &'static str,
    pub count: RangeInclusive<usize>,
}

/// An option.
#[derive(Clone, Copy, Debug)]
pub struct ProgramOption {
    pub name: &'static str,
    /// What stands for its value in the help, if it has one.
    pub value: Option<&'static str>,
    pub help: &'static str,
}

const FILE: Operands = Operands { shown: "FILE", told: "one FILE", count: 1..=1 };
/// A state may be one argument or several.
const FILE_FROM_TO: Operands =
    Operands { shown: "FILE FROM TO", told: "FILE, FROM and TO", count: 3..=usize::MAX };
const KIND: Operands =
    Operands { shown: "KIND", told: "one KIND (plod, tree, ring)", count: 1..=1 };

const fn flag(name: &'static str, help: &'static str) -> ProgramOption {
    ProgramOption { name, value: None, help }
}

const fn number(name: &'static str, help: &'static str) -> ProgramOption {
    ProgramOption { name, value: Some("N"), help }
}

pub const JSON: ProgramOption = flag("--json", "answers as JSON, one object a line");
pub const GATE: ProgramOption = flag("--gate", "answers as the program gate prints them");
pub const RECORDS: ProgramOption =
    flag("--records", "commands come in as records of 24 bytes, not as lines of text");
pub const RULES: ProgramOption = flag("--rules", "with the rules of each switch");
pub const DOT: ProgramOption = flag("--dot", "a picture of it for Graphviz");
pub const AFTER: ProgramOption =
    number("--after", "in the network after so many of the file's commands");
pub const SWITCHES: ProgramOption = number("--switches", "2 to 16 switches, 4 if not given");
pub const FLOWS: ProgramOption = number("--flows", "at most 64 random flows, 4 if not given");
pub const GROUPS: ProgramOption =
    number("--groups", "at most 16 groups for rules to send through, none if not given");
pub const SEED: ProgramOption =
    number("--seed", "the same seed gives the same network, 0 if not given");

/// All options, in the order of the help.
pub const OPTIONS: &[ProgramOption] =
    &[JSON, GATE, RECORDS, RULES, DOT, AFTER, SWITCHES, FLOWS, GROUPS, SEED];

/// Options of which at most one is given.
pub const EXCLUSIVE: &[ProgramOption] = &[JSON, GATE, DOT];

/// All subcommands, in the order of the help.
pub static SUBCOMMANDS: &[Subcommand] = &[
    Subcommand {
        name: "check",
        operands: FILE,
        options: &[JSON, GATE],
        help: "judges the network",
        reads: None,
        run: check,
    },
    Subcommand {
        name: "run",
        operands: FILE,
        options: &[JSON, GATE],
        help: "judges the network, then its commands one after the other",
        reads: None,
        run,
    },
    Subcommand {
        name: "session",
        operands: FILE,
        options: &[JSON, GATE, RECORDS],
        help: "judges the network, then each command as it comes in on standard input",
        reads: Some("commands"),
        run: session,
    },
    Subcommand {
        name: "records",
        operands: FILE,
        options: &[],
        help: "a text as records",
        reads: None,
        run: records,
    },
    Subcommand {
        name: "text",
        operands: FILE,
        options: &[],
        help: "records as a text",
        reads: None,
        run: text,
    },
    Subcommand {
        name: "expand",
        operands: FILE,
        options: &[],
        help: "a text with every policy as a formula of the raw forms (or --expand)",
        reads: None,
        run: expand,
    },
    Subcommand {
        name: "explain",
        operands: FILE,
        options: &[JSON],
        help: "the answers of the program gate, on standard input, in words",
        reads: Some("answers"),
        run: explain,
    },
    Subcommand {
        name: "picture",
        operands: FILE,
        options: &[RULES],
        help: "the switches and links for Graphviz",
        reads: None,
        run: picture,
    },
    Subcommand {
        name: "route",
        operands: FILE_FROM_TO,
        options: &[JSON, DOT, AFTER],
        help: "how a frame gets from one state to another",
        reads: None,
        run: route,
    },
    Subcommand {
        name: "generate",
        operands: KIND,
        options: &[SWITCHES, FLOWS, GROUPS, SEED],
        help: "the text of a network; KIND is plod, tree or ring",
        reads: None,
        run: generate::run,
    },
];

/// The column of what a subcommand does.
const HELP_COLUMN: usize = 28;

/// The help.
pub fn help() -> String {
    let subcommands: String = SUBCOMMANDS.iter().map(Subcommand::help_line).collect();
    let options: String = OPTIONS.iter().map(ProgramOption::help_line).collect();
    format!(
        "\
wegbaro: judges a ward's network and the commands to its switches

{subcommands}
FILE is a text or has records, and `-` is standard input. FROM and TO are states, by number or by
fields: `0:1 in header 0` arrives at port 1 of switch 0, and `0:1 out header 0` departs there.

{options}  --help, -h, help; --version
  --man, --completion: the page for man, and what completes a call in bash

Exit status: 0 the network holds and every command is forwarded, or there is a route; 1 violated,
blocked, a command refused by a row, or no route; 2 the text or the call is faulty, or the network
is refused by a row; 3 reading or writing failed; 4 an internal error, which is told.

tools/README.md describes the text and the answers; docs/FORMAT.md the records, what a state, a
step, a policy and a route are, and the rows by which a call is refused.
"
    )
}

impl Subcommand {
    fn help_line(&self) -> String {
        let usage = format!("  wegbaro {} {}", self.name, self.operands.shown);
        match usage.len() < HELP_COLUMN {
            true => format!("{usage:HELP_COLUMN$}{}\n", self.help),
            false => format!("{usage}\n{:HELP_COLUMN$}{}\n", "", self.help),
        }
    }
}

impl ProgramOption {
    fn help_line(&self) -> String {
        let has_it = |row: &&Subcommand| row.options.iter().any(|option| option.name == self.name);
        let names: Vec<&str> = SUBCOMMANDS.iter().filter(has_it).map(|row| row.name).collect();
        let value = self.value.map_or_else(String::new, |value| format!(" {value}"));
        let option = format!("{}{value}", self.name);
        format!("  {option:16}{}: {}\n", names.join(", "), self.help)
    }
}
