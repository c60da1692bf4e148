//! Times of the check call and the command call: the library, plain Rust on 64-bit words, and decision
//! diagrams where they can be had.

use crate::diagrams::Diagrams;
use crate::gate::{Answer, Call, Gate, Lent};
use crate::library::Library;
use crate::records::{add, output, rule, Record};
use crate::words::Words;
use std::hint::black_box;
use std::time::Instant;

/// Runs of each call, where it is given the time for them.
pub const RUNS: usize = 51;
/// Microseconds that the runs of two gates take at most, if that is more than one run of each.
const PATIENCE: f64 = 5e6;
/// Microseconds that the runs of the diagrams take at most, if that is more than one run.
const DIAGRAMS_PATIENCE: f64 = 1e6;

/// Microseconds that a call takes.
pub fn time<T>(call: impl FnOnce() -> T) -> f64 {
    let start = Instant::now();
    black_box(call());
    start.elapsed().as_secs_f64() * 1e6
}

/// The median and the least of the times of a call in microseconds.
#[derive(Clone, Copy, Debug)]
pub struct Taken {
    pub median: f64,
    pub least: f64,
}

/// An odd number of runs that there is the time for, of which one takes so long.
fn runs_within(patience: f64, once: f64) -> usize {
    ((patience / once) as usize / 2 * 2 + 1).min(RUNS)
}

/// The times of two gates, taken in turn.
fn in_turn(gates: [&dyn Gate; 2], mut run: impl FnMut(&dyn Gate) -> f64) -> [Taken; 2] {
    let once = gates.map(&mut run).iter().sum();
    let runs = runs_within(PATIENCE, once);
    let times: Vec<[f64; 2]> = (0..runs).map(|_| gates.map(&mut run)).collect();
    [0, 1].map(|which| {
        let mut times: Vec<f64> = times.iter().map(|pair| pair[which]).collect();
        times.sort_by(f64::total_cmp);
        Taken { median: times[runs / 2], least: times[0] }
    })
}

/// The check call of two gates on a network that holds.
pub fn check(gates: [&dyn Gate; 2], records: &[Record]) -> [Taken; 2] {
    let mut lent = Lent::just(records);
    in_turn(gates, |gate| {
        let mut answer = None;
        let taken = time(|| answer = Some(gate.answer(&Call::Check, black_box(&mut lent))));
        assert_eq!(answer, Some(Answer::Holds));
        taken
    })
}

/// The command call of two gates, with a command that is forwarded, and the network it leaves.
pub fn command(
    gates: [&dyn Gate; 2],
    records: &[Record],
    given: &Record,
) -> ([Taken; 2], Vec<Record>) {
    let (before, call) = (Lent::just(records), Call::Command(given.to_vec()));
    let mut installed = None;
    let times = in_turn(gates, |gate| {
        let (mut lent, mut answer) = (before.clone(), None);
        let taken = time(|| answer = Some(gate.answer(&call, &mut lent)));
        let Some(answer @ Answer::Forwarded { .. }) = answer else { panic!("{answer:?}") };
        lent.go_on(answer);
        assert_eq!(installed.get_or_insert(lent.records().to_vec()), lent.records());
        taken
    });
    (times, installed.unwrap_or_default())
}

/// The times of one call; of the diagrams the median.
#[derive(Clone, Copy, Debug)]
pub struct Times {
    pub library: Taken,
    pub words: Taken,
    pub diagrams: Option<f64>,
}

/// The times of both calls on a network that holds.
#[derive(Clone, Copy, Debug)]
pub struct Both {
    pub check: Times,
    pub command: Times,
}

/// Times a check, and a command that makes a rule from the middle of the table drop.
pub fn both(records: &[Record], diagrams: Option<&Diagrams>) -> Both {
    let gates: [&dyn Gate; 2] = [&Library, &Words];
    let checked = check(gates, records);
    let (commanded, left) = command(gates, records, &dropping(records));
    assert!(left.len() == records.len() && left != records, "one rule is replaced");
    let times = |[library, words]: [Taken; 2], judged: &[Record]| {
        let diagrams = diagrams.map(|diagrams| patient(diagrams, judged));
        Times { library, words, diagrams }
    };
    Both { check: times(checked, records), command: times(commanded, &left) }
}

/// The add that replaces a rule: from the middle of the table on, the first that does not drop alone.
fn dropping(records: &[Record]) -> Record {
    let mut rules: Vec<Record> = records.iter().copied().filter(|record| record[0] == 4).collect();
    let middle = rules.len() / 2;
    rules.rotate_left(middle);
    let drop = [output(0, (1 << records[0][2]) - 1)];
    let dropping = rules.iter().map(|from| {
        let [_, switch, low, high, port, port_care, header, header_care, ..] = *from;
        let priority = u16::from_le_bytes([low, high]);
        rule(switch, priority, [port, port_care], [header, header_care], &drop)
    });
    add(dropping.into_iter().find(|rule| !rules.contains(rule)).expect("a rule sends"))
}

/// The median of the diagrams' times, over the runs that they are given the time for.
fn patient(diagrams: &Diagrams, records: &[Record]) -> f64 {
    let networks = [records.to_vec()];
    let once = diagrams.medians(&networks, 1)[0];
    match runs_within(DIAGRAMS_PATIENCE, once) {
        1 => once,
        runs => diagrams.medians(&networks, runs)[0],
    }
}

/// How rows are printed.
#[derive(Clone, Copy, Debug, PartialEq, Eq)]
pub enum Form {
    /// A table; both calls are in one row.
    Markdown,
    /// Values between tabs, each call in a line of its own.
    Tabs,
}

impl Form {
    /// By the argument `--tsv`.
    pub fn of_arguments() -> Form {
        match std::env::args().any(|argument| argument == "--tsv") {
            true => Form::Tabs,
            false => Form::Markdown,
        }
    }

    /// The head of a table of times, with columns before them.
    pub fn print_head(self, columns: &[&str]) {
        match self {
            Form::Tabs => {
                let times = "library\tlibrary, least\tRust\tRust, least\tBDD";
                println!("{}\tcall\t{times}", columns.join("\t"));
            }
            Form::Markdown => {
                let times = "library, µs | Rust, µs | ratio | BDD, µs | ratio";
                println!("| {} | check: {times} | command: {times} |", columns.join(" | "));
                println!("|{}", "---|".repeat(columns.len() + 10));
            }
        }
    }

    /// A row, with these columns before the times.
    pub fn print_row(self, columns: &[String], both: &Both) {
        match self {
            Form::Tabs => {
                for (call, times) in [("check", both.check), ("command", both.command)] {
                    println!("{}\t{call}\t{}", columns.join("\t"), tabs(&times));
                }
            }
            Form::Markdown => {
                let [check, command] = [both.check, both.command].map(cells);
                println!("| {} | {check} | {command} |", columns.join(" | "));
            }
        }
    }
}

/// The times of a call, least ones too, between tabs.
fn tabs(Times { library, words, diagrams }: &Times) -> String {
    let numbers = [library.median, library.least, words.median, words.least];
    let diagrams = diagrams.map_or("–".to_string(), |median| format!("{median:.1}"));
    numbers.map(|time| format!("{time:.1}")).join("\t") + "\t" + &diagrams
}

/// The medians of a call, and the ratios of the library's to the others.
fn cells(Times { library, words, diagrams }: Times) -> String {
    let [library, words] = [library.median, words.median];
    let beside = match diagrams {
        Some(median) => format!("{median:.1} | {:.3}", library / median),
        None => "– | –".to_string(),
    };
    format!("{library:.1} | {words:.1} | {:.2} | {beside}", library / words)
}
