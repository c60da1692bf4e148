//! Times the check call and a forwarded command on generated networks: the library, and the second
//! implementation in turn.

use std::hint::black_box;
use std::time::Instant;
use wegbaro_tests::gate::{Answer, Call, Gate, Lent};
use wegbaro_tests::library::Library;
use wegbaro_tests::networks::Widths;
use wegbaro_tests::records::{modify, Record};
use wegbaro_tests::second::Second;
use wegbaro_tools::generate::{generate, Kind, Options};
use wegbaro_tools::parse::parse;
use wegbaro_tools::print::whole_records;

const RUNS: usize = 51;
const SEED: u64 = 1;

fn main() {
    println!("| kind | switches | flows | N | links | rules | call | library, µs | second, µs |");
    println!("|---|---|---|---|---|---|---|---|---|");
    for kind in Kind::ALL {
        for switches in [4, 8, 16] {
            rows(kind, switches, 2 * switches);
        }
    }
}

/// The rows of one network.
fn rows(kind: Kind, switches: usize, flows: usize) {
    let options = Options::new(switches, flows, 0).expect("a size within the limits");
    let parsed = parse(&generate(kind, options, SEED)).expect("a text without a fault");
    let (records, _) = whole_records(&parsed.bytes);
    let count = |kind: u8| records.iter().filter(|record| record[0] == kind).count();
    let bits = Widths::of(&records[0]).bits();
    let name = kind.word().to_uppercase();
    let network = format!("| {name} | {switches} | {flows} | {bits} | {} | {}", count(2), count(4));
    for (call, [library, second]) in [
        ("check", in_turn(|gate| check(gate, &records))),
        ("command", in_turn(|gate| command(gate, &records))),
    ] {
        println!("{network} | {call} | {library:.1} | {second:.1} |");
    }
}

/// Median times of the library and the second implementation.
fn in_turn(timed: impl Fn(&dyn Gate) -> f64) -> [f64; 2] {
    let mut times = [vec![], vec![]];
    for _ in 0..RUNS {
        times[0].push(timed(&Library));
        times[1].push(timed(&Second));
    }
    times.map(|mut times| {
        times.sort_by(f64::total_cmp);
        times[RUNS / 2]
    })
}

/// Microseconds of a call, which is answered so.
fn time(gate: &dyn Gate, records: &[Record], call: &Call, expected: Answer) -> f64 {
    let mut lent = Lent::just(records);
    let start = Instant::now();
    let answer = black_box(gate.answer(call, &mut lent));
    let time = start.elapsed();
    assert_eq!(answer, expected);
    time.as_secs_f64() * 1e6
}

/// Microseconds of a check.
fn check(gate: &dyn Gate, records: &[Record]) -> f64 {
    time(gate, records, &Call::Check, Answer::Holds)
}

/// Microseconds of a command that gives the first rule the actions that it has.
fn command(gate: &dyn Gate, records: &[Record]) -> f64 {
    let rule = records.iter().find(|record| record[0] == 4).expect("a network with rules");
    let call = Call::Command(modify(*rule).to_vec());
    time(gate, records, &call, Answer::Forwarded { count: records.len() })
}
