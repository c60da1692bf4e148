//! Times the check call and a forwarded command at N = 4 to 10: the library, the second implementation,
//! and decision diagrams on BuDDy (`bdd/check.cpp`) where its header is installed.

use wegbaro_tests::diagrams::Diagrams;
use wegbaro_tests::formulas::{and, bit, external, not, policy, r, some, tc, Node, X, Y};
use wegbaro_tests::gate::Gate;
use wegbaro_tests::library::Library;
use wegbaro_tests::networks::{
    all_widths, guarded_network, largest_without_policies, random_network, Widths, MODEST,
};
use wegbaro_tests::random::Random;
use wegbaro_tests::records::{add, link, miss, output, rule, set, widths, Record, ANY};
use wegbaro_tests::second::Second;
use wegbaro_tests::times::{check, command, Taken, RUNS};

/// The widths of the chains, one for each N from 4 to 10.
const CHAINS: [Widths; 7] = [
    Widths { h: 1, p: 2, w: 0 },
    Widths { h: 1, p: 2, w: 1 },
    Widths { h: 2, p: 2, w: 1 },
    Widths { h: 2, p: 2, w: 2 },
    Widths { h: 2, p: 3, w: 2 },
    Widths { h: 2, p: 3, w: 3 },
    Widths { h: 2, p: 4, w: 3 },
];
/// Headers with bit 0 clear.
const EVEN: [u8; 2] = [0, 1];

/// In the form of network K's policy: what arrives outside with header bit 0 so never leaves with it
/// otherwise.
fn keeps_bit_0(top: u8, set: bool) -> Vec<Node> {
    let [arriving, departing] = if set { [2, 12] } else { [3, 11] };
    vec![
        external(X),
        bit(X, top),
        bit(X, 0),
        not(2),
        not(1),
        and(0, 4),
        and(5, arriving),
        r(X, Y),
        tc(7, X, Y),
        external(Y),
        bit(Y, top),
        bit(Y, 0),
        not(11),
        and(9, 10),
        and(13, departing),
        and(8, 14),
        some(15, Y),
        and(6, 16),
    ]
}

/// Header bit 0 is kept, set and clear.
fn policies(of: Widths) -> Vec<Record> {
    let top = of.bits() - 1;
    [policy(0, &keeps_bit_0(top, false)), policy(1, &keeps_bit_0(top, true))].concat()
}

/// A chain of switches. Even headers cross each switch from a port to the one opposite, odd headers
/// are dropped; where the header has two bits, every second port sets the upper one.
fn chain(of: Widths) -> Vec<Record> {
    let full = (1 << of.p) - 1;
    let last = full - 1;
    let mut records = vec![widths(of.h, of.p, of.w)];
    for switch in 1..1 << of.w {
        for port in 1..=(last / 2 - 1).max(1) {
            records.push(link(switch - 1, last + 1 - port, switch, port));
        }
    }
    records.extend((0..1 << of.w).map(|switch| miss(switch, &[output(0, full)])));
    for switch in 0..1 << of.w {
        for port in 1..=last {
            let across = output(last + 1 - port, full);
            let marked = [set(2, 2), across];
            let marks = of.h > 1 && port % 2 == 1;
            let actions = if marks { &marked[..] } else { &marked[1..] };
            records.push(rule(switch, 10, [port, full], EVEN, actions));
            records.push(rule(switch, 5, [port, full], ANY, &[output(0, full)]));
        }
    }
    records.extend(policies(of));
    records
}

/// Random links and rules at N = 10, without SETs that change a bit.
fn scattered() -> Vec<Record> {
    let mut records = largest_without_policies(&mut Random::new(3));
    records.drain(97..113);
    records.pop();
    for record in records.iter_mut().filter(|record| record[0] > 2) {
        for action in record[9..21].chunks_exact_mut(3).filter(|action| action[0] == 2) {
            action.copy_from_slice(&set(0, 0));
        }
    }
    let of = Widths::of(&records[0]);
    records.extend(policies(of));
    records
}

/// The add of a new rule by which even headers from the first port of switch 0 are dropped.
fn dropping(of: Widths) -> Record {
    let full = (1 << of.p) - 1;
    add(rule(0, 20, [1, full], EVEN, &[output(0, full)]))
}

/// Ten random networks of every width, on which the verdicts are compared.
fn random_networks() -> Vec<Vec<Record>> {
    let random = &mut Random::new(4);
    let mut networks = vec![];
    for of in all_widths() {
        for _ in 0..5 {
            networks.push(random_network(random, of, MODEST));
            networks.push(guarded_network(random, of));
        }
    }
    networks
}

fn print(row: &str, times: [Taken; 2], bdd: Option<f64>) {
    let [library, second] = times.map(|taken| taken.median);
    let beside = match bdd {
        Some(bdd) => format!("{bdd:.1} | {:.3}", library / bdd),
        None => "– | –".to_string(),
    };
    println!("| {row} | {library:.1} | {second:.1} | {:.3} | {beside} |", library / second);
}

fn main() {
    let gates: [&dyn Gate; 2] = [&Library, &Second];
    let diagrams = Diagrams::compiled(env!("CARGO_TARGET_TMPDIR"));
    if let Some(diagrams) = &diagrams {
        diagrams.medians(&random_networks(), 1);
    }
    println!(
        "| N | H, P, W | network | links | rules | call | \
         library, µs | second, µs | ratio | BDD, µs | ratio |"
    );
    println!("|{}", "---|".repeat(11));
    let chains = CHAINS.map(|of| ("chain", chain(of)));
    for (name, records) in chains.into_iter().chain([("random", scattered())]) {
        let of = Widths::of(&records[0]);
        let Widths { h, p, w } = of;
        let count = |kind| records.iter().filter(|record| record[0] == kind).count();
        let row = format!("{} | {h}, {p}, {w} | {name} | {} | {}", of.bits(), count(2), count(4));
        let checked = check(gates, &records);
        let (commanded, left) = command(gates, &records, &dropping(of));
        let beside = diagrams.as_ref().map(|diagrams| diagrams.medians(&[records, left], RUNS));
        let bdd = |call| beside.as_ref().map(|times: &Vec<f64>| times[call]);
        print(&format!("{row} | check"), checked, bdd(0));
        print(&format!("{row} | command"), commanded, bdd(1));
    }
}
