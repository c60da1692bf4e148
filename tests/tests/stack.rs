//! The stack that the three calls need on the largest networks is within the bound of the header.

use std::fs::{self, File};
use std::path::Path;
use std::process::Command;
use wegbaro_tests::build::{compile, library, printed, Folder};
use wegbaro_tests::formulas::{all, and, bit, not, or, policy, r, some, tc, Node, X, Y};
use wegbaro_tests::gate::{Answer, Call, Gate, Lent, MOST_RECORDS, RECORD};
use wegbaro_tests::library::Library;
use wegbaro_tests::networks::{largest, largest_with, nested_groups, LARGEST};
use wegbaro_tests::random::Random;
use wegbaro_tests::records::{add, delete, in_version, modify, rule, run as run_group, Record};
use wegbaro_tests::winding::winding;

/// Starts and ends of routes at N = 10: loops, any two states, and the ends of the winding route.
const ENDS: [[usize; 2]; 6] = [[2, 2], [543, 543], [2, 1023], [3, 512], [30, 543], [543, 30]];

/// A formula of 32 nodes in which each node but the first has the one before it as operand, so
/// that working it out goes 32 nodes deep.
fn chain(first: Node, next: impl Fn(u8) -> Node) -> Vec<Node> {
    let deeper = (0..31).map(next);
    [first].into_iter().chain(deeper).collect()
}

/// Chains of every kind of node that has operands, with at most X free at the end.
fn chains() -> [Vec<Node>; 8] {
    let step = r(X, Y);
    [
        chain(bit(X, 0), not),
        chain(bit(X, 0), |before| and(before, before)),
        chain(bit(X, 0), |before| or(before, before)),
        chain(step, |before| some(before, Y)),
        chain(step, |before| all(before, Y)),
        chain(step, |before| tc(before, X, X)),
        chain(step, |before| tc(before, X, if before < 30 { Y } else { X })),
        chain(step, |before| if before % 2 == 0 { not(before) } else { some(before, Y) }),
    ]
}

/// A largest network whose first policy is one of the chains, and whose groups are nested.
fn chained(first: usize) -> Vec<Record> {
    let mut chains = chains();
    chains.rotate_left(first);
    let policies: Vec<Record> =
        (0..).zip(&chains).flat_map(|(number, nodes)| policy(number, nodes)).collect();
    let groups = nested_groups(LARGEST, 0);
    let mut records = largest_with(&mut Random::new(first as u64), &policies, &groups);
    run_highest_group(&mut records);
    records
}

/// Lets whatever acts at switch 0 run its highest group, so that groups are run 16 deep.
fn run_highest_group(records: &mut [Record]) {
    let acts = |record: &&mut Record| matches!(record[..2], [3 | 4, 0]);
    for record in records.iter_mut().filter(acts) {
        record[8..21].fill(0);
        record[8] = 1;
        record[9..12].copy_from_slice(&run_group(15));
    }
}

/// A chained network whose rules are all of switch 0 and run its highest group: 243 of one priority, one
/// for each pattern of port and header, and the other thirteen of a lower one.
fn with_equals() -> Vec<Record> {
    let of_care =
        |care: u8| (0..32).filter(move |value| value & !care == 0).map(move |v| [v, care]);
    let patterns: Vec<[u8; 2]> = (0..32).flat_map(of_care).collect();
    assert_eq!(patterns.len(), 243);
    let mut records = chained(0);
    let rules = records.iter_mut().filter(|record| record[0] == 4);
    for (number, (record, bits)) in rules.zip(patterns.iter().cycle()).enumerate() {
        let [port, header] = [bits.map(|bits| bits >> 1), bits.map(|bits| bits & 1)];
        let priority = u16::from(number < patterns.len());
        *record = rule(0, priority, port, header, &[run_group(15)]);
    }
    records
}

/// A network with a longest route, and with policies as chains.
fn longest() -> Vec<Record> {
    let long = winding(LARGEST);
    assert_eq!([long.route[0], long.route[897]], ENDS[4]);
    let policies = chains().into_iter().enumerate();
    let policies = policies.flat_map(|(number, nodes)| policy(number as u8, &nodes));
    long.records.into_iter().chain(policies).collect()
}

/// A network, and commands of every kind on its first and its last rule.
fn with_commands(network: Vec<Record>) -> (Vec<Record>, Vec<Record>) {
    let rules: Vec<Record> = network.iter().copied().filter(|record| record[0] == 4).collect();
    let commands =
        [rules[0], rules[rules.len() - 1]].map(|rule| [add(rule), modify(rule), delete(rule)]);
    (network, commands.concat())
}

/// The network in version 1 without its last rule, and the modify that adds it.
fn with_adding_modify(network: &[Record]) -> (Vec<Record>, Vec<Record>) {
    let mut fewer = in_version(network, 1);
    let last = fewer.iter().rposition(|record| record[0] == 4).unwrap();
    let given = modify(fewer.remove(last));
    assert!(adds(&fewer, &given));
    (fewer, vec![given])
}

/// Whether a command adds a rule. The policies are left out: some of the chains are broken whatever
/// the rules are, and a blocked command does not show what it would leave.
fn adds(network: &[Record], given: &Record) -> bool {
    let mut free = network.to_vec();
    free.retain(|record| record[0] != 5);
    let answer = Library.answer(&Call::Command(given.to_vec()), &mut Lent::just(&free));
    answer == Answer::Forwarded { count: free.len() + 1 }
}

/// Whether no row refuses a network.
fn is_judged(network: &[Record]) -> bool {
    !Library.answer(&Call::Check, &mut Lent::just(network)).is_refused()
}

/// The program that measures.
fn meter(folder: &Path) -> Command {
    let built = folder.join("stack");
    let compiler = ["cc", "-std=c99", "-D_XOPEN_SOURCE=600", "-pthread"];
    compile(&compiler, "tests/c/stack.c", &library(), &built);
    let mut meter = Command::new(built);
    meter.args(ENDS.concat().iter().map(usize::to_string));
    meter
}

#[test]
fn within_the_bound() {
    let folder = Folder::new(env!("CARGO_TARGET_TMPDIR"), "stack");
    let mut meter = meter(folder.path());
    let file = folder.path().join("input");
    let mut random = Random::new(17);
    let networks = (0..8).map(chained).chain((0..4).map(|_| largest(&mut random)));
    let mut most = [0, 0, 0];
    let networks =
        networks.chain([with_equals()]).inspect(|network| assert_eq!(network.len(), MOST_RECORDS));
    let inputs = networks.chain([longest()]).map(with_commands);
    for (network, commands) in inputs.chain([with_adding_modify(&chained(0))]) {
        assert!(is_judged(&network));
        fs::write(&file, [network, commands].concat().concat()).unwrap();
        let lines = printed(meter.stdin(File::open(&file).unwrap()));
        for line in lines.lines() {
            let (what, bytes) = line.split_once(' ').unwrap();
            let bytes: usize = bytes.parse().unwrap();
            match what {
                "check" => most[0] = most[0].max(bytes),
                "command" => most[1] = most[1].max(bytes),
                "route" => most[2] = most[2].max(bytes),
                _ => assert!(most.iter().all(|&used| used <= bytes), "{most:?}, {line}"),
            }
        }
    }
    println!("check {} bytes, command {} bytes, route {} bytes", most[0], most[1], most[2]);
    // A command copies the whole network, so that less was not measured right.
    assert!(most[1] > MOST_RECORDS * RECORD && most[0] > 0 && most[2] > 0, "{most:?}");
}
