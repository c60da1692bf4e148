//! The program on whole inputs.

use super::arguments::largest_holding;
use super::starred::k_with_rules;
use super::ProgramCase;
use crate::formulas::{policy, r, X};
use crate::k::{
    delete_d, dropping_add, first_add, k, k_set, k_with_d, rule_d, second_add, setting_add,
};
use crate::records::{
    add, delete, group, in_version, miss, modify, output, record, rule, run, set, to_port, widths,
    with, Record, ANY, IN_PORT,
};

pub fn cases() -> Vec<ProgramCase> {
    [
        starts(),
        series(),
        equals(),
        versions(),
        full_tables(),
        groups(),
        strange_commands(),
        cuts(),
        counts(),
        work(),
    ]
    .concat()
}

fn case(name: &str, input: &[u8], lines: &[&str]) -> ProgramCase {
    ProgramCase {
        name: name.to_string(),
        input: input.to_vec(),
        output: lines.iter().map(|line| format!("{line}\n")).collect(),
    }
}

/// Network records, then commands, as one input.
fn input(network: &[Record], commands: &[Record]) -> Vec<u8> {
    [network.concat(), commands.concat()].concat()
}

/// K with the first add's rule: state 3 breaks it.
fn broken() -> Vec<Record> {
    let mut records = k();
    records.insert(6, with(first_add(), 0, 4));
    records
}

fn starts() -> Vec<ProgramCase> {
    let commands = [first_add(), second_add()];
    let refused = ["start refused 1 0"];
    vec![
        case("empty input", &[], &refused),
        case("command first", &input(&[], &[first_add()]), &refused),
        case("commands, then K", &input(&commands, &k()), &refused),
        case("K", &input(&k(), &[]), &["start holds"]),
        case("broken network", &input(&broken(), &[]), &["start violated 0 3"]),
        case("broken, commands", &input(&broken(), &commands), &["start violated 0 3"]),
        case("kind 0 first", &input(&[[0; 24]], &commands), &["start refused 3 0"]),
        case("kind 9 behind K", &input(&k(), &[record(&[9])]), &["start refused 16 20"]),
        case("kind 10 behind K", &input(&k(), &[record(&[10])]), &["start refused 3 20"]),
        case("kind 0 behind K", &input(&k(), &[[0; 24], first_add()]), &["start refused 3 20"]),
        case("K[0:18], command", &input(&k()[..18], &commands), &["start refused 9 17"]),
        case("K[0:3], command", &input(&k()[..3], &commands), &["start refused 7 3"]),
        case(
            "operand 9, kind 0",
            &input(&k_set(&[(8, 3, 9), (9, 0, 0)]), &commands),
            &["start refused 9 8"],
        ),
    ]
}

fn series() -> Vec<ProgramCase> {
    let mends = input(
        &k(),
        &[
            add(rule_d()),
            first_add(),
            delete_d(),
            delete(first_add()),
            delete_d(),
            delete_d(),
            modify(with(dropping_add(), 0, 4)),
            delete(k()[4]),
            setting_add(),
            first_add(),
            delete(k()[5]),
            first_add(),
        ],
    );
    let flood = add(rule(1, 5, [2, 3], ANY, &[output(0, 0)]));
    let flood_and_back = rule(1, 5, [2, 3], ANY, &[output(0, 0), IN_PORT]);
    vec![
        case(
            "K, two adds",
            &input(&k(), &[first_add(), second_add()]),
            &["start holds", "1 blocked 0 3", "2 forwarded 21"],
        ),
        case(
            "twelve commands",
            &mends,
            &[
                "start holds",
                "1 forwarded 21",
                "2 forwarded 22",
                "3 blocked 0 3",
                "4 forwarded 21",
                "5 forwarded 20",
                "6 forwarded 20",
                "7 forwarded 20",
                "8 forwarded 19",
                "9 blocked 0 2",
                "10 blocked 0 3",
                "11 forwarded 18",
                "12 forwarded 19",
            ],
        ),
        case(
            "K with D",
            &input(&k_with_d(), &[delete_d(), dropping_add(), delete_d()]),
            &["start holds", "1 blocked 0 3", "2 forwarded 22", "3 blocked 0 3"],
        ),
        case(
            "K, a flood, the same and IN_PORT, IN_PORT with a value",
            &input(&k(), &[flood, modify(flood_and_back), with(modify(flood_and_back), 13, 2)]),
            &["start holds", "1 forwarded 21", "2 blocked 0 13", "3 refused 12 0"],
        ),
    ]
}

/// A series on K with rules of A's priority that match what A does too.
fn equals() -> Vec<ProgramCase> {
    let setting = rule(0, 10, [1, 3], ANY, &[set(1, 1), output(2, 3)]);
    let dropping = rule(0, 10, ANY, ANY, &[output(0, 3)]);
    let (a, b) = (k()[4], k()[5]);
    let commands = [
        add(setting),
        add(dropping),
        add(setting),
        delete(b),
        add(setting),
        add(b),
        delete(a),
        add(b),
        delete(setting),
        add(b),
    ];
    let lines = [
        "start holds",
        "1 blocked 0 2",
        "2 forwarded 21",
        "3 blocked 0 2",
        "4 forwarded 20",
        "5 forwarded 21",
        "6 blocked 0 2",
        "7 forwarded 20",
        "8 blocked 0 2",
        "9 forwarded 19",
        "10 forwarded 20",
    ];
    vec![case("K, rules of A's priority", &input(&k(), &commands), &lines)]
}

/// The version stands in the first record and is that of every command.
fn versions() -> Vec<ProgramCase> {
    let commands = [
        modify(first_add()),
        modify(second_add()),
        modify(second_add()),
        delete(second_add()),
        delete(second_add()),
        modify(rule_d()),
        modify(first_add()),
        delete_d(),
    ];
    let old = [
        "start holds",
        "1 blocked 0 3",
        "2 forwarded 21",
        "3 forwarded 21",
        "4 forwarded 20",
        "5 forwarded 20",
        "6 forwarded 21",
        "7 forwarded 22",
        "8 blocked 0 3",
    ];
    let new = [
        "start holds",
        "1 forwarded 20",
        "2 forwarded 20",
        "3 forwarded 20",
        "4 forwarded 20",
        "5 forwarded 20",
        "6 forwarded 20",
        "7 forwarded 20",
        "8 forwarded 20",
    ];
    let mut cases = vec![];
    for (version, lines) in [(0, new), (1, old), (4, new)] {
        let name = format!("K in version {version}, modifies");
        cases.push(case(&name, &input(&in_version(&k(), version), &commands), &lines));
    }
    for version in [2, 3, 5, 255] {
        let name = format!("K in version {version}");
        let lines = ["start refused 5 0"];
        cases.push(case(&name, &input(&in_version(&k(), version), &commands), &lines));
    }
    cases
}

/// K with 256 rules, of which A is modified and B deleted.
fn full_tables() -> Vec<ProgramCase> {
    let absent = |priority| modify(rule(1, priority, ANY, ANY, &[output(0, 3)]));
    let commands =
        [absent(7), modify(dropping_add()), delete(k()[5]), absent(7), absent(7), absent(8)];
    let old = [
        "start holds",
        "1 refused 13 0",
        "2 forwarded 274",
        "3 forwarded 273",
        "4 forwarded 274",
        "5 forwarded 274",
        "6 refused 13 0",
    ];
    let new = [
        "start holds",
        "1 forwarded 274",
        "2 forwarded 274",
        "3 forwarded 273",
        "4 forwarded 273",
        "5 forwarded 273",
        "6 forwarded 273",
    ];
    let full = |(version, lines): (u8, [&str; 7])| {
        let name = format!("256 rules in version {version}, modifies");
        case(&name, &input(&in_version(&k_with_rules(256), version), &commands), &lines)
    };
    [(0, new), (1, old), (4, new)].map(full).to_vec()
}

/// Behind the first command every record is one, whatever its kind.
fn strange_commands() -> Vec<ProgramCase> {
    let strange = [
        with(second_add(), 21, 1),
        [0; 24],
        k()[0],
        k()[4],
        k()[19],
        record(&[9]),
        [255; 24],
        second_add(),
        second_add(),
    ];
    let lines = [
        "start holds",
        "1 refused 12 0",
        "2 refused 12 0",
        "3 refused 12 0",
        "4 refused 12 0",
        "5 refused 12 0",
        "6 refused 12 0",
        "7 refused 12 0",
        "8 forwarded 21",
        "9 forwarded 21",
    ];
    vec![case("strange commands", &input(&k(), &strange), &lines)]
}

fn cuts() -> Vec<ProgramCase> {
    let cut = |network: &[Record], commands: &[Record], tail: &[u8]| {
        [&input(network, commands)[..], tail].concat()
    };
    let short = ["end short"];
    let started = ["start holds", "end short"];
    let mut cases = vec![
        case("byte 05 alone", &[5], &short),
        case("byte 00 alone", &[0], &short),
        case("byte 06 alone", &[6], &["start refused 1 0"]),
        case("23 bytes of a command alone", &first_add()[..23], &["start refused 1 0"]),
        case("K and 23 bytes of a rule", &cut(&k(), &[], &k()[4][..23]), &short),
        case("K and 23 bytes of a command", &cut(&k(), &[], &first_add()[..23]), &started),
        case("faulty network, byte 05", &cut(&[[9; 24]], &[], &[5]), &short),
        case("faulty network, byte 06", &cut(&[[9; 24]], &[], &[6]), &["start refused 3 0"]),
        case("broken network, byte 05", &cut(&broken(), &[], &[5]), &short),
        case("broken network, byte 08", &cut(&broken(), &[], &[8]), &["start violated 0 3"]),
        case(
            "broken network, command, byte 06",
            &cut(&broken(), &[first_add()], &[6]),
            &["start violated 0 3"],
        ),
    ];
    for kind in [6, 7, 8] {
        let name = format!("K and byte {kind}");
        cases.push(case(&name, &cut(&k(), &[], &[kind]), &started));
    }
    for kind in [0, 1, 4, 5, 9, 255] {
        let name = format!("K and byte {kind}");
        cases.push(case(&name, &cut(&k(), &[], &[kind]), &short));
    }
    for kind in [0, 1, 5, 6, 8, 9, 255] {
        let name = format!("K, a command and byte {kind}");
        let lines = ["start holds", "1 forwarded 21", "end short"];
        cases.push(case(&name, &cut(&k(), &[second_add()], &[kind]), &lines));
    }
    cases
}

/// K and group 3 of switch 0, which sends header 1 to port 2.
fn grouped() -> Vec<Record> {
    [k(), vec![group(0, 3, &[to_port([1, 1], 2)])]].concat()
}

/// Groups belong to the network up to the first command; behind it they are no commands.
fn groups() -> Vec<ProgramCase> {
    let at_0 = |port: u8, number: u8| rule(0, 20, [port, 3], ANY, &[run(number)]);
    let at_1 = rule(1, 20, [2, 3], ANY, &[run(3)]);
    let given = [
        add(at_0(1, 3)),
        add(at_0(1, 2)),
        add(at_0(1, 16)),
        modify(at_0(1, 2)),
        add(at_1),
        group(0, 4, &[to_port(ANY, 1)]),
        add(at_0(2, 3)),
        delete(at_0(2, 3)),
    ];
    let lines = [
        "start holds",
        "1 blocked 0 2",
        "2 refused 16 0",
        "3 refused 12 0",
        "4 refused 16 0",
        "5 refused 16 0",
        "6 refused 12 0",
        "7 forwarded 22",
        "8 forwarded 21",
    ];
    let faulty = with(grouped()[20], 23, 1);
    let mut absent = grouped();
    absent[5] = at_1;
    vec![
        case("K and a group", &input(&grouped(), &[]), &["start holds"]),
        case("K and a group, commands", &input(&grouped(), &given), &lines),
        case("K and a faulty group", &input(&k(), &[faulty]), &["start refused 16 20"]),
        case("another switch's group", &input(&absent, &given), &["start refused 16 5"]),
        case("a group and a node", &input(&grouped(), &[k()[6]]), &["start refused 3 21"]),
        case("K and a cut group", &[&k().concat()[..], &faulty[..23]].concat(), &["end short"]),
    ]
}

/// 657 and 658 network records. The largest network needs more work than the program has.
fn counts() -> Vec<ProgramCase> {
    let largest = largest_holding();
    let more = |record: Record, tail: &[u8]| [&largest.concat()[..], &record, tail].concat();
    let with_tail = |tail: &[u8]| [&largest.concat()[..], tail].concat();
    let zeros = |count: usize| vec![0; 24 * count];
    let (too_many, too_large) = (["start refused 1 0"], ["start refused 11 0"]);
    vec![
        case("657 records", &with_tail(&[]), &too_large),
        case("657 records, a command", &with_tail(&first_add()), &too_large),
        case("657 records, byte 06", &with_tail(&[6]), &too_large),
        case("657 records, byte 09", &with_tail(&[9]), &["end short"]),
        case("658 records", &more(largest[656], &[]), &too_many),
        case("658 records, byte 09", &more(largest[656], &[9]), &too_many),
        case("658 records, byte 06", &more(largest[656], &[6]), &too_many),
        case("658 records, a command", &more(largest[656], &first_add()), &too_many),
        case("657 records of zeros", &zeros(657), &["start refused 3 0"]),
        case("658 records of zeros", &zeros(658), &too_many),
        case("1000 records of zeros", &zeros(1_000), &too_many),
    ]
}

/// The program's work is 65,536 bytes: 8 planes for N of 8, and 2 for N of 9.
fn work() -> Vec<ProgramCase> {
    let network = |h: u8, p: u8, nodes: usize| {
        let mut records = vec![widths(h, p, 0), miss(0, &[output(0, 0)])];
        records.extend(policy(0, &vec![r(X, X); nodes]));
        records.concat()
    };
    vec![
        case("N of 8, 6 nodes", &network(5, 2, 6), &["start holds"]),
        case("N of 8, 7 nodes", &network(5, 2, 7), &["start refused 11 0"]),
        case("N of 9, no policy", &network(6, 2, 0), &["start holds"]),
        case("N of 9, 1 node", &network(6, 2, 1), &["start refused 11 0"]),
        case("N of 10, no policy", &network(6, 3, 0), &["start refused 11 0"]),
        case("N of 7, 30 nodes", &network(4, 2, 30), &["start holds"]),
        case("N of 7, 31 nodes", &network(4, 2, 31), &["start refused 11 0"]),
    ]
}
