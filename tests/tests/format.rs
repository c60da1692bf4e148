//! What docs/FORMAT.md says of patterns and of network K: its records, the commands, the routes and
//! the changed networks, each read from the document and held to the proved library.

use std::fs;
use wegbaro_tests::gate::{Answer, Call, Gate, Lent};
use wegbaro_tests::k::k;
use wegbaro_tests::library::Library;
use wegbaro_tests::records::{miss, output, record, rule, set, widths, Record, IN_PORT};
use wegbaro_tests::second::states::{Direction, Point, State, Widths};

fn document() -> String {
    let path = concat!(env!("CARGO_MANIFEST_DIR"), "/../docs/FORMAT.md");
    fs::read_to_string(path).unwrap()
}

/// The cells of each line of the table whose heading starts with this cell.
fn table<'a>(document: &'a str, heading: &str) -> Vec<Vec<&'a str>> {
    let cells = |line: &'a str| line.trim_matches('|').split('|').map(str::trim).collect();
    let lines = document.lines().skip_while(|line| !line.starts_with(&format!("| {heading} |")));
    lines.skip(2).take_while(|line| line.starts_with('|')).map(cells).collect()
}

/// The bytes of words of two hexadecimal digits, up to the first other word.
fn bytes(text: &str) -> Vec<u8> {
    let digits = |word: &&str| word.len() == 2;
    let words = text.split_whitespace().take_while(digits);
    words.map_while(|word| u8::from_str_radix(word, 16).ok()).collect()
}

/// The records of a hexadecimal listing whose lines are numbered from 00.
fn listing(document: &str) -> Vec<Record> {
    let numbered = |place: usize| format!("    {place:02}  ");
    let mut found = vec![];
    for line in document.lines() {
        if let Some(rest) = line.strip_prefix(&numbered(found.len())) {
            // Two spaces or more end the bytes.
            let shown = rest.split("  ").next().unwrap();
            found.push(record(&bytes(shown)));
        }
    }
    found
}

/// The check call's answer to network K changed as the words say.
fn answer_to(changes: &str) -> String {
    let mut lent = Lent::just(&k());
    let mut store_len = lent.store.len();
    for change in changes.split(", ") {
        let (what, value) = change.split_once('=').unwrap();
        let value: usize = value.parse().unwrap();
        match (what, what.split_once('.')) {
            ("n", _) => lent.n = value,
            ("store", _) => store_len = value,
            ("work", _) => lent.work.resize(value, 0),
            // Records behind K may be set too.
            (_, Some((place, byte))) => {
                let at: usize = place.parse::<usize>().unwrap() * 24;
                lent.store[at + byte.parse::<usize>().unwrap()] = value as u8;
            }
            _ => panic!("no change: {change}"),
        }
    }
    lent.store.resize(store_len, 0);
    Library.answer(&Call::Check, &mut lent).to_string()
}

/// The command call's answer on network K with a version.
fn answer_on_k(version: u8, command: &str) -> String {
    let mut lent = Lent::just(&k());
    lent.store[4] = version;
    let given = record(&bytes(command)).to_vec();
    Library.answer(&Call::Command(given), &mut lent).to_string()
}

/// The route call's answer on network K, and the route.
fn route_in_k(start: &str, end: &str) -> [String; 2] {
    let [start, end] = [start, end].map(|state| state.parse().unwrap());
    let mut lent = Lent::just(&k());
    let answer = Library.answer(&Call::Route { start, end }, &mut lent);
    let written = &lent.list[..answer.count().unwrap_or(0)];
    let states: Vec<String> = written.iter().map(u16::to_string).collect();
    [answer.to_string(), states.join(", ")]
}

#[test]
fn the_records_of_network_k() {
    assert_eq!(listing(&document()), k());
}

/// The record that a table takes apart: the first byte of a line's part, and what it has.
fn taken_apart(document: &str, heading: &str) -> Record {
    let mut taken = [0; 24];
    for part in table(document, heading) {
        let first: usize = part[0].split([' ', ',']).next().unwrap().parse().unwrap();
        let has = bytes(&part[1].replace('`', ""));
        taken[first..first + has.len()].copy_from_slice(&has);
    }
    taken
}

#[test]
fn a_rule_byte_by_byte() {
    assert_eq!(taken_apart(&document(), "byte"), k()[4]);
}

/// Whether a state of a network steps to another: a route of two states leads there.
fn is_step(records: &[Record], start: usize, end: usize) -> bool {
    let answer = Library.answer(&Call::Route { start, end }, &mut Lent::just(records));
    answer == Answer::Found { count: 2 }
}

/// The states that state 2 of a network like K steps to.
fn steps_of_2(records: &[Record]) -> Vec<usize> {
    (0..32).filter(|to| is_step(records, 2, *to)).collect()
}

/// The steps of state 2 with the groups that the document puts behind K.
#[test]
fn a_step_through_groups() {
    let document = document();
    let group = taken_apart(&document, "byte of the group");
    let lower = document.split('`').find(|code| code.starts_with("09 00 00 ")).unwrap();
    let mut records = k();
    records[4][9..12].copy_from_slice(&[4, 3, 0]);
    records.extend([record(&bytes(lower)), group]);
    assert_eq!(steps_of_2(&records), [20, 23]);
}

/// The steps of state 2 with the document's rule C behind K's rules, by the priority of rule C.
#[test]
fn a_step_by_rules_of_equal_priority() {
    let document = document();
    let line = document.lines().find(|line| line.starts_with("    04 00 0A 00 00 ")).unwrap();
    let rule = record(&bytes(line.trim().split("   ").next().unwrap()));
    for (priority, steps) in [(10, vec![20, 23]), (11, vec![23]), (9, vec![20])] {
        let mut records = k();
        records.insert(6, rule);
        records[6][2] = priority;
        assert_eq!(steps_of_2(&records), steps, "{priority}");
    }
}

/// A state of network K in bits, part by part, and in words.
fn described(state: State) -> [String; 2] {
    let State { direction, point: Point { switch, port }, header } = state;
    let (bit, word) = match direction {
        Direction::Arriving => (0, "arriving"),
        Direction::Departing => (1, "departing"),
    };
    [
        format!("`{bit} {switch} {port:02b} {header}`"),
        format!("{word}, switch {switch}, port {port}, header {header}"),
    ]
}

/// The headers of h bits with which a frame departs at port 1 of a network with one switch, if it
/// arrived there with this header.
fn departing(h: u8, records: &[Record], header: usize) -> Vec<usize> {
    let [arrival, departure] = [1 << h, 5 << h];
    (0..1 << h).filter(|to| is_step(records, arrival + header, departure + to)).collect()
}

/// The headers of h bits that a pattern matches.
fn matched(h: u8, value: u8, care: u8) -> Vec<usize> {
    let returning = rule(0, 1, [1, 3], [value, care], &[IN_PORT]);
    let records = [widths(h, 2, 0), miss(0, &[output(0, 3)]), returning];
    (0..1 << h).filter(|header| departing(h, &records, *header) == [*header]).collect()
}

#[test]
fn the_cases_of_a_bit() {
    let document = document();
    let cases = table(&document, "bit of care");
    assert_eq!(cases.len(), 3, "{cases:?}");
    for case in cases {
        let [care, value] = [case[0], case[1]].map(|bit| bit.parse().unwrap());
        let matches =
            if case[3] == "0 and 1" { vec![0, 1] } else { vec![case[3].parse().unwrap()] };
        assert_eq!(matched(1, value, care), matches, "{case:?}");
        let records = [widths(1, 2, 0), miss(0, &[set(value, care), IN_PORT])];
        for bit in [0, 1] {
            let made = if case[4] == "what it was" { bit } else { case[4].parse().unwrap() };
            assert_eq!(departing(1, &records, bit), [made], "{case:?}");
        }
    }
}

#[test]
fn the_patterns_of_two_bits() {
    let document = document();
    let patterns = table(&document, "pattern");
    assert_eq!(patterns.len(), 4, "{patterns:?}");
    for pattern in patterns {
        let [value, care] = [pattern[1], pattern[2]].map(|byte| byte.parse().unwrap());
        let matches: Vec<usize> = pattern[3].split(", ").map(|x| x.parse().unwrap()).collect();
        assert_eq!(matched(2, value, care), matches, "{pattern:?}");
    }
}

#[test]
fn the_states_of_network_k() {
    let document = document();
    let states = table(&document, "state");
    assert_eq!(states.len(), 5, "{states:?}");
    let widths = Widths::within_limits(1, 2, 1).unwrap();
    for state in states {
        let numbered = State::numbered(state[0].parse().unwrap(), widths);
        assert_eq!(described(numbered), [state[1], state[2]]);
    }
}

#[test]
fn the_changed_networks() {
    let document = document();
    let examples = table(&document, "changed");
    assert!(examples.len() > 30, "{examples:?}");
    for example in examples {
        let changes = example[0].trim_matches('`');
        assert_eq!(answer_to(changes), example[1], "{changes}");
    }
}

/// K as it is listed has version 0, which reads as 4.
#[test]
fn the_commands() {
    let document = document();
    let examples = table(&document, "command, bytes 0 to 14");
    assert!(examples.len() >= 10, "{examples:?}");
    for example in examples {
        let command = example[0].trim_matches('`');
        for version in [0, 4] {
            assert_eq!(answer_on_k(version, command), example[1], "{command}");
        }
    }
}

#[test]
fn the_commands_in_version_1() {
    let document = document();
    let examples = table(&document, "command in version 1, bytes 0 to 14");
    assert_eq!(examples.len(), 6, "{examples:?}");
    for example in examples {
        let command = example[0].trim_matches('`');
        assert_eq!(answer_on_k(1, command), example[1], "{command}");
    }
}

#[test]
fn the_routes() {
    let document = document();
    let examples = table(&document, "start");
    assert_eq!(examples.len(), 8, "{examples:?}");
    for example in examples {
        let [start, end, answer, route] = example[..] else { panic!("{example:?}") };
        assert_eq!(route_in_k(start, end), [answer, route], "{start} to {end}");
    }
}

#[test]
fn the_sizes_of_work() {
    let document = document();
    let sizes = table(&document, "N");
    assert_eq!(sizes.len(), 7, "{sizes:?}");
    for size in sizes {
        let number = |cell: &str| cell.replace(',', "").parse::<usize>().unwrap();
        let [bits, plane, fourteen, most] = [0, 1, 2, 3].map(|column| number(size[column]));
        assert_eq!(plane, 1 << (2 * bits) >> 3, "N {bits}");
        assert_eq!([fourteen, most], [16 * plane, 34 * plane], "N {bits}");
    }
}
