//! Every pattern of a width, read as text.
//!
//! A pattern is a string of 0, 1 and star, the highest bit first; a port or a header is one of 0
//! and 1 alone. What a pattern matches, and what SET makes of a header, is read off character by
//! character, as in the standard's tables. Strings become numbers in records and states only.

use super::{holds, lend, same, violated, Case};
use crate::formulas::{and, bit, external, not, or, policy, r, some, Node, X, Y};
use crate::gate::{Answer, Call, Gate};
use crate::networks::{work_needed, Widths};
use crate::records::{
    group, miss, output, rule, run, set, to_port, widths, Action, Bucket, Pattern, Record, ANY,
    IN_PORT,
};

/// Where frames arrive in cases of headers, with port width 2.
const PORT: &str = "01";
/// Another port of that width, to which buckets send.
const OTHER_PORT: &str = "10";
/// The header of frames in cases of ports, with header width 1.
const HEADER: &str = "1";

/// A network without links, and pairs of its states.
#[derive(Clone, Debug)]
pub struct StepCase {
    pub name: String,
    pub records: Vec<Record>,
    pub pairs: Vec<Pair>,
}

/// Two states, and whether the first steps to the second.
#[derive(Clone, Copy, Debug)]
pub struct Pair {
    pub from: usize,
    pub to: usize,
    pub is_step: bool,
}

impl StepCase {
    /// Runs the case; an error tells what is wrong. No departing state has a step, so that every
    /// route is one step.
    pub fn run(&self, gate: &dyn Gate) -> Result<(), String> {
        let mut lent = lend(&self.records, work_needed(&self.records));
        lent.list = vec![0; (1 << Widths::of(&self.records[0]).bits()) + 1];
        for Pair { from, to, is_step } in self.pairs.iter().copied() {
            let name = format!("{}: {from} to {to}", self.name);
            let answer = gate.answer(&Call::Route { start: from, end: to }, &mut lent);
            if is_step {
                same(&name, "answer", &answer, &Answer::Found { count: 2 })?;
                same(&name, "route", &[lent.list[0], lent.list[1]], &[from as u16, to as u16])?;
            } else {
                same(&name, "answer", &answer, &Answer::NoRoute)?;
            }
        }
        Ok(())
    }
}

/// The header patterns of rules, at every header.
pub fn headers(h: u8) -> Vec<StepCase> {
    let case = |pattern: String| {
        let mut pairs = vec![];
        for header in numbers(h) {
            let [from, to] = [arriving(PORT, &header), departing(PORT, &header)];
            pairs.push(Pair { from, to, is_step: matches(&pattern, &header) });
        }
        let records = returning(h, 2, PORT, &pattern);
        StepCase { name: format!("rule for header {pattern}"), records, pairs }
    };
    patterns(h).into_iter().map(case).collect()
}

/// The port patterns of rules, at every arrival port. The drop port has no step.
pub fn ports(p: u8) -> Vec<StepCase> {
    let case = |pattern: String| {
        let mut pairs = vec![];
        for port in numbers(p) {
            let [from, to] = [arriving(&port, HEADER), departing(&port, HEADER)];
            pairs.push(Pair { from, to, is_step: !is_drop(&port) && matches(&pattern, &port) });
        }
        let records = returning(1, p, &pattern, HEADER);
        StepCase { name: format!("rule for port {pattern}"), records, pairs }
    };
    patterns(p).into_iter().map(case).collect()
}

/// The patterns of OUTPUT, from every arrival port to every port.
pub fn outputs(p: u8) -> Vec<StepCase> {
    let case = |pattern: String| {
        let mut pairs = vec![];
        for arrival in numbers(p) {
            for port in numbers(p) {
                let [from, to] = [arriving(&arrival, HEADER), departing(&port, HEADER)];
                pairs.push(Pair { from, to, is_step: is_sent(&pattern, &arrival, &port) });
            }
        }
        let records = one_switch(1, p, &[output_to(&pattern)]);
        StepCase { name: format!("OUTPUT {pattern}"), records, pairs }
    };
    patterns(p).into_iter().map(case).collect()
}

/// The patterns of SET, at every header: to the header that it must become, and to those that
/// differ from that one in at most so many digits.
pub fn sets(h: u8, digits: usize) -> Vec<StepCase> {
    let case = |pattern: String| StepCase {
        name: format!("SET {pattern}"),
        records: setting(&pattern),
        pairs: set_pairs(&pattern, PORT, digits),
    };
    patterns(h).into_iter().map(case).collect()
}

/// The header patterns of buckets, likewise.
pub fn bucket_sets(h: u8, digits: usize) -> Vec<StepCase> {
    let case = |pattern: String| StepCase {
        name: format!("bucket with header {pattern}"),
        records: with_bucket(h, 2, to_port(bytes(&pattern), binary(OTHER_PORT) as u8)),
        pairs: set_pairs(&pattern, OTHER_PORT, digits),
    };
    patterns(h).into_iter().map(case).collect()
}

/// The ports of buckets, from every arrival port to every port.
pub fn bucket_ports(p: u8) -> Vec<StepCase> {
    let case = |target: String| {
        let mut pairs = vec![];
        for arrival in numbers(p) {
            for port in numbers(p) {
                let [from, to] = [arriving(&arrival, HEADER), departing(&port, HEADER)];
                let is_step = port == target && port != arrival && !is_drop(&arrival);
                pairs.push(Pair { from, to, is_step });
            }
        }
        let records = with_bucket(1, p, to_port(ANY, binary(&target) as u8));
        StepCase { name: format!("bucket to port {target}"), records, pairs }
    };
    numbers(p).into_iter().map(case).collect()
}

/// From every header to the one that a pattern makes of it at a port, and to those near it.
fn set_pairs(pattern: &str, port: &str, digits: usize) -> Vec<Pair> {
    let headers = numbers(pattern.len() as u8);
    let mut pairs = vec![];
    for header in &headers {
        let set = put(pattern, header);
        for other in headers.iter().filter(|other| differing(&set, other) <= digits) {
            let [from, to] = [arriving(PORT, header), departing(port, other)];
            pairs.push(Pair { from, to, is_step: *other == set });
        }
    }
    pairs
}

/// The patterns of SET, at all headers in one call.
pub fn sets_at_once(h: u8) -> impl Iterator<Item = Case> {
    patterns(h).into_iter().map(|pattern| set_judged(&pattern, &pattern))
}

/// The patterns of SET, each judged as if it were each of them.
pub fn sets_mistaken(h: u8) -> Vec<Case> {
    let mut cases = vec![];
    for pattern in patterns(h) {
        cases.extend(patterns(h).iter().map(|judged| set_judged(&pattern, judged)));
    }
    cases
}

/// SET by a pattern, judged as SET by another: for each character a policy forbids that a frame is
/// sent on with another bit, and a last one that it is not sent on.
fn set_judged(pattern: &str, judged: &str) -> Case {
    let h = judged.len() as u8;
    let mut records = setting(pattern);
    for (number, character) in (0..h).zip(judged.chars()) {
        records.extend(policy(number, &sent_otherwise(character, h - 1 - number)));
    }
    records.extend(policy(h, &not_sent(h + 2)));
    let (name, zeroed) = (format!("SET {pattern} as SET {judged}"), work_needed(&records));
    match first_difference(pattern, judged) {
        None => holds(&name, &records, zeroed),
        Some((place, header)) => violated(&name, &records, place, arriving(PORT, &header), zeroed),
    }
}

/// The first place at which two patterns of SET give different digits, and the first header there.
fn first_difference(one: &str, other: &str) -> Option<(usize, String)> {
    let headers = numbers(one.len() as u8);
    let header_at = |place: usize| {
        let digit = |pattern: &str, header: &str| put(pattern, header).chars().nth(place);
        let header = headers.iter().find(|header| digit(one, header) != digit(other, header))?;
        Some((place, header.clone()))
    };
    (0..one.len()).find_map(header_at)
}

/// X is sent on with another bit than a character of SET gives it.
fn sent_otherwise(character: char, place: u8) -> Vec<Node> {
    match character {
        '0' => vec![r(X, Y), bit(Y, place), and(0, 1), some(2, Y)],
        '1' => vec![r(X, Y), bit(Y, place), not(1), and(0, 2), some(3, Y)],
        _ => vec![
            r(X, Y),
            bit(X, place),
            bit(Y, place),
            or(1, 2),
            and(1, 2),
            not(4),
            and(3, 5),
            and(0, 6),
            some(7, Y),
        ],
    }
}

/// X arrives from outside and is not sent on.
pub fn not_sent(direction: u8) -> Vec<Node> {
    vec![external(X), bit(X, direction), not(1), and(0, 2), r(X, Y), some(4, Y), not(5), and(3, 6)]
}

/// One switch whose rule sends back what it matches, and whose miss record drops the rest.
fn returning(h: u8, p: u8, port: &str, header: &str) -> Vec<Record> {
    let drop = output_to(&"0".repeat(p.into()));
    let rule = rule(0, 1, bytes(port), bytes(header), &[IN_PORT]);
    [one_switch(h, p, &[drop]), vec![rule]].concat()
}

/// One switch that sends everything back with its header set.
fn setting(pattern: &str) -> Vec<Record> {
    let [value, care] = bytes(pattern);
    one_switch(pattern.len() as u8, 2, &[set(value, care), IN_PORT])
}

/// One switch that runs a group of one bucket.
fn with_bucket(h: u8, p: u8, bucket: Bucket) -> Vec<Record> {
    [one_switch(h, p, &[run(0)]), vec![group(0, 0, &[bucket])]].concat()
}

/// One switch with a miss record and no rule.
fn one_switch(h: u8, p: u8, missed: &[Action]) -> Vec<Record> {
    vec![widths(h, p, 0), miss(0, missed)]
}

fn output_to(pattern: &str) -> Action {
    let [value, care] = bytes(pattern);
    output(value, care)
}

fn arriving(port: &str, header: &str) -> usize {
    binary(&["0", port, header].concat())
}

fn departing(port: &str, header: &str) -> usize {
    binary(&["1", port, header].concat())
}

/// Every pattern of a width.
fn patterns(width: u8) -> Vec<String> {
    strings("01*", width)
}

/// Every number of a width.
fn numbers(width: u8) -> Vec<String> {
    strings("01", width)
}

/// Every string of so many of these characters.
fn strings(characters: &str, length: u8) -> Vec<String> {
    let mut found = vec![String::new()];
    for _ in 0..length {
        let longer = |start: String| characters.chars().map(move |next| format!("{start}{next}"));
        found = found.into_iter().flat_map(longer).collect();
    }
    found
}

/// Whether each character of a pattern is a star or the number's.
fn matches(pattern: &str, number: &str) -> bool {
    pattern.chars().zip(number.chars()).all(|(fixed, digit)| fixed == '*' || fixed == digit)
}

/// A header with its own digits where the pattern has stars, and the pattern's elsewhere.
fn put(pattern: &str, header: &str) -> String {
    let digits = pattern.chars().zip(header.chars());
    digits.map(|(fixed, digit)| if fixed == '*' { digit } else { fixed }).collect()
}

/// Whether OUTPUT sends from a port to a port: from drop nothing, with stars to ordinary ports
/// only, and never to the port of arrival.
fn is_sent(pattern: &str, arrival: &str, port: &str) -> bool {
    let named = matches(pattern, port) && (!pattern.contains('*') || is_ordinary(port));
    named && !is_drop(arrival) && port != arrival
}

fn is_drop(port: &str) -> bool {
    !port.contains('1')
}

/// Neither drop, which has no 1, nor controller, which has no 0.
fn is_ordinary(port: &str) -> bool {
    port.contains('0') && port.contains('1')
}

/// How many digits differ.
fn differing(one: &str, other: &str) -> usize {
    one.chars().zip(other.chars()).filter(|(one, other)| one != other).count()
}

/// Value, with 0 for stars, and care, with 0 for stars and 1 for the other characters.
fn bytes(pattern: &str) -> Pattern {
    let value = pattern.replace('*', "0");
    let care = pattern.replace('0', "1").replace('*', "0");
    [binary(&value) as u8, binary(&care) as u8]
}

/// The number that binary digits write.
fn binary(digits: &str) -> usize {
    usize::from_str_radix(digits, 2).expect("binary digits")
}
