//! Random sound networks of every width and version, and the largest one.

use crate::formulas::{
    policy, random_formula, random_guard, random_layers, random_probe, random_sentence, Node, GUARD,
};
use crate::random::Random;
use crate::records::{
    group, groups_at, in_version, link, miss, output, rule, run, same_rule, set, to_group, to_port,
    widths, Action, Bucket, Pattern, Record, ANY, IN_PORT,
};
use std::collections::BTreeSet;

/// Header, port and switch widths.
#[derive(Clone, Copy, Debug, PartialEq, Eq)]
pub struct Widths {
    pub h: u8,
    pub p: u8,
    pub w: u8,
}

impl Widths {
    /// The widths in a widths record.
    pub fn of(record: &Record) -> Widths {
        let [_, h, p, w, ..] = *record;
        Widths { h, p, w }
    }

    pub fn bits(self) -> u8 {
        1 + self.h + self.p + self.w
    }
}

/// Every combination of widths within the limits.
pub fn all_widths() -> Vec<Widths> {
    let mut found = vec![];
    for h in 1..=6 {
        for p in 2..=4 {
            for w in 0..=4 {
                let widths = Widths { h, p, w };
                if widths.bits() <= 10 {
                    found.push(widths);
                }
            }
        }
    }
    found
}

/// Bytes of so many planes for N bits.
pub fn planes(count: usize, bits: u8) -> usize {
    count << (2 * bits) >> 3
}

/// The work that a sound network needs.
pub fn work_needed(records: &[Record]) -> usize {
    let mut nodes = [0; 8];
    for node in records.iter().filter(|record| record[0] == 5) {
        nodes[usize::from(node[1])] += 1;
    }
    let longest = nodes.into_iter().max().unwrap_or(0);
    planes(longest + 2, Widths::of(&records[0]).bits())
}

/// The most of each part that a random network has.
#[derive(Clone, Copy, Debug)]
pub struct Sizes {
    pub links: usize,
    pub rules: usize,
    pub policies: usize,
    pub nodes: usize,
    pub groups: usize,
}

/// The most rules of a network.
pub const MOST_RULES: usize = 256;
/// The most groups of a network.
pub const MOST_GROUPS: usize = 16;

/// Sizes for networks that are judged quickly.
pub const MODEST: Sizes = Sizes { links: 6, rules: 12, policies: 3, nodes: 20, groups: 6 };

/// Gives a network one of the versions, one time in two 1.0.
fn put_random_version(random: &mut Random, records: &mut [Record]) {
    let new = random.pick(&[0, 4]);
    records[0][4] = random.pick(&[1, new]);
}

/// A random network that no row refuses.
pub fn random_network(random: &mut Random, of: Widths, most: Sizes) -> Vec<Record> {
    let links = random.up_to(most.links.min(most_links(of)));
    let rules = random.up_to(most.rules);
    let groups = random.up_to(most.groups);
    let groups = random_groups(random, of, groups);
    let mut records = before_policies(random, of, links, rules, &groups);
    for number in 0..random.up_to(most.policies) {
        let formula = random_policy(random, of, most.nodes);
        records.extend(policy(number as u8, &formula));
    }
    records.extend(groups);
    put_random_version(random, &mut records);
    records
}

/// A network with a few rules that drops most of what they miss, and with one or two guards: it often
/// holds, and a command often breaks it.
pub fn guarded_network(random: &mut Random, of: Widths) -> Vec<Record> {
    let mut records = vec![widths(of.h, of.p, of.w)];
    let links = random.up_to(most_links(of) / 2);
    records.extend(random_links(random, of, links));
    let drop = [output(0, (1 << of.p) - 1)];
    let groups = random.pick(&[0, 0, 2, 4]);
    let groups = random_groups(random, of, groups);
    for missed in random_misses(random, of, &groups) {
        let dropping = miss(missed[1], &drop);
        records.push(random.pick(&[missed, dropping, dropping, dropping]));
    }
    let rules = random.up_to(4);
    records.extend(random_rules(random, of, rules, &groups));
    for number in 0..1 + random.bits(1) {
        records.extend(policy(number, &random_guard(random, of.bits())));
    }
    records.extend(groups);
    put_random_version(random, &mut records);
    records
}

/// A guarded network whose table is full, or has room for one or two rules. It is filled with rules
/// for what arrives at port 0, which never act.
pub fn full_network(random: &mut Random, of: Widths) -> Vec<Record> {
    let mut records = guarded_network(random, of);
    let behind = records.iter().filter(|record| record[0] <= 4).count();
    let rules = records.iter().filter(|record| record[0] == 4).count();
    let mut missing = MOST_RULES - rules - random.below(3);
    while missing > 0 {
        let mut idle = random_rule(random, of, &records);
        idle[4..6].copy_from_slice(&[0, (1 << of.p) - 1]);
        if is_new(&idle, &records) {
            records.insert(behind, idle);
            missing -= 1;
        }
    }
    records
}

/// One switch of a version that drops everything, with the most rules, of priorities 0 to 255.
pub fn full_switch(version: u8) -> Vec<Record> {
    let drop = [output(0, 3)];
    let mut records = in_version(&[widths(1, 2, 0), miss(0, &drop)], version);
    records.extend((0..256).map(|priority| rule(0, priority, ANY, ANY, &drop)));
    records
}

/// The largest network: every ordinary point linked, and the most rules, policies, nodes and groups.
pub fn largest(random: &mut Random) -> Vec<Record> {
    let policies = most_policies(random, 10);
    let groups = random_groups(random, LARGEST, MOST_GROUPS);
    let mut records = largest_with(random, &policies, &groups);
    put_random_version(random, &mut records);
    records
}

/// The 657 records of a largest network with these policies and groups.
pub fn largest_with(random: &mut Random, policies: &[Record], groups: &[Record]) -> Vec<Record> {
    let records = before_policies(random, LARGEST, 112, MOST_RULES, groups);
    [&records, policies, groups].concat()
}

/// The 385 records of a largest network before its policies, if it has no group.
pub fn largest_without_policies(random: &mut Random) -> Vec<Record> {
    before_policies(random, LARGEST, 112, MOST_RULES, &[])
}

/// A network without policies and groups, with so many rules and with one in seven points not linked,
/// whose SETs change no bit.
pub fn scattered(random: &mut Random, of: Widths, rules: usize) -> Vec<Record> {
    let mut records = before_policies(random, of, most_links(of) * 6 / 7, rules, &[]);
    for record in records.iter_mut().filter(|record| record[0] > 2) {
        for action in record[9..21].chunks_exact_mut(3).filter(|action| action[0] == 2) {
            action.copy_from_slice(&set(0, 0));
        }
    }
    records
}

/// The widths of a largest network.
pub const LARGEST: Widths = Widths { h: 1, p: 4, w: 4 };

/// A network of any widths with the most rules, policies, nodes and groups.
pub fn crowded(random: &mut Random, of: Widths) -> Vec<Record> {
    let groups = random_groups(random, of, MOST_GROUPS);
    let mut records = before_policies(random, of, 0, MOST_RULES, &groups);
    records.extend(most_policies(random, of.bits()));
    records.extend(groups);
    put_random_version(random, &mut records);
    records
}

/// The records before the policies of a random network with so many links and rules.
fn before_policies(
    random: &mut Random,
    of: Widths,
    links: usize,
    rules: usize,
    groups: &[Record],
) -> Vec<Record> {
    let mut records = vec![widths(of.h, of.p, of.w)];
    records.extend(random_links(random, of, links));
    records.extend(random_misses(random, of, groups));
    records.extend(random_rules(random, of, rules, groups));
    records
}

/// Eight policies of 32 nodes.
fn most_policies(random: &mut Random, bits: u8) -> Vec<Record> {
    (0..8).flat_map(|number| policy(number, &random_formula(random, bits, 32))).collect()
}

/// How many pairs of ordinary points there are.
fn most_links(of: Widths) -> usize {
    ((1 << of.p) - 2) << of.w >> 1
}

/// Links between so many pairs of distinct ordinary points.
fn random_links(random: &mut Random, of: Widths, count: usize) -> Vec<Record> {
    let mut points = vec![];
    for switch in 0..1 << of.w {
        for port in 1..(1 << of.p) - 1 {
            points.push((switch, port));
        }
    }
    random.shuffle(&mut points);
    let pairs = points.chunks(2).take(count);
    pairs.map(|pair| link(pair[0].0, pair[0].1, pair[1].0, pair[1].1)).collect()
}

fn random_misses(random: &mut Random, of: Widths, groups: &[Record]) -> Vec<Record> {
    let missed = |switch: u8| {
        let groups = groups_at(groups, switch);
        miss(switch, &random_actions(random, of, ANY, &groups))
    };
    (0..1 << of.w).map(missed).collect()
}

fn random_rules(random: &mut Random, of: Widths, count: usize, groups: &[Record]) -> Vec<Record> {
    let mut records = groups.to_vec();
    for _ in 0..count {
        records.push(random_new_rule(random, of, &records));
    }
    records.split_off(groups.len())
}

/// A rule that is not the same as any of the records, and runs groups of theirs only.
pub fn random_new_rule(random: &mut Random, of: Widths, records: &[Record]) -> Record {
    loop {
        let rule = random_rule(random, of, records);
        if is_new(&rule, records) {
            return rule;
        }
    }
}

/// Whether none of the records is the same rule.
fn is_new(rule: &Record, records: &[Record]) -> bool {
    !records.iter().any(|other| other[0] == 4 && same_rule(rule, other))
}

/// A rule that runs groups of the records only: any one, or one beside a rule of theirs.
pub fn random_rule(random: &mut Random, of: Widths, records: &[Record]) -> Record {
    let rules: Vec<Record> = records.iter().copied().filter(|record| record[0] == 4).collect();
    let (switch, priority, port, header) = match rules.is_empty() || random.one_in(2) {
        true => random_match(random, of),
        false => {
            let beside = random.pick(&rules);
            random_match_beside(random, of, &beside)
        }
    };
    let groups = groups_at(records, switch);
    rule(switch, priority, port, header, &random_actions(random, of, port, &groups))
}

/// Switch, priority, port pattern and header pattern.
type Match = (u8, u16, Pattern, Pattern);

fn random_match(random: &mut Random, of: Widths) -> Match {
    let any = random.word() as u16;
    let priority = random.pick(&[0, 1, 1, 2, 0x00FF, 0x0100, 0xFFFF, any]);
    let port = random_pattern(random, of.p);
    (random.bits(of.w), priority, port, random_pattern(random, of.h))
}

/// A match that overlaps with a rule's: mostly of the same switch and priority, now and then of any
/// switch or of another priority.
fn random_match_beside(random: &mut Random, of: Widths, rule: &Record) -> Match {
    let [_, switch, low, high, port, port_care, header, header_care, ..] = *rule;
    let priority = u16::from_le_bytes([low, high]);
    let any_switch = random.bits(of.w);
    let switch = if random.one_in(8) { any_switch } else { switch };
    let [lower, higher] = [priority.saturating_sub(1), priority.saturating_add(1)];
    let other = random.pick(&[lower, higher, higher]);
    let priority = if random.one_in(4) { other } else { priority };
    let port = overlapping_pattern(random, of.p, [port, port_care]);
    (switch, priority, port, overlapping_pattern(random, of.h, [header, header_care]))
}

/// A pattern that matches something that another one does: it may be that one, or have stars for some
/// of its bits, or fix some of its stars, or both.
fn overlapping_pattern(random: &mut Random, width: u8, [value, care]: Pattern) -> Pattern {
    let some = random.bits(width);
    let its = random.pick(&[care, care & some, care | some, some]);
    let matched = value | random.bits(width) & !care;
    [matched & its, its]
}

/// So many groups, at one switch or at any.
pub fn random_groups(random: &mut Random, of: Widths, count: usize) -> Vec<Record> {
    let one = random.bits(of.w);
    let mut names: BTreeSet<(u8, u8)> = BTreeSet::new();
    while names.len() < count {
        let any = random.bits(of.w);
        names.insert((random.pick(&[one, one, any]), random.bits(4)));
    }
    let mut groups = vec![];
    for (switch, number) in names {
        groups.push(random_group(random, of, switch, number, &groups));
    }
    groups
}

/// Sixteen groups at a switch: each has three buckets on to the next lower one, of which two set a bit
/// of the header. There are 3^15 ways from the highest to the lowest, which sends to ports 0, 1 and 2.
pub fn nested_groups(of: Widths, switch: u8) -> Vec<Record> {
    let onward = |number: u8| {
        let (bit, lower) = (1 << (number % of.h), number - 1);
        let headers = [[0, bit], [bit, bit], ANY];
        group(switch, number, &headers.map(|header| to_group(header, lower)))
    };
    let lowest = group(switch, 0, &[0, 1, 2].map(|port| to_port(ANY, port)));
    [lowest].into_iter().chain((1..16).map(onward)).collect()
}

/// A group whose buckets may go on to lower ones of its switch among these.
pub fn random_group(
    random: &mut Random,
    of: Widths,
    switch: u8,
    number: u8,
    others: &[Record],
) -> Record {
    let mut lower = groups_at(others, switch);
    lower.retain(|other| *other < number);
    let buckets: Vec<Bucket> =
        (0..1 + random.below(3)).map(|_| random_bucket(random, of, &lower)).collect();
    group(switch, number, &buckets)
}

/// A bucket to any port or on to one of these groups.
fn random_bucket(random: &mut Random, of: Widths, groups: &[u8]) -> Bucket {
    let header = random_pattern(random, of.h);
    match groups.is_empty() || random.one_in(2) {
        true => to_port(header, random.bits(of.p)),
        false => to_group(header, random.pick(groups)),
    }
}

/// A pattern with random stars, now and then with none or with stars only.
fn random_pattern(random: &mut Random, width: u8) -> Pattern {
    let full = (1 << width) - 1;
    let some = random.bits(width);
    let care = random.pick(&[0, full, some]);
    [random.bits(width) & care, care]
}

/// One to four actions for what arrives at ports of a pattern, the last not SET; some run one of these
/// groups.
pub fn random_actions(
    random: &mut Random,
    of: Widths,
    arrival: Pattern,
    groups: &[u8],
) -> Vec<Action> {
    let earlier = random.pick(&[0, 0, 1, 2, 2, 3]);
    let mut actions: Vec<Action> = vec![];
    for _ in 0..earlier {
        actions.push(match random.one_in(2) {
            true => random_sending(random, of, arrival, groups),
            false => random_set(random, of),
        });
    }
    actions.push(random_sending(random, of, arrival, groups));
    actions
}

/// A group, IN_PORT, or OUTPUT by any pattern, by that of the arrival ports or to one of them.
fn random_sending(random: &mut Random, of: Widths, arrival: Pattern, groups: &[u8]) -> Action {
    if !groups.is_empty() && random.one_in(3) {
        return run(random.pick(groups));
    }
    let any = random_pattern(random, of.p);
    let [value, care] = arrival;
    let one = [value | random.bits(of.p) & !care, (1 << of.p) - 1];
    let [value, care] = random.pick(&[any, any, any, arrival, one]);
    match random.one_in(4) {
        true => IN_PORT,
        false => output(value, care),
    }
}

fn random_set(random: &mut Random, of: Widths) -> Action {
    let [value, care] = random_pattern(random, of.h);
    set(value, care)
}

/// A policy of at most so many nodes: a guard or a probe of paths, layers over a step, or any formula,
/// closed or not.
fn random_policy(random: &mut Random, of: Widths, most: usize) -> Vec<Node> {
    let length = 1 + random.below(most);
    match random.below(5) {
        0 if most >= GUARD => random_guard(random, of.bits()),
        1 if most >= GUARD => random_probe(random, of.bits()),
        2 if most >= GUARD => random_layers(random, of.bits()),
        3 if length >= 3 => random_sentence(random, of.bits(), length),
        _ => random_formula(random, of.bits(), length),
    }
}
