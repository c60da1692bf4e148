//! Row 16: the fields of groups, their order and number, and the groups that are run.

use super::commands::{blocked, forwarded, refused as refused_command};
use super::starred::{k_with_rules, K_WORK};
use super::{bare, holds, refused, Case, BARE_WORK};
use crate::k::k;
use crate::networks::planes;
use crate::records::{
    add, delete, group, miss, modify, output, rule, run, set, to_group, to_port, widths, with,
    Action, Bucket, Record, ANY,
};

/// A bucket with which nothing is wrong.
const TO_PORT_1: Bucket = [0, 0, 1, 1];
const DROP: Action = [1, 0, 3];

pub fn cases() -> Vec<Case> {
    [
        fields(),
        bucket_counts(),
        headers(),
        targets(),
        unused_buckets(),
        other_widths(),
        lower_groups(),
        orders(),
        group_counts(),
        groups_run(),
        present_groups(),
        rows_before(),
    ]
    .concat()
}

pub fn commands() -> Vec<Case> {
    [changes(), absent_groups(), verdicts(), command_rows(), full_tables()].concat()
}

/// A group with one sound bucket.
fn plain(switch: u8, number: u8) -> Record {
    group(switch, number, &[TO_PORT_1])
}

/// K's first six records, then groups; the first is record 6. There are two switches with ports 0 to
/// 3, and headers 0 and 1.
fn with_groups(groups: &[Record]) -> Vec<Record> {
    [&bare(), groups].concat()
}

fn sound(name: &str, groups: &[Record]) -> Case {
    holds(name, &with_groups(groups), BARE_WORK)
}

fn faulty(name: &str, groups: &[Record], place: usize) -> Case {
    refused(name, &with_groups(groups), 16, place)
}

/// Switch, number and the bytes that a group does not use.
fn fields() -> Vec<Case> {
    let mut cases = vec![];
    for switch in [0, 1] {
        cases.push(sound(&format!("group of switch {switch}"), &[plain(switch, 3)]));
    }
    for switch in [2, 3, 16, 128, 255] {
        cases.push(faulty(&format!("group of switch {switch}"), &[plain(switch, 3)], 6));
    }
    for number in 0..16 {
        cases.push(sound(&format!("group {number}"), &[plain(0, number)]));
    }
    for number in [16, 17, 32, 128, 255] {
        cases.push(faulty(&format!("group {number}"), &[plain(0, number)], 6));
    }
    for byte in (3..8).chain(21..24) {
        for value in [1, 128] {
            let name = format!("group, byte {byte} is {value}");
            cases.push(faulty(&name, &[with(plain(0, 3), byte, value)], 6));
        }
    }
    cases
}

/// One to three buckets, as many as the count says.
fn bucket_counts() -> Vec<Case> {
    let counted = |buckets: usize, count: u8| {
        let name = format!("{buckets} buckets, count {count}");
        (name, with(group(0, 3, &vec![TO_PORT_1; buckets]), 8, count))
    };
    let mut cases = vec![];
    for buckets in 0..=3 {
        for count in [0, 1, 2, 3, 4, 5, 128, 255] {
            let (name, record) = counted(buckets, count);
            cases.push(match buckets == usize::from(count) && count != 0 {
                true => sound(&name, &[record]),
                false => faulty(&name, &[record], 6),
            });
        }
    }
    cases
}

/// Header value and care of each bucket.
fn headers() -> Vec<Case> {
    let mut cases = vec![];
    for bucket in 0..3 {
        for pattern in [[0, 0], [0, 1], [1, 1]] {
            let name = format!("bucket {bucket}, header {pattern:?}");
            cases.push(sound(&name, &[with_bytes(bucket, 0, pattern)]));
        }
        for pattern in [[1, 0], [2, 0], [0, 2], [2, 2], [2, 1], [3, 1], [2, 3], [0, 128], [128, 0]]
        {
            let name = format!("bucket {bucket}, header {pattern:?}");
            cases.push(faulty(&name, &[with_bytes(bucket, 0, pattern)], 6));
        }
    }
    cases
}

/// Kind and number of each bucket's target, where no other group is there.
fn targets() -> Vec<Case> {
    let mut cases = vec![];
    for bucket in 0..3 {
        for port in 0..4 {
            let name = format!("bucket {bucket} to port {port}");
            cases.push(sound(&name, &[with_bytes(bucket, 2, [1, port])]));
        }
        for target in [
            [0, 0],
            [0, 1],
            [1, 4],
            [1, 5],
            [1, 128],
            [1, 255],
            [2, 0],
            [2, 2],
            [2, 3],
            [2, 4],
            [2, 15],
            [2, 16],
            [2, 255],
            [3, 0],
            [3, 1],
            [4, 0],
            [129, 1],
            [255, 1],
        ] {
            let name = format!("bucket {bucket} with target {target:?}");
            cases.push(faulty(&name, &[with_bytes(bucket, 2, target)], 6));
        }
    }
    cases
}

/// Group 3 of switch 0 with three buckets, two bytes of one of them set.
fn with_bytes(bucket: usize, byte: usize, bytes: [u8; 2]) -> Record {
    let mut record = group(0, 3, &[TO_PORT_1; 3]);
    let first = 9 + 4 * bucket + byte;
    record[first..first + 2].copy_from_slice(&bytes);
    record
}

fn unused_buckets() -> Vec<Case> {
    let mut cases = vec![];
    for (used, bytes) in [(1, 13..21), (2, 17..21)] {
        for byte in bytes {
            for value in [1, 128] {
                let name = format!("group of {used} buckets, byte {byte} is {value}");
                let record = with(group(0, 3, &vec![TO_PORT_1; used]), byte, value);
                cases.push(faulty(&name, &[record], 6));
            }
        }
    }
    cases
}

/// The highest switch, header care and port of other widths, and one more.
fn other_widths() -> Vec<Case> {
    let mut cases = vec![];
    for [h, p, w] in [[1, 2, 0], [6, 3, 0], [3, 2, 4], [1, 4, 4], [2, 3, 2]] {
        let misses = (0..1 << w).map(|switch| miss(switch, &[output(0, 0)]));
        let network: Vec<Record> = [widths(h, p, w)].into_iter().chain(misses).collect();
        let mut case = |what: &str, group: Record, is_sound: bool| {
            let name = format!("H {h}, P {p}, W {w}: {what}");
            let records = [&network[..], &[group]].concat();
            cases.push(match is_sound {
                true => holds(&name, &records, planes(2, 1 + h + p + w)),
                false => refused(&name, &records, 16, network.len()),
            });
        };
        let [headers, ports, switches] = [h, p, w].map(|width| 1 << width);
        let set = |care: u8| group(0, 3, &[TO_PORT_1, to_port([care, care], 1)]);
        let to = |port: u8| group(0, 3, &[TO_PORT_1, TO_PORT_1, to_port(ANY, port)]);
        case("last switch", plain(switches - 1, 3), true);
        case("switch beyond", plain(switches, 3), false);
        case("whole header", set(headers - 1), true);
        case("header beyond", set(headers), false);
        case("controller", to(ports - 1), true);
        case("port beyond", to(ports), false);
    }
    cases
}

/// Buckets that go on: to a lower group of the same switch, and to no other.
fn lower_groups() -> Vec<Case> {
    let onward = |switch: u8, number: u8, to: u8| group(switch, number, &[to_group(ANY, to)]);
    let low = plain(0, 2);
    let mut cases = vec![
        sound("bucket to a lower group", &[low, onward(0, 5, 2)]),
        sound("bucket to the next lower group", &[plain(0, 4), onward(0, 5, 4)]),
        sound("bucket to group 0", &[plain(0, 0), onward(0, 15, 0)]),
        sound("bucket to group 14", &[plain(0, 14), onward(0, 15, 14)]),
        sound("bucket on and on", &[low, onward(0, 5, 2), onward(0, 9, 5)]),
        sound("bucket to a lower group at switch 1", &[plain(1, 2), onward(1, 5, 2)]),
        sound("bucket to a lower group of two switches", &[low, plain(1, 2), onward(1, 5, 2)]),
        faulty("bucket to itself", &[onward(0, 5, 5)], 6),
        faulty("group 0 to itself", &[onward(0, 0, 0)], 6),
        faulty("group 15 to itself", &[onward(0, 15, 15)], 6),
        faulty("bucket to a higher group", &[low, onward(0, 5, 7), plain(0, 7)], 7),
        faulty("bucket to the next higher group", &[onward(0, 5, 6), plain(0, 6)], 6),
        faulty("bucket to a lower group of another switch", &[low, onward(1, 5, 2)], 7),
        faulty("bucket to a later switch's group", &[onward(0, 5, 2), plain(1, 2)], 6),
        faulty("bucket to a lower group behind it", &[onward(0, 5, 2), low], 7),
        faulty("bucket to a faulty group", &[with(low, 23, 1), onward(0, 5, 2)], 6),
        faulty("bucket to a faulty group behind it", &[onward(0, 5, 2), with(low, 23, 1)], 7),
    ];
    for absent in [0, 1, 3, 4, 6, 14, 15, 16, 18, 255] {
        let name = format!("bucket to absent group {absent}");
        cases.push(faulty(&name, &[low, onward(0, 5, absent)], 7));
    }
    for bucket in 0..3 {
        let mut buckets = [TO_PORT_1; 3];
        buckets[bucket] = to_group(ANY, 2);
        let name = format!("bucket {bucket} to a lower group");
        cases.push(sound(&name, &[low, group(0, 5, &buckets)]));
        let name = format!("bucket {bucket} to an absent group");
        cases.push(faulty(&name, &[group(0, 5, &buckets)], 6));
    }
    cases
}

/// Ascending by switch, then by number.
fn orders() -> Vec<Case> {
    vec![
        sound("groups ascending", &[plain(0, 0), plain(0, 1), plain(0, 15)]),
        sound("groups of both switches", &[plain(0, 15), plain(1, 0)]),
        sound("same number at both switches", &[plain(0, 7), plain(1, 7)]),
        faulty("a group twice", &[plain(0, 1), plain(0, 1)], 7),
        faulty("other buckets, same group", &[plain(0, 1), group(0, 1, &[TO_PORT_1; 2])], 7),
        faulty("numbers descending", &[plain(0, 2), plain(0, 1)], 7),
        faulty("switches descending", &[plain(1, 2), plain(0, 2)], 7),
        faulty("switches descending, numbers not", &[plain(1, 2), plain(0, 3)], 7),
        faulty("third group not in order", &[plain(0, 1), plain(1, 2), plain(0, 3)], 8),
        faulty("third group as the first", &[plain(0, 1), plain(0, 2), plain(0, 1)], 8),
    ]
}

/// Sixteen groups; a 17th is record 22.
fn group_counts() -> Vec<Case> {
    let sixteen: Vec<Record> = (0..16).map(|number| plain(0, number)).collect();
    let spread: Vec<Record> = (0..16).map(|place| plain(place / 8, 2 * (place % 8))).collect();
    let more = |groups: &[Record], last: &[Record]| [groups, last].concat();
    vec![
        sound("16 groups", &sixteen),
        sound("16 groups of two switches", &spread),
        faulty("17 groups", &more(&sixteen, &[plain(1, 0)]), 22),
        faulty("17 groups of two switches", &more(&spread, &[plain(1, 15)]), 22),
        faulty("18 groups", &more(&sixteen, &[plain(1, 0), plain(1, 1)]), 22),
        faulty("17th group twice", &more(&sixteen, &[plain(0, 15)]), 22),
        refused("16 groups and a node", &[with_groups(&sixteen), vec![k()[6]]].concat(), 3, 22),
    ]
}

/// Places of K's misses and rules, with their switches.
const ACTING: [(usize, u8); 4] = [(2, 0), (3, 1), (4, 0), (5, 1)];

/// K's first six records with other actions in one, then groups.
fn acting(place: usize, actions: &[Action], groups: &[Record]) -> Vec<Record> {
    let mut records = with_groups(groups);
    records[place][8..21].fill(0);
    records[place][8] = actions.len() as u8;
    records[place][9..9 + 3 * actions.len()].copy_from_slice(&actions.concat());
    records
}

/// Misses and rules run groups of their switch only, each action that does.
fn groups_run() -> Vec<Case> {
    let mut cases = vec![];
    for (place, switch) in ACTING {
        let mut case = |what: &str, actions: &[Action], groups: &[Record], is_sound: bool| {
            let name = format!("record {place} runs {what}");
            let records = acting(place, actions, groups);
            cases.push(match is_sound {
                true => holds(&name, &records, BARE_WORK),
                false => refused(&name, &records, 16, place),
            });
        };
        let other = 1 - switch;
        let both = [plain(0, 3), plain(1, 3)];
        case("a group", &[run(3)], &[plain(switch, 3)], true);
        case("a group of both switches", &[run(3)], &both, true);
        case("group 0", &[run(0)], &[plain(switch, 0)], true);
        case("group 15", &[run(15)], &[plain(switch, 15)], true);
        case("a group first", &[run(3), DROP], &[plain(switch, 3)], true);
        case("a group last", &[DROP, set(1, 1), DROP, run(3)], &[plain(switch, 3)], true);
        case("a group four times", &[run(3); 4], &[plain(switch, 3)], true);
        case("no group", &[run(3)], &[], false);
        case("group 0 of none", &[run(0)], &[], false);
        case("a lower group than there is", &[run(2)], &[plain(switch, 3)], false);
        case("a higher group than there is", &[run(4)], &[plain(switch, 3)], false);
        case("the other switch's group", &[run(3)], &[plain(other, 3)], false);
        case("an absent group first", &[run(4), run(3)], &[plain(switch, 3)], false);
        case("an absent group last", &[run(3), run(4)], &[plain(switch, 3)], false);
        case("an absent group between", &[DROP, run(4), DROP], &[plain(switch, 3)], false);
    }
    cases
}

/// A group is there if some record names it, wherever that stands and whatever else is wrong with it.
fn present_groups() -> Vec<Case> {
    let mut cases = vec![];
    for (place, switch) in ACTING {
        let mut case = |what: &str, number: u8, groups: &[Record], fault: usize| {
            let name = format!("record {place} runs {what}");
            cases.push(refused(&name, &acting(place, &[run(number)], groups), 16, fault));
        };
        let seventeen: Vec<Record> = (0..17).map(|count| plain(count / 16, count % 16)).collect();
        let faulty = with(plain(switch, 3), 21, 1);
        let empty = group(switch, 3, &[]);
        case("a faulty group", 3, &[faulty], 6);
        case("a group of no bucket", 3, &[empty], 6);
        case("a group out of order", 3, &[plain(switch, 5), plain(switch, 3)], 7);
        case("a group behind a faulty one", 3, &[with(plain(0, 0), 3, 1), plain(switch, 3)], 6);
        case("a group of seventeen", 0, &seventeen, 22);
    }
    let mut behind_n = refused("group behind n", &acting(4, &[run(3)], &[plain(0, 3)]), 16, 4);
    behind_n.lent.n = 6;
    let behind_kind_0 = acting(4, &[run(3)], &[[0; 24], plain(0, 3)]);
    cases.push(behind_n);
    cases.push(refused("group behind a record of kind 0", &behind_kind_0, 3, 6));
    cases
}

/// Rows with lower numbers come first in a record, and earlier records before later ones.
fn rows_before() -> Vec<Case> {
    let a = rule(0, 10, [1, 3], [0, 1], &[run(3)]);
    let absent = |place: usize| acting(place, &[run(3)], &[]);
    let one_byte = |place: usize, byte: usize, value: u8| {
        let mut records = absent(place);
        records[place][byte] = value;
        records
    };
    let node = |records: &[Record]| [records, &[k()[6]]].concat();
    let one_miss = [widths(1, 2, 1), miss(0, &[DROP])];
    let full = |last: Record| {
        let rules = (0..256).map(|priority| rule(1, 100 + priority, ANY, ANY, &[DROP]));
        [&bare()[..4], &rules.collect::<Vec<Record>>(), &[last]].concat()
    };
    let mut later = absent(4);
    later[5][0] = 0;
    let mut earlier = absent(5);
    earlier[4][1] = 2;
    vec![
        refused("rule behind a node, absent group", &[node(&bare()), vec![a]].concat(), 3, 7),
        refused("rule with a stray byte, absent group", &one_byte(4, 21, 1), 5, 4),
        refused("rule of switch 2, absent group", &one_byte(4, 1, 2), 5, 4),
        refused("rule with one miss, absent group", &[&one_miss[..], &[a]].concat(), 7, 2),
        refused("A again, absent group", &with_groups(&[a]), 8, 6),
        refused("257th rule, absent group", &full(a), 10, 260),
        refused("miss with a stray byte, absent group", &one_byte(2, 2, 1), 5, 2),
        refused("miss of switch 1 first, absent group", &one_byte(2, 1, 1), 7, 2),
        refused("miss of switch 0 twice, absent group", &one_byte(3, 1, 0), 7, 3),
        refused("absent group before kind 0", &later, 16, 4),
        refused("absent group behind a field fault", &earlier, 5, 4),
        refused("Y free before a faulty group", &[&k()[..18], &[[9; 24]]].concat(), 9, 17),
        refused("node of policy 0 and a faulty group", &node_and_group(23), 16, 7),
    ]
}

/// A policy of one node, and a group with a byte set; it is record 7.
fn node_and_group(byte: usize) -> Vec<Record> {
    [bare(), vec![k()[6], with(plain(0, 0), byte, 1)]].concat()
}

/// K's first six records, then group 3 of switch 0 and group 4 of switch 1.
fn grouped() -> Vec<Record> {
    with_groups(&[plain(0, 3), plain(1, 4)])
}

/// A rule that none of K's is.
fn new_rule(switch: u8, actions: &[Action]) -> Record {
    rule(switch, 500, ANY, ANY, actions)
}

/// Rule A with other actions.
fn a_with(actions: &[Action]) -> Record {
    rule(0, 10, [1, 3], [0, 1], actions)
}

/// An added rule goes behind the last rule, before policies and groups; no command changes a group.
fn changes() -> Vec<Case> {
    let put_in = |records: &[Record], place: usize, record: Record| {
        [&records[..place], &[record], &records[place..]].concat()
    };
    let in_place = |place: usize, record: Record| {
        let mut records = grouped();
        records[place] = record;
        records
    };
    let case = |name: &str, before: &[Record], given: Record, after: &[Record]| {
        forwarded(name, before, given, after, BARE_WORK)
    };
    let [at_0, at_1] = [new_rule(0, &[run(3)]), new_rule(1, &[DROP, run(4)])];
    let running_a = a_with(&[run(3), set(1, 1), output(2, 3), run(3)]);
    let no_rules = [&bare()[..4], &[plain(0, 3)]].concat();
    let absent = new_rule(0, &[run(3)]);
    let without_a = [&grouped()[..4], &grouped()[5..]].concat();
    vec![
        case("add that runs a group", &grouped(), add(at_0), &put_in(&grouped(), 6, at_0)),
        case("add at switch 1", &grouped(), add(at_1), &put_in(&grouped(), 6, at_1)),
        case("add before groups alone", &no_rules, add(at_0), &put_in(&no_rules, 4, at_0)),
        case("A runs a group", &grouped(), add(running_a), &in_place(4, running_a)),
        case("modify of A to a group", &grouped(), modify(running_a), &in_place(4, running_a)),
        case("modify from a group", &in_place(4, running_a), modify(bare()[4]), &grouped()),
        case("modify of an absent rule", &grouped(), modify(absent), &grouped()),
        case("delete before groups", &grouped(), delete(bare()[4]), &without_a),
        case("delete of what runs", &in_place(4, running_a), delete(running_a), &without_a),
    ]
}

/// Adds and modifies that run a group that their switch has not, whether or not the rule is there.
fn absent_groups() -> Vec<Case> {
    let mut cases = vec![];
    for (name, actions) in [
        ("absent group 2", &[run(2)][..]),
        ("absent group 0", &[run(0)]),
        ("absent group 15", &[run(15)]),
        ("switch 1's group", &[run(4)]),
        ("a group and an absent one", &[run(3), run(4)]),
        ("an absent group first", &[run(5), DROP]),
        ("an absent group fourth", &[DROP, DROP, DROP, run(5)]),
    ] {
        for (what, rule) in [("new rule", new_rule(0, actions)), ("A", a_with(actions))] {
            for given in [add(rule), modify(rule)] {
                let name = format!("kind {}, {what}, {name}", given[0]);
                cases.push(refused_command(&name, &grouped(), &given, 16));
            }
        }
    }
    cases.push(refused_command("no group at all", &k(), &add(new_rule(0, &[run(0)])), 16));
    cases
}

/// K with group 3 of switch 0 behind its policy, and an add at port 1 that runs it.
fn verdicts() -> Vec<Case> {
    let with_bucket = |bucket: Bucket| [k(), vec![group(0, 3, &[bucket])]].concat();
    let at_1 = rule(0, 20, [1, 3], ANY, &[run(3)]);
    let sound = |name: &str, bucket: Bucket| {
        let before = with_bucket(bucket);
        let after = [&before[..6], &[at_1], &before[6..]].concat();
        forwarded(name, &before, add(at_1), &after, K_WORK)
    };
    let broken = |name: &str, bucket: Bucket, state| {
        blocked(name, &with_bucket(bucket), add(at_1), 0, state, K_WORK)
    };
    vec![
        sound("group to drop", to_port([1, 1], 0)),
        sound("group to the arrival port", to_port([1, 1], 1)),
        sound("group to the controller", to_port([1, 1], 3)),
        sound("group sets header 0", to_port([0, 1], 2)),
        broken("group sets header 1", to_port([1, 1], 2), 2),
        broken("group passes header 1 on", to_port(ANY, 2), 3),
    ]
}

/// Rows 11 and 12 come before row 16.
fn command_rows() -> Vec<Case> {
    let absent = add(new_rule(0, &[run(2)]));
    let there = add(new_rule(0, &[run(3)]));
    let mut short = refused_command("short work, absent group", &grouped(), &absent, 11);
    short.lent.work.truncate(BARE_WORK - 1);
    let case = |name: &str, given: Record| refused_command(name, &grouped(), &given, 12);
    vec![
        short,
        case("stray byte, absent group", with(absent, 23, 1)),
        case("switch 2, absent group", with(absent, 1, 2)),
        case("SET behind an absent group", add(new_rule(0, &[run(2), set(0, 1)]))),
        case("SET behind a group", add(new_rule(0, &[run(3), set(0, 1)]))),
        case("group above 15", with(there, 10, 16)),
        case("care of a group", with(there, 11, 1)),
        case("group behind the count", with(new_rule_with_unused_group(), 0, 6)),
        case("delete with a group", with(there, 0, 8)),
        case("group as a command", plain(0, 2)),
        refused_command("cut, absent group", &grouped(), &absent[..23], 12),
    ]
}

/// A group in an action that is not used.
fn new_rule_with_unused_group() -> Record {
    with(new_rule(0, &[DROP, run(3)]), 8, 1)
}

/// Row 16 comes before row 13.
fn full_tables() -> Vec<Case> {
    let full = [k_with_rules(256), vec![plain(0, 3)]].concat();
    let mut running = full.clone();
    running[4] = a_with(&[run(3)]);
    vec![
        refused_command("256 rules, absent group", &full, &add(new_rule(0, &[run(2)])), 16),
        refused_command("256 rules, a group", &full, &add(new_rule(0, &[run(3)])), 13),
        refused_command("256 rules, A, absent group", &full, &add(a_with(&[run(2)])), 16),
        forwarded("256 rules, A, a group", &full, add(a_with(&[run(3)])), &running, K_WORK),
    ]
}
