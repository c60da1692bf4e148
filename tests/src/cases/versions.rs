//! The wire version, byte 4 of the widths record: 0, which reads as 4, or 1 or 4, and row 5 for any
//! other; and a modify without its rule, which in version 1 acts as an add.

use super::arguments::{largest_holding, LARGEST_WORK};
use super::commands::{
    blocked, forwarded, inserted, k_without, new_to, refused as refused_command, removed, replaced,
    setting_a,
};
use super::starred::{k_with_rule, k_with_rules, K_WORK};
use super::{all_commands, bare, checks_of_rows, holds, refused, violated, Case, BARE_WORK};
use crate::gate::{Call, Lent, STORE};
use crate::k::{dropping_add, first_add, k, k_set, k_with_d, rule_d, second_add, setting_add};
use crate::records::{
    add, delete, group, in_version, modify, output, rule, run, set, to_port, with, Record, ANY,
    IN_PORT, VERSIONS,
};

pub fn cases() -> Vec<Case> {
    [bytes(), rows_before(), rows_after(), verdicts()].concat()
}

pub fn commands() -> Vec<Case> {
    [
        faulty_versions(),
        absent_rules(),
        present_rules(),
        again(),
        deletes(),
        places(),
        broken_networks(),
        full_tables_of_old(),
        full_tables_of_new(),
        largest(),
    ]
    .concat()
}

fn k_in(version: u8) -> Vec<Record> {
    in_version(&k(), version)
}

/// The rule of the first add: header 1 leaves by it.
fn first() -> Record {
    with(first_add(), 0, 4)
}

/// The rule of the second add.
fn second() -> Record {
    with(second_add(), 0, 4)
}

/// Every value of byte 4.
fn bytes() -> Vec<Case> {
    let case = |version: u8| {
        let name = format!("version {version}");
        match VERSIONS.contains(&version) {
            true => holds(&name, &k_in(version), K_WORK),
            false => refused(&name, &k_in(version), 5, 0),
        }
    };
    (0..=255).map(case).collect()
}

/// Rows 1 to 4 come before the row of the version.
fn rows_before() -> Vec<Case> {
    let mut cases = vec![];
    for version in [1, 2, 255] {
        let mut case = |what: &str, changes: &[(usize, usize, u8)], number: usize| {
            let records = in_version(&k_set(changes), version);
            cases.push(refused(&format!("version {version}, {what}"), &records, number, 0));
        };
        case("H of 0", &[(0, 1, 0)], 4);
        case("H of 7", &[(0, 1, 7)], 4);
        case("P of 1", &[(0, 2, 1)], 4);
        case("P of 5", &[(0, 2, 5)], 4);
        case("W of 5", &[(0, 3, 5)], 4);
        case("N of 11", &[(0, 1, 4), (0, 2, 4), (0, 3, 2)], 4);
        case("kind 0", &[(0, 0, 0)], 3);
        case("kind 2", &[(0, 0, 2)], 3);
    }
    let mut none = refused("version 2, n of 0", &k_in(2), 1, 0);
    none.lent.n = 0;
    let mut short = refused("version 2, short store", &k_in(2), 2, 0);
    short.lent.store.truncate(STORE - 1);
    cases.extend([none, short]);
    cases
}

/// The bytes behind the version are unnamed, and later records come later.
fn rows_after() -> Vec<Case> {
    let later = k_set(&[(3, 0, 0)]);
    let mut cases = vec![
        refused("version 2, a later fault", &in_version(&later, 2), 5, 0),
        refused("version 1, a later fault", &in_version(&later, 1), 3, 3),
        refused("version 4, a later fault", &in_version(&later, 4), 3, 3),
    ];
    for version in [1, 4] {
        for byte in 5..24 {
            let name = format!("version {version}, byte {byte} is 1");
            cases.push(refused(&name, &in_version(&k_set(&[(0, byte, 1)]), version), 5, 0));
        }
    }
    cases
}

/// Policies, IN_PORT and groups are the same in every version.
fn verdicts() -> Vec<Case> {
    let case = |version: u8| {
        let name = |what: &str| format!("version {version}, {what}");
        let back = rule(1, 5, [2, 3], ANY, &[IN_PORT]);
        let running = rule(0, 20, [1, 3], ANY, &[run(3)]);
        let by_group = [k_with_rule(running), vec![group(0, 3, &[to_port([1, 1], 2)])]].concat();
        let to_drop = [k_with_rule(running), vec![group(0, 3, &[to_port([1, 1], 0)])]].concat();
        let broken = |what: &str, records: &[Record], state: usize| {
            violated(&name(what), &in_version(records, version), 0, state, K_WORK)
        };
        [
            broken("header 1 passed on", &k_with_rule(first()), 3),
            broken("header 1 sent back", &k_with_rule(back), 13),
            broken("header 1 by a group", &by_group, 2),
            holds(&name("a group to drop"), &in_version(&to_drop, version), K_WORK),
        ]
    };
    VERSIONS.into_iter().flat_map(case).collect()
}

/// Row 5 for the network, before any row of the command.
fn faulty_versions() -> Vec<Case> {
    let mut cases = vec![];
    for version in [2, 3, 5, 255] {
        let commands = [second_add(), modify(second()), delete(second()), with(second_add(), 0, 9)];
        for given in commands {
            let name = format!("version {version}, kind {}", given[0]);
            cases.push(refused_command(&name, &k_in(version), &given, 5));
        }
    }
    cases
}

/// Modifies of rules that K has not.
fn absent_rules() -> Vec<Case> {
    let mut cases = vec![
        forwarded(
            "version 1, the second add as a modify",
            &k_in(1),
            modify(second()),
            &in_version(&k_with_rule(second()), 1),
            K_WORK,
        ),
        blocked("version 1, the first add as a modify", &k_in(1), modify(first()), 0, 3, K_WORK),
        blocked("version 1, modify that sets", &k_in(1), modify(setting_add()), 0, 2, K_WORK),
    ];
    for version in [0, 4] {
        for given in [second(), first(), setting_add()].map(modify) {
            let name = format!("version {version}, absent {given:?}");
            cases.push(forwarded(&name, &k_in(version), given, &k_in(version), K_WORK));
        }
    }
    cases
}

/// Of a rule that is there, a modify replaces bytes 8 to 20 in every version.
fn present_rules() -> Vec<Case> {
    let case = |version: u8| {
        let name = |what: &str| format!("version {version}, modify of {what}");
        let [a, b] = [k()[4], k()[5]];
        let dropping = with(dropping_add(), 0, 4);
        let longer = rule(0, 10, [1, 3], [0, 1], &[set(0, 0), set(0, 1), IN_PORT, output(2, 3)]);
        let sound = |what: &str, rule: Record, place: usize| {
            let after = replaced(&k_in(version), place, rule);
            forwarded(&name(what), &k_in(version), modify(rule), &after, K_WORK)
        };
        [
            sound("A", dropping, 4),
            sound("A to four actions", longer, 4),
            sound("A to its own actions", a, 4),
            sound("B", with(b, 10, 3), 5),
            blocked(&name("A that sets"), &k_in(version), modify(setting_a()), 0, 2, K_WORK),
        ]
    };
    VERSIONS.into_iter().flat_map(case).collect()
}

/// What follows on a modify that added, in version 1: the rule is there.
fn again() -> Vec<Case> {
    let before = in_version(&k_with_rule(second()), 1);
    let dropping = with(second(), 10, 0);
    let changed = replaced(&before, 6, dropping);
    let case = |name: &str, before: &[Record], given: Record, after: &[Record]| {
        forwarded(&format!("version 1, {name}"), before, given, after, K_WORK)
    };
    vec![
        case("the same modify again", &before, modify(second()), &before),
        case("another modify", &before, modify(dropping), &changed),
        case("back again", &changed, modify(second()), &before),
        case("the same as an add", &before, add(second()), &before),
        case("delete of what was added", &before, delete(second()), &k_in(1)),
        case("a second one", &before, modify(rule_d()), &inserted(&before, 7, rule_d())),
    ]
}

/// A delete without its rule changes nothing in any version.
fn deletes() -> Vec<Case> {
    let case = |version: u8| {
        let name = format!("version {version}, delete of ");
        let without_a = removed(&k_in(version), 4);
        let sound = |what: &str, given: Record, after: &[Record]| {
            forwarded(&(name.clone() + what), &k_in(version), given, after, K_WORK)
        };
        [
            sound("an absent rule", delete(second()), &k_in(version)),
            sound("a rule that would break K", delete(first()), &k_in(version)),
            sound("A", delete(k()[4]), &without_a),
        ]
    };
    VERSIONS.into_iter().flat_map(case).collect()
}

/// Behind the last rule, or behind the last miss if there is none; before policies and groups.
fn places() -> Vec<Case> {
    let d = rule_d();
    let groups = [group(0, 3, &[to_port(ANY, 1)]), group(1, 4, &[to_port(ANY, 0)])];
    let case = |name: &str, before: &[Record], place: usize, zeroed: usize| {
        let before = in_version(before, 1);
        let after = inserted(&before, place, d);
        forwarded(&format!("version 1, added {name}"), &before, modify(d), &after, zeroed)
    };
    let running = rule(0, 500, ANY, [0, 1], &[run(3)]);
    let grouped = in_version(&[&k()[..], &groups].concat(), 1);
    let run_by_modify = forwarded(
        "version 1, added with a group",
        &grouped,
        modify(running),
        &inserted(&grouped, 6, running),
        K_WORK,
    );
    vec![
        case("behind the last rule", &k(), 6, K_WORK),
        case("behind the last miss", &k_without(4..6), 4, K_WORK),
        case("behind one rule", &k_without(5..6), 5, K_WORK),
        case("without policies", &bare(), 6, BARE_WORK),
        case("without rules and policies", &bare()[..4], 4, BARE_WORK),
        case("before groups", &[&bare()[..], &groups].concat(), 6, BARE_WORK),
        case("before groups alone", &[&bare()[..4], &groups].concat(), 4, BARE_WORK),
        case("before policies and groups", &[&k()[..], &groups].concat(), 6, K_WORK),
        run_by_modify,
    ]
}

/// K with the first add's rule, and D, which mends it.
fn broken_networks() -> Vec<Case> {
    let broken = |version: u8| in_version(&k_with_rule(first()), version);
    let absent = rule(1, 1, ANY, ANY, &[output(0, 3)]);
    let mut cases = vec![
        forwarded(
            "version 1, modify that mends",
            &broken(1),
            modify(rule_d()),
            &in_version(&k_with_d(), 1),
            K_WORK,
        ),
        blocked("version 1, modify that mends nothing", &broken(1), modify(absent), 0, 3, K_WORK),
    ];
    for version in [0, 4] {
        let name = format!("version {version}, modify that would mend as an add");
        cases.push(blocked(&name, &broken(version), modify(rule_d()), 0, 3, K_WORK));
    }
    cases
}

/// K with 256 rules and group 3 of switch 0. Rule A is record 4, the last rule record 259.
fn full() -> Vec<Record> {
    [k_with_rules(256), vec![group(0, 3, &[to_port(ANY, 2)])]].concat()
}

/// Rows 12 and 16 come before row 13, which a modify meets only where it would add.
fn full_tables_of_old() -> Vec<Case> {
    let full = in_version(&full(), 1);
    let last = full[259];
    let fewer = removed(&full, 259);
    let absent = rule(1, 7, ANY, ANY, &[output(0, 3)]);
    let absent_at_0 = |number: u8| modify(rule(0, 7, ANY, ANY, &[run(number)]));
    let a_running = |number: u8| rule(0, 10, [1, 3], [0, 1], &[run(number)]);
    let name = |what: &str| format!("version 1, 256 rules, {what}");
    let refuse = |what: &str, given: &[u8], number: usize| {
        refused_command(&name(what), &full, given, number)
    };
    let forward = |what: &str, given: Record, after: &[Record]| {
        forwarded(&name(what), &full, given, after, K_WORK)
    };
    let mut short = refuse("short work", &modify(absent), 11);
    short.lent.work.truncate(K_WORK - 1);
    let running = replaced(&full, 4, a_running(3));
    let dropping = with(dropping_add(), 0, 4);
    let fewer_name = |what: &str| format!("version 1, 255 rules, {what}");
    vec![
        refuse("modify of an absent rule", &modify(absent), 13),
        refuse("modify that would be blocked", &modify(setting_add()), 13),
        refuse("modify with a group", &absent_at_0(3), 13),
        refuse("modify with an absent group", &absent_at_0(2), 16),
        refuse("modify of A with an absent group", &modify(a_running(2)), 16),
        refuse("faulty modify", &with(modify(absent), 1, 2), 12),
        refuse("faulty modify with an absent group", &with(absent_at_0(2), 21, 1), 12),
        refuse("cut modify", &modify(absent)[..23], 12),
        refuse("add of an absent rule", &add(absent), 13),
        short,
        forward("modify of the last rule", modify(last), &full),
        forward("modify of A", modify(dropping), &replaced(&full, 4, dropping)),
        forward("modify of A with a group", modify(a_running(3)), &running),
        blocked(&name("modify of A that sets"), &full, modify(setting_a()), 0, 2, K_WORK),
        forward("delete of an absent rule", delete(absent), &full),
        forward("delete", delete(last), &fewer),
        forwarded(&fewer_name("modify that adds"), &fewer, modify(last), &full, K_WORK),
        blocked(&fewer_name("modify that sets"), &fewer, modify(setting_add()), 0, 2, K_WORK),
    ]
}

/// Versions 0 and 4: no modify meets row 13.
fn full_tables_of_new() -> Vec<Case> {
    let case = |version: u8| {
        let full = in_version(&full(), version);
        let name = |what: &str| format!("version {version}, 256 rules, {what}");
        let absent = rule(1, 7, ANY, ANY, &[output(0, 3)]);
        let absent_group = modify(rule(0, 7, ANY, ANY, &[run(2)]));
        let unchanged =
            |what: &str, given: Record| forwarded(&name(what), &full, given, &full, K_WORK);
        [
            unchanged("modify of an absent rule", modify(absent)),
            unchanged("modify that would be blocked as an add", modify(setting_add())),
            unchanged("modify of the last rule", modify(full[259])),
            blocked(&name("modify of A that sets"), &full, modify(setting_a()), 0, 2, K_WORK),
            refused_command(&name("modify with an absent group"), &full, &absent_group, 16),
            refused_command(&name("add of an absent rule"), &full, &add(absent), 13),
        ]
    };
    [0, 4].into_iter().flat_map(case).collect()
}

/// The largest network in version 1. Its rules are records 129 to 384.
fn largest() -> Vec<Case> {
    let records = in_version(&largest_holding(), 1);
    let first = records[129];
    let fewer = removed(&records, 129);
    let again = inserted(&fewer, 384, first);
    let name = "version 1, 657 records, modify of a new rule";
    let mut full = refused_command(name, &records, &modify(new_to(&records)), 13);
    full.lent.work = vec![0xC3; LARGEST_WORK];
    vec![
        full,
        forwarded(
            "version 1, 656 records, modify that adds",
            &fewer,
            modify(first),
            &again,
            LARGEST_WORK,
        ),
    ]
}

/// The cases of the rows and of the commands without a version, in versions 4 and 1: the answer is the
/// same, but for a modify without its rule in version 1. There each add is given as a modify too,
/// which must do what the add does, whether or not its rule is there.
pub fn in_each() -> Vec<Case> {
    let mut cases = vec![];
    let all = [checks_of_rows(), all_commands()].concat();
    for case in all.iter().filter(|case| is_unnamed(&case.lent)) {
        let old = in_one(case, 1);
        cases.push(in_one(case, 4));
        cases.extend(add_as_modify(&old));
        if !is_judged_without_its_rule(case) {
            cases.push(old);
        }
    }
    cases
}

fn in_one(case: &Case, version: u8) -> Case {
    Case {
        name: format!("{}, in version {version}", case.name),
        lent: lent_in(&case.lent, version),
        installed: case.installed.as_ref().map(|records| in_version(records, version)),
        ..case.clone()
    }
}

/// The case of an add as one of the modify.
fn add_as_modify(case: &Case) -> Option<Case> {
    let Call::Command(given) = &case.call else { return None };
    let [6, rest @ ..] = &given[..] else { return None };
    let call = Call::Command([&[7], rest].concat());
    Some(Case { name: format!("{}, as a modify", case.name), call, ..case.clone() })
}

fn lent_in(lent: &Lent, version: u8) -> Lent {
    let mut lent = lent.clone();
    lent.store[4] = version;
    lent
}

fn is_unnamed(lent: &Lent) -> bool {
    lent.store.get(4) == Some(&0)
}

/// Whether a case is a modify that no row refuses and whose rule is not in the network.
fn is_judged_without_its_rule(case: &Case) -> bool {
    let Call::Command(given) = &case.call else { return false };
    let is_its = |record: &Record| record[0] == 4 && record[1..8] == given[1..8];
    given.first() == Some(&7)
        && !case.answer.is_refused()
        && !case.lent.records().iter().any(is_its)
}
