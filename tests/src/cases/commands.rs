//! What commands do, and rows 12 and 13.

use super::arguments::{largest_holding, LARGEST_WORK};
use super::fields::{FAULTY_ACTIONS, FAULTY_MATCHES, SOUND_ACTIONS, SOUND_MATCHES};
use super::starred::{k_with_rule, k_with_rules, K_WORK};
use super::{bare, lend, Case, BARE_WORK, PLENTY, SPARE};
use crate::formulas::{bit, policy, X};
use crate::gate::{Answer, Call};
use crate::k::{dropping_add, first_add, k, k_with_d, rule_d, second_add, setting_add};
use crate::records::{
    add, delete, modify, output, record, rule, set, with, Action, Record, ANY, IN_PORT,
};

pub fn cases() -> Vec<Case> {
    [
        adds(),
        modifies(),
        deletes(),
        verdicts(),
        equals(),
        returns(),
        largest(),
        lengths_and_kinds(),
        field_faults(),
        row_orders(),
        full_tables(),
    ]
    .concat()
}

/// A command that leaves these records.
pub fn forwarded(
    name: &str,
    records: &[Record],
    given: Record,
    after: &[Record],
    zeroed: usize,
) -> Case {
    let answer = Answer::Forwarded { count: after.len() };
    let case = case(name, records, zeroed + SPARE, &given, answer);
    Case { installed: Some(after.to_vec()), zeroed, ..case }
}

/// A command that would leave a broken network.
pub fn blocked(
    name: &str,
    records: &[Record],
    given: Record,
    policy: usize,
    state: usize,
    zeroed: usize,
) -> Case {
    let answer = Answer::Blocked { policy, state };
    Case { zeroed, ..case(name, records, zeroed + SPARE, &given, answer) }
}

/// A command that a row refuses; the place is 0.
pub fn refused(name: &str, records: &[Record], given: &[u8], number: usize) -> Case {
    case(name, records, PLENTY, given, Answer::Refused { number, place: 0 })
}

/// A command on records with so much work.
fn case(name: &str, records: &[Record], work: usize, given: &[u8], answer: Answer) -> Case {
    Case::on(name, lend(records, work), Call::Command(given.to_vec()), answer)
}

/// K without the records of the range.
pub fn k_without(range: std::ops::Range<usize>) -> Vec<Record> {
    let mut records = k();
    records.drain(range);
    records
}

/// Records with one put in at a place.
pub fn inserted(records: &[Record], place: usize, record: Record) -> Vec<Record> {
    let mut records = records.to_vec();
    records.insert(place, record);
    records
}

/// Records without one.
pub fn removed(records: &[Record], place: usize) -> Vec<Record> {
    let mut records = records.to_vec();
    records.remove(place);
    records
}

/// Records with one put in the place of another.
pub fn replaced(records: &[Record], place: usize, record: Record) -> Vec<Record> {
    let mut records = records.to_vec();
    records[place] = record;
    records
}

fn adds() -> Vec<Case> {
    let d = rule_d();
    let no_rules = k_without(4..6);
    let bare_misses = &k()[..4];
    let dropping_b = rule(1, 10, [1, 3], ANY, &[set(0, 1), output(0, 3)]);
    let a = k()[4];
    let three = k_with_rule(d);
    let case = |name: &str, before: &[Record], rule: Record, after: &[Record]| {
        forwarded(name, before, add(rule), after, K_WORK)
    };
    vec![
        case("add behind the last rule", &k(), d, &inserted(&k(), 6, d)),
        case("add without rules", &no_rules, d, &inserted(&no_rules, 4, d)),
        case("add in the first place", &k(), a, &k()),
        case("add in the second place", &k(), dropping_b, &replaced(&k(), 5, dropping_b)),
        case(
            "add in the place of B of three",
            &three,
            dropping_b,
            &replaced(&three, 5, dropping_b),
        ),
        forwarded(
            "add without rules and policies",
            bare_misses,
            add(d),
            &[bare_misses, &[d]].concat(),
            BARE_WORK,
        ),
        forwarded("add without policies", &bare(), add(d), &inserted(&bare(), 6, d), BARE_WORK),
    ]
}

fn modifies() -> Vec<Case> {
    let dropping = with(dropping_add(), 0, 4);
    let longer = rule(0, 10, [1, 3], [0, 1], &[set(0, 0), set(0, 1), IN_PORT, output(2, 3)]);
    let absent = rule(0, 10, [1, 3], [1, 1], &[output(2, 3)]);
    let to_controller = with(rule_d(), 10, 3);
    let case = |name: &str, before: &[Record], rule: Record, after: &[Record]| {
        forwarded(name, before, modify(rule), after, K_WORK)
    };
    vec![
        case("modify of A", &k(), dropping, &replaced(&k(), 4, dropping)),
        case("modify to four actions", &k(), longer, &replaced(&k(), 4, longer)),
        case("modify to the same actions", &k(), k()[5], &k()),
        case("modify of an absent rule", &k(), absent, &k()),
        case("modify without rules", &k_without(4..6), absent, &k_without(4..6)),
        case(
            "modify of D behind another",
            &k_with_d(),
            to_controller,
            &replaced(&k_with_d(), 7, to_controller),
        ),
    ]
}

fn deletes() -> Vec<Case> {
    let case = |name: &str, before: &[Record], rule: Record, after: &[Record]| {
        forwarded(name, before, delete(rule), after, K_WORK)
    };
    let a = k()[4];
    vec![
        case("delete of the first rule", &k(), a, &k_without(4..5)),
        case("delete of the last rule", &k(), k()[5], &k_without(5..6)),
        case("delete of the only rule", &k_without(5..6), a, &k_without(4..6)),
        case("delete without rules", &k_without(4..6), a, &k_without(4..6)),
        case(
            "delete of the middle rule",
            &k_with_rule(rule_d()),
            k()[5],
            &removed(&k_with_rule(rule_d()), 5),
        ),
        case("delete of A with another priority", &k(), with(a, 2, 11), &k()),
        case("delete of A with a high priority byte", &k(), with(a, 3, 1), &k()),
        case("delete of A at switch 1", &k(), with(a, 1, 1), &k()),
        case("delete of A with any header", &k(), with(a, 7, 0), &k()),
        forwarded("delete without policies", &bare(), delete(a), &removed(&bare(), 4), BARE_WORK),
    ]
}

/// The result alone is judged, also where the present network is broken.
fn verdicts() -> Vec<Case> {
    let broken = k_with_rule(with(first_add(), 0, 4));
    let absent = rule(1, 1, ANY, ANY, &[output(0, 3)]);
    let two_policies = [k(), policy(1, &[bit(X, 0)])].concat();
    vec![
        forwarded("delete that mends", &broken, delete(first_add()), &k(), K_WORK),
        forwarded("add that mends", &broken, add(rule_d()), &k_with_d(), K_WORK),
        blocked("modify of an absent rule, broken", &broken, modify(absent), 0, 3, K_WORK),
        blocked("delete of an absent rule, broken", &broken, delete(absent), 0, 3, K_WORK),
        blocked("add that mends nothing", &broken, add(absent), 0, 3, K_WORK),
        blocked("second policy broken", &two_policies, delete(absent), 1, 1, K_WORK),
        blocked("both policies broken", &two_policies, first_add(), 0, 3, K_WORK),
        blocked("modify that sets", &k(), modify(setting_a()), 0, 2, K_WORK),
        blocked("replacing add that sets", &k(), add(setting_a()), 0, 2, K_WORK),
    ]
}

/// Rules of A's or B's priority that match what A or B does too: the add of one is blocked if it sends
/// what must not leave, wherever A and B send, and a delete of one leaves what the other sends. A
/// dropping rule takes away nothing that an equal one sends.
fn equals() -> Vec<Case> {
    let setting = [set(1, 1), output(2, 3)];
    let set_at_0 = rule(0, 10, [1, 3], ANY, &setting);
    let set_at_1 = rule(1, 10, ANY, [0, 1], &setting);
    let dropping = rule(0, 10, ANY, ANY, &[output(0, 3)]);
    let all = with(first_add(), 0, 4);
    let odd = rule(0, 5, ANY, [1, 1], &[output(0, 3)]);
    let (a, b) = (k()[4], k()[5]);
    let case = |name: &str, before: &[Record], given: Record, after: &[Record]| {
        forwarded(name, before, given, after, K_WORK)
    };
    let broken = |name: &str, before: &[Record], given: Record, state: usize| {
        blocked(name, before, given, 0, state, K_WORK)
    };
    let with_both = inserted(&k_with_rule(set_at_0), 4, set_at_1);
    let dropped = inserted(&k(), 4, dropping);
    let mended = rule(0, 10, [1, 3], ANY, &[output(0, 3)]);
    vec![
        broken("add of A's equal that sets", &k(), add(set_at_0), 2),
        broken("add of B's equal that sets", &k(), add(set_at_1), 2),
        case("add of A's equal that drops", &k(), add(dropping), &k_with_rule(dropping)),
        case("delete of A's equal", &k_with_rule(set_at_0), delete(set_at_0), &k()),
        case("delete of A's equal before it", &inserted(&k(), 4, set_at_0), delete(set_at_0), &k()),
        case("delete of B's equal", &k_with_rule(set_at_1), delete(set_at_1), &k()),
        broken("delete of A, not of its equal", &k_with_rule(set_at_0), delete(a), 2),
        broken("delete of B, not of its equal", &k_with_rule(set_at_1), delete(b), 2),
        broken("delete of one equal of two", &with_both, delete(set_at_0), 2),
        broken("delete of the other equal of two", &with_both, delete(set_at_1), 2),
        broken("modify of A beside one that drops", &dropped, modify(setting_a()), 2),
        case("delete of A beside one that drops", &dropped, delete(a), &removed(&dropped, 5)),
        broken("drop of the same priority", &k_with_rule(all), add(odd), 3),
        broken("delete beside a drop", &inserted(&k_with_rule(all), 4, odd), delete(a), 3),
        case(
            "delete of what is not dropped",
            &inserted(&k_with_rule(odd), 6, all),
            delete(all),
            &k_with_rule(odd),
        ),
        case("modify of A's equal", &k_with_rule(set_at_0), modify(mended), &k_with_rule(mended)),
    ]
}

/// A's match with SET 1, OUTPUT 2.
pub fn setting_a() -> Record {
    rule(0, 10, [1, 3], [0, 1], &[set(1, 1), output(2, 3)])
}

/// K with a rule for what arrives at port 2 of switch 1, where no link ends: header 1 leaves there
/// if it is sent back, and is dropped if it goes on over the link.
fn returns() -> Vec<Case> {
    let at_2 = |actions: &[Action]| rule(1, 5, [2, 3], ANY, actions);
    let sound = |name: &str, actions: &[Action]| {
        let rule = at_2(actions);
        forwarded(name, &k(), add(rule), &k_with_rule(rule), K_WORK)
    };
    let broken = |name: &str, actions: &[Action], state| {
        blocked(name, &k(), add(at_2(actions)), 0, state, K_WORK)
    };
    vec![
        sound("OUTPUT to the arrival port", &[output(2, 3)]),
        sound("flood", &[output(0, 0)]),
        sound("IN_PORT with header 0", &[output(0, 0), set(0, 1), IN_PORT]),
        sound("IN_PORT before SET", &[set(0, 1), IN_PORT, set(1, 1), output(1, 3)]),
        broken("IN_PORT", &[IN_PORT], 13),
        broken("flood and IN_PORT", &[output(0, 0), IN_PORT], 13),
        broken("IN_PORT and flood", &[IN_PORT, output(0, 0)], 13),
        broken("IN_PORT after SET", &[set(1, 1), IN_PORT, set(0, 1), output(1, 3)], 12),
    ]
}

/// The largest network holds whatever its rules are. Its first rule is record 129.
fn largest() -> Vec<Case> {
    let records = largest_holding();
    let first = records[129];
    let mut other = rule(0, 0, ANY, ANY, &[output(0, 0), output(15, 15)]);
    other[1..8].copy_from_slice(&first[1..8]);
    let fewer = removed(&records, 129);
    let changed = replaced(&records, 129, other);
    let case = |name: &str, before: &[Record], given: Record, after: &[Record]| {
        forwarded(name, before, given, after, LARGEST_WORK)
    };
    let again = [&fewer[..384], &[first], &fewer[384..]].concat();
    let mut full = refused("657 records, new rule", &records, &add(new_to(&records)), 13);
    full.lent.work = vec![0xC3; LARGEST_WORK];
    vec![
        case("657 records, delete", &records, delete(first), &fewer),
        case("657 records, replacing add", &records, add(other), &changed),
        case("657 records, modify", &records, modify(other), &changed),
        case("656 records, add", &fewer, add(first), &again),
        full,
    ]
}

/// A rule that none of the records is.
pub fn new_to(records: &[Record]) -> Record {
    let mut candidates =
        (0..=u16::MAX).map(|priority| rule(0, priority, ANY, ANY, &[output(0, 0)]));
    let absent = |rule: &Record| !records.iter().any(|other| other[1..8] == rule[1..8]);
    candidates.find(absent).expect("few rules")
}

fn lengths_and_kinds() -> Vec<Case> {
    let sound = second_add();
    let mut cases = vec![];
    for length in [0, 1, 8, 12, 23] {
        let name = format!("command of {length} bytes");
        cases.push(refused(&name, &k(), &sound[..length], 12));
    }
    for more in [1, 24] {
        let name = format!("command of {} bytes", 24 + more);
        cases.push(refused(&name, &k(), &[&sound[..], &vec![0; more]].concat(), 12));
    }
    for kind in [0, 1, 2, 3, 4, 5, 9, 10, 128, 255] {
        let name = format!("command of kind {kind}");
        cases.push(refused(&name, &k(), &with(sound, 0, kind), 12));
    }
    cases.push(refused("command of bytes 0", &k(), &[0; 24], 12));
    cases.push(refused("command of bytes FF", &k(), &[255; 24], 12));
    cases
}

/// Field faults of each kind of command on a network without policies, where sound ones pass.
fn field_faults() -> Vec<Case> {
    let dropping = rule(0, 500, ANY, ANY, &[output(0, 3)]);
    let mut cases = vec![];
    for (kind, command) in [(6, add(dropping)), (7, modify(dropping)), (8, delete(dropping))] {
        for bytes in FAULTY_MATCHES {
            let name = format!("kind {kind} with match {bytes:?}");
            cases.push(refused(&name, &bare(), &put(command, 1, &bytes), 12));
        }
        for byte in 21..24 {
            let name = format!("kind {kind}, byte {byte} set");
            cases.push(refused(&name, &bare(), &with(command, byte, 1), 12));
        }
        cases.extend(SOUND_MATCHES.map(|bytes| sound_command(kind, put(command, 1, &bytes))));
    }
    for command in [add(dropping), modify(dropping)] {
        for bytes in FAULTY_ACTIONS {
            let name = format!("kind {} with actions {bytes:?}", command[0]);
            let given = put(put(command, 8, &[0; 13]), 8, bytes);
            cases.push(refused(&name, &bare(), &given, 12));
        }
    }
    for bytes in SOUND_ACTIONS {
        let given = put(put(add(dropping), 8, &[0; 13]), 8, bytes);
        cases.push(sound_command(6, given));
    }
    for byte in 8..21 {
        let name = format!("delete, byte {byte} set");
        cases.push(refused(&name, &bare(), &with(delete(dropping), byte, 1), 12));
    }
    cases
}

/// A sound command that means none of the present rules: only an add changes anything.
fn sound_command(kind: u8, given: Record) -> Case {
    let mut after = bare();
    if kind == 6 {
        after.push(with(given, 0, 4));
    }
    let name = format!("sound command {given:?}");
    forwarded(&name, &bare(), given, &after, BARE_WORK)
}

fn put(record: Record, byte: usize, bytes: &[u8]) -> Record {
    let mut changed = record;
    changed[byte..byte + bytes.len()].copy_from_slice(bytes);
    changed
}

/// Rows of the file and of the work come before those of the command.
fn row_orders() -> Vec<Case> {
    let short_work = |name: &str, given: &[u8]| {
        let mut case = refused(name, &k(), given, 11);
        case.lent.work.truncate(K_WORK - 1);
        case
    };
    let mut file = refused("faulty file, faulty command", &k_without(3..4), &[], 7);
    file.answer = Answer::Refused { number: 7, place: 3 };
    let mut arguments = refused("n of 0, faulty command", &k(), &[], 1);
    arguments.lent.n = 0;
    vec![
        short_work("short work, sound command", &second_add()),
        short_work("short work, blocked command", &setting_add()),
        short_work("short work, faulty command", &record(&[9])),
        file,
        arguments,
    ]
}

/// 256 and 255 rules. The last rule of the full table is record 259.
fn full_tables() -> Vec<Case> {
    let full = k_with_rules(256);
    let last = full[259];
    let absent = rule(1, 7, ANY, ANY, &[output(0, 3)]);
    let fewer = removed(&full, 259);
    vec![
        refused("256 rules, sound add", &full, &add(absent), 13),
        refused("256 rules, add that would be blocked", &full, &setting_add(), 13),
        refused("256 rules, faulty add", &full, &with(add(absent), 1, 2), 12),
        forwarded("256 rules, same add", &full, add(last), &full, K_WORK),
        blocked("256 rules, replacing add that sets", &full, add(setting_a()), 0, 2, K_WORK),
        forwarded("256 rules, modify of an absent rule", &full, modify(absent), &full, K_WORK),
        forwarded("256 rules, delete of an absent rule", &full, delete(absent), &full, K_WORK),
        forwarded("256 rules, delete", &full, delete(last), &fewer, K_WORK),
        forwarded("255 rules, add", &fewer, add(last), &full, K_WORK),
        blocked("255 rules, add that sets", &fewer, setting_add(), 0, 2, K_WORK),
    ]
}
