//! The gate that owns its buffers, and the three calls over lent ones.

use wegbaro::{check, command, list_entries, route, work_bytes};
use wegbaro::{Checked, Commanded, Gate, Record, Refusal, Routed};
use wegbaro::{MOST_LIST_ENTRIES, MOST_WORK_BYTES, STORE_BYTES};
use wegbaro_tests::formulas::{external, policy, tc, X};
use wegbaro_tests::k::{delete_d, first_add, k, k_set, k_with_d, second_add};
use wegbaro_tests::networks::{
    all_widths, crowded, full_switch, random_network, work_needed, MODEST,
};
use wegbaro_tests::random::Random;
use wegbaro_tests::records::{add, miss, modify, output, record, rule, set, widths, with, ANY};

fn store(records: &[Record]) -> Vec<u8> {
    let mut store = records.concat();
    store.resize(STORE_BYTES, 0);
    store
}

#[test]
fn commands_change_the_network_or_leave_it() {
    let mut gate = Gate::new(&k()).unwrap();
    assert_eq!(gate.check(), Checked::Holds);
    assert_eq!(gate.command(&first_add()), Ok(Commanded::Blocked { policy: 0, state: 3 }));
    assert_eq!(gate.command(&[6]), Err(Refusal { row: 12, place: 0 }));
    assert_eq!(gate.records(), k());
    assert_eq!(gate.command(&second_add()), Ok(Commanded::Forwarded { count: 21 }));
    assert_eq!(gate.count(), 21);
    assert_eq!(gate.records()[6], with(second_add(), 0, 4));
    assert_eq!(gate.records()[7..], k()[6..]);
    assert_eq!(format!("{gate:?}"), "Gate { count: 21, verdict: Holds, .. }");
}

/// A network that does not hold can be mended by a command, and then holds.
#[test]
fn a_violated_network_is_mended() {
    let with_d = k_with_d();
    let without_d = [&with_d[..7], &with_d[8..]].concat();
    let mut gate = Gate::new(&without_d).unwrap();
    assert_eq!(gate.check(), Checked::Violated { policy: 0, state: 3 });
    assert_eq!(gate.command(&delete_d()), Ok(Commanded::Blocked { policy: 0, state: 3 }));
    assert_eq!(gate.check(), Checked::Violated { policy: 0, state: 3 });
    assert_eq!(gate.command(&add(with_d[7])), Ok(Commanded::Forwarded { count: 22 }));
    assert_eq!(gate.check(), Checked::Holds);
}

/// Routes are those of the network as it is, whether it holds or not, and asking changes nothing.
#[test]
fn routes_of_a_gate() {
    let mut gate = Gate::new(&k()).unwrap();
    assert_eq!(gate.route(2, 28), Ok(Some(vec![2, 20, 10, 28])));
    assert_eq!(gate.route(20, 10), Ok(Some(vec![20, 10])));
    assert_eq!(gate.route(28, 2), Ok(None));
    assert_eq!(gate.route(2, 2), Ok(None));
    assert_eq!(gate.route(6, 28), Ok(None));
    assert_eq!(gate.route(32, 0), Err(Refusal { row: 14, place: 0 }));
    assert_eq!(gate.route(0, usize::MAX), Err(Refusal { row: 14, place: 0 }));
    assert_eq!((gate.check(), gate.records()), (Checked::Holds, &k()[..]));
    assert_eq!(gate.command(&second_add()), Ok(Commanded::Forwarded { count: 21 }));
    assert_eq!(gate.route(6, 28), Ok(Some(vec![6, 20, 10, 28])));

    let with_d = k_with_d();
    let mut violated = Gate::new(&[&with_d[..7], &with_d[8..]].concat()).unwrap();
    assert_eq!(violated.check(), Checked::Violated { policy: 0, state: 3 });
    assert_eq!(violated.route(3, 29), Ok(Some(vec![3, 21, 11, 29])));
}

/// Each row that can refuse a gate's network or command.
#[test]
fn refusals() {
    let refused = |records: &[Record]| Gate::new(records).err().map(|it| (it.row, it.place));
    assert_eq!(refused(&[]), Some((1, 0)));
    assert_eq!(refused(&vec![[0; 24]; 658]), Some((1, 0)));
    assert_eq!(refused(&[[9; 24]]), Some((3, 0)));
    assert_eq!(refused(&k_set(&[(0, 1, 7)])), Some((4, 0)));
    assert_eq!(refused(&k_set(&[(0, 4, 2)])), Some((5, 0)));
    assert_eq!(refused(&k_set(&[(4, 23, 1)])), Some((5, 4)));
    assert_eq!(refused(&k_set(&[(1, 2, 3)])), Some((6, 1)));
    assert_eq!(refused(&k()[..3]), Some((7, 3)));
    assert_eq!(refused(&k_set(&[(5, 1, 0), (5, 7, 1)])), Some((8, 5)));
    assert_eq!(refused(&k_set(&[(8, 3, 2)])), Some((9, 8)));
    let long = vec![external(X); 33];
    assert_eq!(refused(&[&k()[..6], &policy(0, &long)].concat()), Some((10, 38)));

    assert_eq!(refused(&k_set(&[(4, 9, 4), (4, 11, 0)])), Some((16, 4)));

    let full = full_switch(0);
    let new = add(rule(0, 256, ANY, ANY, &[output(0, 3)]));
    let answer = Gate::new(&full).unwrap().command(&new);
    assert_eq!(answer, Err(Refusal { row: 13, place: 0 }));
    let absent = with(with(new, 9, 4), 11, 0);
    let answer = Gate::new(&full).unwrap().command(&absent);
    assert_eq!(answer, Err(Refusal { row: 16, place: 0 }));
}

/// In version 1, OpenFlow 1.0, a modify without its rule adds it; in the others it changes nothing.
#[test]
fn versions() {
    let [first, second] = [first_add(), second_add()].map(modify);
    for version in [0, 4] {
        let mut gate = Gate::new(&k_set(&[(0, 4, version)])).unwrap();
        assert_eq!(gate.command(&first), Ok(Commanded::Forwarded { count: 20 }));
        assert_eq!(gate.records(), k_set(&[(0, 4, version)]));
    }
    let old = k_set(&[(0, 4, 1)]);
    let mut gate = Gate::new(&old).unwrap();
    assert_eq!(gate.command(&first), Ok(Commanded::Blocked { policy: 0, state: 3 }));
    assert_eq!(gate.records(), old);
    assert_eq!(gate.command(&second), Ok(Commanded::Forwarded { count: 21 }));
    let added = with(second, 0, 4);
    assert_eq!(gate.records(), [&old[..6], &[added], &old[6..]].concat());
    // Now it is there, and only its actions change.
    let dropping = with(second, 10, 0);
    assert_eq!(gate.command(&dropping), Ok(Commanded::Forwarded { count: 21 }));
    assert_eq!(gate.records(), [&old[..6], &[with(added, 10, 0)], &old[6..]].concat());

    let mut gate = Gate::new(&full_switch(1)).unwrap();
    let sent = |priority| modify(rule(0, priority, ANY, ANY, &[output(1, 3)]));
    assert_eq!(gate.command(&sent(256)), Err(Refusal { row: 13, place: 0 }));
    assert_eq!(gate.command(&sent(255)), Ok(Commanded::Forwarded { count: 258 }));
}

/// Two rules of equal priority both act, each on the frame as it arrived; one of higher priority acts
/// alone.
#[test]
fn equal_priorities() {
    let mut gate = Gate::new(&k()).unwrap();
    // Beside rule A, header 0 goes to the controller as header 1: states 20 and 23 follow state 2.
    let beside =
        |priority, port| add(rule(0, priority, ANY, [0, 1], &[set(1, 1), output(port, 3)]));
    assert_eq!(gate.command(&beside(10, 3)), Ok(Commanded::Forwarded { count: 21 }));
    assert_eq!(gate.route(2, 20), Ok(Some(vec![2, 20])));
    assert_eq!(gate.route(2, 23), Ok(Some(vec![2, 23])));
    assert_eq!(gate.route(2, 21), Ok(None));
    // To port 2 it would let header 1 out, though rule A stands before it.
    assert_eq!(gate.command(&beside(10, 2)), Ok(Commanded::Blocked { policy: 0, state: 2 }));
    assert_eq!(gate.command(&beside(11, 3)), Ok(Commanded::Forwarded { count: 22 }));
    assert_eq!(gate.route(2, 20), Ok(None));
    assert_eq!(gate.route(2, 23), Ok(Some(vec![2, 23])));
}

/// A frame goes through a group in one step, and commands may name a group that is there.
#[test]
fn groups() {
    // Group 1 of switch 0 sends to port 2 as it came, and to port 1 with header 1.
    let group = record(&[9, 0, 1, 0, 0, 0, 0, 0, 2, 0, 0, 1, 2, 1, 1, 1, 1]);
    let mut gate = Gate::new(&[k(), vec![group]].concat()).unwrap();
    assert_eq!(gate.check(), Checked::Holds);
    let by_group = |priority, header| add(rule(0, priority, [1, 3], header, &[[4, 1, 0]]));
    // From port 1 the copy to port 1 is not sent; header 1 would leave by port 2.
    assert_eq!(gate.command(&by_group(20, ANY)), Ok(Commanded::Blocked { policy: 0, state: 3 }));
    assert_eq!(gate.command(&by_group(20, [0, 1])), Ok(Commanded::Forwarded { count: 22 }));
    assert_eq!(gate.records()[21], group);
    assert_eq!(gate.route(2, 28), Ok(Some(vec![2, 20, 10, 28])));
    assert_eq!(gate.route(2, 19), Ok(None));
    let absent = add(rule(1, 20, [1, 3], ANY, &[[4, 1, 0]]));
    assert_eq!(gate.command(&absent), Err(Refusal { row: 16, place: 0 }));
    assert_eq!(gate.count(), 22);
}

/// Rows 2 and 11 are of buffers that a caller chooses.
#[test]
fn lent_buffers() {
    let k = k();
    let mut store = store(&k);
    assert_eq!(work_bytes(&k), 2_048);
    let mut work = vec![7; 2_048];
    assert_eq!(check(&store, 20, &mut work), Ok(Checked::Holds));
    assert_eq!(work, vec![0; 2_048]);
    let row = |row| Refusal { row, place: 0 };
    assert_eq!(check(&store[1..], 20, &mut work), Err(row(2)));
    assert_eq!(check(&[], 20, &mut []), Err(row(2)));
    assert_eq!(check(&store, 20, &mut work[1..]), Err(row(11)));
    assert_eq!(command(&mut store, 20, &mut [], &first_add()), Err(row(11)));
    assert_eq!(command(&mut store, 20, &mut work, &[]), Err(row(12)));
    let answer = command(&mut store, 20, &mut work, &first_add());
    assert_eq!(answer, Ok(Commanded::Blocked { policy: 0, state: 3 }));
    assert!(Gate::with_work(&k, 2_048).is_ok());
    assert_eq!(Gate::with_work(&k, 2_047).err(), Some(row(11)));
}

/// The route call writes the route's entries and no other, and reads neither policy nor list.
#[test]
fn lent_lists() {
    let k = k();
    let store = store(&k);
    let mut work = vec![7; 2_049];
    let mut list = [9; 33];
    assert_eq!(list_entries(&k), 33);
    let answer = route(&store, 20, &mut work, 2, 28, &mut list);
    assert_eq!(answer, Ok(Routed::Found { count: 4 }));
    assert_eq!(list[..4], [2, 20, 10, 28]);
    assert_eq!(list[4..], [9; 29]);
    assert_eq!(work, [vec![0; 2_048], vec![7]].concat());

    let (mut work, mut list) = (vec![7; 2_048], [9; 33]);
    assert_eq!(route(&store, 20, &mut work, 28, 2, &mut list), Ok(Routed::NoRoute));
    assert_eq!((list, &work), ([9; 33], &vec![0; 2_048]));

    let mut work = vec![7; 2_048];
    let mut refused = |store: &[u8], n, bytes, start, end, entries| {
        let answer = route(store, n, &mut work[..bytes], start, end, &mut list[..entries]);
        assert_eq!((list, &work), ([9; 33], &vec![7; 2_048]));
        answer.unwrap_err()
    };
    let row = |row| Refusal { row, place: 0 };
    assert_eq!(refused(&store, 0, 2_048, 2, 28, 33), row(1));
    assert_eq!(refused(&store[1..], 20, 2_048, 2, 28, 33), row(2));
    assert_eq!(refused(&[], 20, 0, 32, 32, 0), row(2));
    assert_eq!(refused(&store, 3, 2_048, 2, 28, 33), Refusal { row: 7, place: 3 });
    assert_eq!(refused(&store, 20, 2_047, 32, 28, 33), row(11));
    assert_eq!(refused(&store, 20, 2_048, 32, 28, 32), row(14));
    assert_eq!(refused(&store, 20, 2_048, 2, 32, 33), row(14));
    assert_eq!(refused(&store, 20, 2_048, 2, 28, 32), row(15));
    assert_eq!(refused(&store, 20, 2_048, 28, 2, 0), row(15));
}

/// The work and the list are exactly what a network of any widths needs, and never more than the
/// most.
#[test]
fn buffers_are_sized_to_the_network() {
    let mut random = Random::new(1);
    for of in all_widths() {
        for network in [random_network(&mut random, of, MODEST), crowded(&mut random, of)] {
            assert_eq!(work_bytes(&network), work_needed(&network));
            let entries = list_entries(&network);
            assert!(entries <= MOST_LIST_ENTRIES);
            let mut gate = Gate::new(&network).unwrap();
            assert!(gate.route(entries - 2, 0).is_ok());
            assert_eq!(gate.route(entries - 1, 0), Err(Refusal { row: 14, place: 0 }));
        }
    }
    let mut ward = vec![widths(6, 3, 0), miss(0, &[output(0, 7)])];
    ward.extend(policy(0, &[vec![external(X); 31], vec![tc(0, X, X)]].concat()));
    assert_eq!(work_bytes(&ward), MOST_WORK_BYTES);
    assert!(Gate::new(&ward).is_ok());
    for first in [[0; 24], with(ward[0], 1, 7), with(ward[0], 2, 4), [255; 24]] {
        assert_eq!((work_bytes(&[first]), list_entries(&[first])), (0, 0));
    }
    assert_eq!((work_bytes(&[]), list_entries(&[])), (0, 0));
}

#[test]
fn refusals_in_words() {
    let words = |row, place| Refusal { row, place }.to_string();
    assert_eq!(words(1, 0), "refused by row 1: there are no records, or more than 657");
    let field = "a field is outside its range or width, the version is not 0, 1 or 4, an action \
                 is bad, or an unnamed byte is not zero";
    assert_eq!(words(5, 0), format!("refused by row 5 at record 0: {field}"));
    assert_eq!(words(8, 5), "refused by row 8 at record 5: the same rule stands twice");
    let full = "256 rules are present, and the command would add a new one";
    assert_eq!(words(13, 0), format!("refused by row 13: {full}"));
    assert_eq!(words(14, 0), "refused by row 14: the start or the end is not below 2^N");
    assert_eq!(words(15, 0), "refused by row 15: the list has fewer than 2^N + 1 entries");
    let group = "a group has a faulty field, is out of order or the 17th, a bucket's group is not \
                 lower, or a group is named that its switch does not have";
    assert_eq!(words(16, 0), format!("refused by row 16: {group}"));
    assert_eq!(words(16, 4), format!("refused by row 16 at record 4: {group}"));
    assert_eq!(words(17, 0), "refused by row 17: no row has this number");
    let meanings: Vec<&str> = (1..=16).map(|row| Refusal { row, place: 0 }.meaning()).collect();
    for (place, meaning) in meanings.iter().enumerate() {
        assert!(!meanings[..place].contains(meaning), "{meaning}");
    }
}
