//! The buffers that a network needs, owned, and the calls over them.

use wegbaro::{Buffers, Checked, Commanded, Refusal};
use wegbaro_tests::k::{first_add, k, k_set, k_with_d, second_add};

fn row(row: usize) -> Refusal {
    Refusal { row, place: 0 }
}

#[test]
fn a_network_that_holds() {
    let mut buffers = Buffers::new(&k());
    assert_eq!(buffers.check(), Ok(Checked::Holds));
    assert_eq!(buffers.route(2, 28), Ok(Some(vec![2, 20, 10, 28])));
    assert_eq!(buffers.route(28, 2), Ok(None));
    assert_eq!(buffers.route(0, 32), Err(row(14)));
    assert_eq!(format!("{buffers:?}"), "Buffers { count: 20, .. }");
}

/// What is asked later is asked of the network that a forwarded command left.
#[test]
fn commands_change_the_network_or_leave_it() {
    let mut buffers = Buffers::new(&k());
    assert_eq!(buffers.command(&first_add()), Ok(Commanded::Blocked { policy: 0, state: 3 }));
    assert_eq!(buffers.command(&[]), Err(row(12)));
    assert_eq!(buffers.route(6, 28), Ok(None));
    assert_eq!(buffers.records(), k());
    assert_eq!(buffers.command(&second_add()), Ok(Commanded::Forwarded { count: 21 }));
    assert_eq!((buffers.records().len(), buffers.check()), (21, Ok(Checked::Holds)));
    assert_eq!(buffers.route(6, 28), Ok(Some(vec![6, 20, 10, 28])));
}

/// Nothing is judged unasked: a network that does not hold has routes, and one that is refused has
/// its records.
#[test]
fn a_network_that_does_not_hold_or_is_refused() {
    let with_d = k_with_d();
    let mut violated = Buffers::new(&[&with_d[..7], &with_d[8..]].concat());
    assert_eq!(violated.route(3, 29), Ok(Some(vec![3, 21, 11, 29])));
    assert_eq!(violated.check(), Ok(Checked::Violated { policy: 0, state: 3 }));

    let faulty = k_set(&[(4, 23, 1)]);
    let mut refused = Buffers::new(&faulty);
    assert_eq!(refused.check(), Err(Refusal { row: 5, place: 4 }));
    assert_eq!(refused.command(&second_add()), Err(Refusal { row: 5, place: 4 }));
    assert_eq!(refused.route(2, 28), Err(Refusal { row: 5, place: 4 }));
    assert_eq!(refused.records(), faulty);

    let mut too_many = Buffers::new(&vec![[0; 24]; 658]);
    assert_eq!((too_many.check(), too_many.records().len()), (Err(row(1)), 658));
}

#[test]
fn with_less_work() {
    assert_eq!(Buffers::with_work(&k(), 2_048).check(), Ok(Checked::Holds));
    let mut short = Buffers::with_work(&k(), 2_047);
    assert_eq!(short.check(), Err(row(11)));
    assert_eq!(short.command(&second_add()), Err(row(11)));
    assert_eq!(short.route(2, 28), Err(row(11)));
}
