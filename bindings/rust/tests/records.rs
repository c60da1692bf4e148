//! Records put together from their parts: the bytes, and what has no room.

use wegbaro::records::{Action, Bucket, Command, Group, Link, Match, Miss, Node, Pattern, Point};
use wegbaro::records::{PolicyNode, Rule, Target, Variable::*, Widths};
use wegbaro::{Gate, Record, Refusal};
use wegbaro_tests::k::{delete_d, first_add, k, k_with_d, second_add};
use wegbaro_tests::records as bytes;

/// A number of K's two port bits.
fn port(number: u8) -> Pattern {
    Pattern::exactly(number, 2)
}

/// A number of K's one header bit.
fn header(number: u8) -> Pattern {
    Pattern::exactly(number, 1)
}

/// What K's rules and misses do.
fn sent_to(number: u8) -> [Action; 1] {
    [Action::Output(port(number))]
}

fn k_of_parts() -> Vec<Record> {
    let ends = [Point { switch: 0, port: 2 }, Point { switch: 1, port: 1 }];
    let a = Match { switch: 0, priority: 10, port: port(1), header: header(0) };
    let b = Match { switch: 1, priority: 10, port: port(1), header: Pattern::ANY };
    let mut records = vec![
        Widths { header: 1, port: 2, switch: 1, version: 0 }.record(),
        Link { ends }.record(),
        Miss { switch: 0, actions: &sent_to(0) }.record(),
        Miss { switch: 1, actions: &sent_to(0) }.record(),
        Rule { of: a, actions: &sent_to(2) }.record(),
        Rule { of: b, actions: &sent_to(2) }.record(),
    ];
    let nodes = [
        Node::E(X),
        Node::Bit(X, 4),
        Node::Not(1),
        Node::And(0, 2),
        Node::R(X, Y),
        Node::Tc(4, X, Y),
        Node::E(Y),
        Node::Bit(Y, 4),
        Node::Bit(Y, 0),
        Node::And(6, 7),
        Node::And(9, 8),
        Node::And(5, 10),
        Node::Some(11, Y),
        Node::And(3, 12),
    ];
    records.extend(nodes.map(|node| PolicyNode { policy: 0, node }.record()));
    records
}

#[test]
fn network_k_and_its_commands() {
    assert_eq!(k_of_parts(), k());
    let all = Match { switch: 0, priority: 5, port: Pattern::ANY, header: Pattern::ANY };
    let first = Rule { of: all, actions: &sent_to(2) };
    assert_eq!(Command::Add(first).record(), first_add());
    let second = Rule { of: Match { header: header(0), ..all }, actions: &sent_to(2) };
    assert_eq!(Command::Add(second).record(), second_add());
    let d = Match { priority: 8, header: header(1), ..all };
    assert_eq!(Command::Delete(d).record(), delete_d());
    let rule_d = Rule { of: d, actions: &sent_to(0) };
    assert_eq!(k_with_d()[6..8], [first.record(), rule_d.record()]);
}

/// Each field has a value of its own, so that two that are exchanged are seen.
#[test]
fn every_field_has_its_byte() {
    let widths = Widths { header: 6, port: 2, switch: 1, version: 4 };
    assert_eq!(widths.record(), bytes::record(&[1, 6, 2, 1, 4]));
    let ends = [Point { switch: 1, port: 2 }, Point { switch: 3, port: 4 }];
    assert_eq!(Link { ends }.record(), bytes::link(1, 2, 3, 4));

    let [port, header] = [[5, 7], [8, 25]];
    let pattern = |[value, care]: [u8; 2]| Pattern { value, care };
    let of = Match { switch: 9, priority: 0x1234, port: pattern(port), header: pattern(header) };
    let actions = [
        Action::Set(pattern([1, 3])),
        Action::Group(15),
        Action::InPort,
        Action::Output(pattern([4, 6])),
    ];
    let laid_out = [bytes::set(1, 3), bytes::run(15), bytes::IN_PORT, bytes::output(4, 6)];
    let rule = bytes::rule(9, 0x1234, port, header, &laid_out);
    assert_eq!(Rule { of, actions: &actions }.record(), rule);
    assert_eq!(Command::Add(Rule { of, actions: &actions }).record(), bytes::add(rule));
    assert_eq!(Command::Modify(Rule { of, actions: &actions }).record(), bytes::modify(rule));
    assert_eq!(Command::Delete(of).record(), bytes::delete(rule));
    assert_eq!(Miss { switch: 9, actions: &actions }.record(), bytes::miss(9, &laid_out));

    let buckets = [
        Bucket { set: pattern([1, 3]), to: Target::Port(5) },
        Bucket { set: Pattern::ANY, to: Target::Group(6) },
        Bucket { set: pattern([8, 12]), to: Target::Port(7) },
    ];
    let laid_out =
        [bytes::to_port([1, 3], 5), bytes::to_group(bytes::ANY, 6), bytes::to_port([8, 12], 7)];
    let group = Group { switch: 2, number: 14, buckets: &buckets };
    assert_eq!(group.record(), bytes::group(2, 14, &laid_out));
}

#[test]
fn every_node_has_its_kind() {
    for (node, laid_out) in [
        (Node::Bit(Y, 9), [0, 1, 9]),
        (Node::R(Y, X), [1, 1, 0]),
        (Node::E(Y), [2, 1, 0]),
        (Node::Not(7), [3, 7, 0]),
        (Node::And(5, 6), [4, 5, 6]),
        (Node::Or(5, 6), [5, 5, 6]),
        (Node::Some(5, Y), [6, 5, 1]),
        (Node::All(5, X), [7, 5, 0]),
        (Node::Tc(5, X, X), [8, 5, 0]),
        (Node::Tc(5, X, Y), [8, 5, 1]),
        (Node::Tc(5, Y, X), [8, 5, 2]),
        (Node::Tc(5, Y, Y), [8, 5, 3]),
    ] {
        let [kind, one, other] = laid_out;
        let record = bytes::record(&[5, 3, kind, one, other]);
        assert_eq!(PolicyNode { policy: 3, node }.record(), record, "{node:?}");
    }
}

/// K with a record in place of its own.
fn refused(place: usize, record: Record) -> Option<Refusal> {
    let mut records = k();
    records[place] = record;
    Gate::new(&records).err()
}

/// What has no room, or no place in its width, is refused and not taken for something else.
#[test]
fn what_does_not_fit_is_refused() {
    let actions = [sent_to(2); 5].concat();
    let row_5 = |place| Some(Refusal { row: 5, place });
    assert_eq!(refused(2, Miss { switch: 0, actions: &actions[..4] }.record()), None);
    for too_many in [5, 300] {
        let actions = actions.repeat(too_many / 5);
        assert_eq!(refused(2, Miss { switch: 0, actions: &actions }.record()), row_5(2));
    }
    assert_eq!(refused(2, Miss { switch: 0, actions: &sent_to(4) }.record()), row_5(2));

    let bucket = Bucket { set: Pattern::ANY, to: Target::Port(1) };
    let with_group = |buckets: &[Bucket]| {
        let group = Group { switch: 0, number: 0, buckets }.record();
        Gate::new(&[k(), vec![group]].concat()).err()
    };
    assert_eq!(with_group(&[bucket; 3]), None);
    assert_eq!(with_group(&[bucket; 4]), Some(Refusal { row: 16, place: 20 }));
    assert_eq!(Pattern::exactly(255, 8), Pattern { value: 255, care: 255 });
}
