//! What the words beside an answer are made of, held against the library and the second
//! implementation.

mod common;
mod seeded;

use common::with_policies;
use seeded::seeded;
use wegbaro::{check, command, work_bytes, Gate, Refusal, STORE_BYTES};
use wegbaro_tests::commands::random_command;
use wegbaro_tests::damage::damage;
use wegbaro_tests::formulas::{and, or, policy, push, push_is_state, random_formula, some, Y};
use wegbaro_tests::gate::{Answer, Call, Gate as _, Lent};
use wegbaro_tests::networks::{all_widths, crowded, guarded_network, random_network};
use wegbaro_tests::networks::{Sizes, Widths, MODEST};
use wegbaro_tests::random::Random;
use wegbaro_tests::records::{delete, miss, modify, output, record, rule, widths, with};
use wegbaro_tests::records::{ANY, VERSIONS};
use wegbaro_tests::second::{self, Second};
use wegbaro_tools::answers::Standing;
use wegbaro_tools::book::{Book, Origin};
use wegbaro_tools::causes::{command_cause, network_cause, Telling};
use wegbaro_tools::formula::Node;
use wegbaro_tools::names::Names;
use wegbaro_tools::parse::{parse, parse_command};
use wegbaro_tools::print::whole_records;
use wegbaro_tools::route::find;
use wegbaro_tools::source::Source;
use wegbaro_tools::steps::{Network, State};
use wegbaro_tools::truth::Truth;
use wegbaro_tools::{actions, Record};

const SMALL: Widths = Widths { h: 1, p: 2, w: 1 };
/// One switch, so that formulas have room for every bit of two states.
const ONE: Widths = Widths { h: 1, p: 2, w: 0 };
const BARE: Sizes = Sizes { links: 3, rules: 8, policies: 0, nodes: 0, ..MODEST };

fn network(records: &[Record]) -> Network<'_> {
    Network::new(records).unwrap()
}

/// Whether a record that acts on a state sends through a group.
fn through_group(network: Network, number: usize) -> bool {
    let acting = network.acting(State::numbered(number, network.widths));
    let is_through = |place: &usize| actions(&network.records[*place]).any(|[kind, ..]| kind == 4);
    acting.iter().any(is_through)
}

/// Whether several rules act on a state.
fn by_several(network: Network, number: usize) -> bool {
    network.acting(State::numbered(number, network.widths)).len() > 1
}

/// The states that a state steps to, once each.
fn next(network: Network, number: usize) -> Vec<usize> {
    let state = State::numbered(number, network.widths);
    assert_eq!(state.number(network.widths), number);
    let mut next: Vec<usize> =
        network.next(state).iter().map(|state| state.number(network.widths)).collect();
    next.sort();
    next.dedup();
    next
}

/// One switch, N of 4: a state is 8 (departing) + 2 port + header. An output skips the port of
/// arrival, be it the controller's, and `in_port` goes there with the header of its moment.
#[test]
fn steps_to_the_port_of_arrival() {
    // The steps from ports 0 to 3, with header 0 and header 1 each.
    let steps = |actions: &str, expected: [&[usize]; 8]| {
        let parsed = parse(&format!("widths H 1 P 2 W 0\nmiss 0: {actions}\n")).unwrap();
        let (records, _) = whole_records(&parsed.bytes);
        let found: Vec<_> = (0..8).map(|number| next(network(&records), number)).collect();
        assert_eq!(found, expected, "{actions}");
    };
    steps("output **", [&[], &[], &[12], &[13], &[10], &[11], &[10, 12], &[11, 13]]);
    steps("output 1", [&[], &[], &[], &[], &[10], &[11], &[10], &[11]]);
    steps("output 0*", [&[], &[], &[], &[], &[10], &[11], &[10], &[11]]);
    steps("output controller", [&[], &[], &[14], &[15], &[14], &[15], &[], &[]]);
    steps("in_port", [&[], &[], &[10], &[11], &[12], &[13], &[14], &[15]]);
    steps(
        "output **, set 1, in_port",
        [&[], &[], &[11, 12], &[11, 13], &[10, 13], &[11, 13], &[10, 12, 15], &[11, 13, 15]],
    );
}

/// One switch, N of 5: a state is 16 (departing) + 4 port + header. A bucket works on the header with
/// which a frame comes to its group, and skips the port of arrival; behind the group the header is
/// the one from before it.
#[test]
fn steps_through_groups() {
    const GROUPS: &str = "\
group 0/0: output 1; set 1*, output 2
group 0/3: set *1, group 0; output 3; output 0
group 0/9: group 3; set 0*, group 0; set 00, output 2
";
    // The steps from ports 1 to 3 with header 0.
    let steps = |actions: &str, expected: [&[usize]; 3]| {
        let text = format!("widths H 2 P 2 W 0\nmiss 0: {actions}\n{GROUPS}");
        let (records, _) = whole_records(&parse(&text).unwrap().bytes);
        let found = [4, 8, 12].map(|number| next(network(&records), number));
        assert_eq!(found, expected, "{actions}");
    };
    steps("group 0", [&[26], &[20], &[20, 26]]);
    steps("set 3, group 0", [&[27], &[23], &[23, 27]]);
    steps("group 3", [&[16, 27, 28], &[16, 21, 28], &[16, 21, 27]]);
    steps("group 9", [&[16, 24, 26, 27, 28], &[16, 20, 21, 28], &[16, 20, 21, 24, 26, 27]]);
    steps("group 0, in_port", [&[20, 26], &[20, 24], &[20, 26, 28]]);
    steps("group 0, set 01, group 0", [&[26, 27], &[20, 21], &[20, 21, 26, 27]]);
}

/// Sixteen groups of three buckets, each of which goes on to the next group, would run the lowest one
/// 3^15 times for each state. The words have the same states without that.
#[test]
fn groups_in_a_row() {
    let mut text = "widths H 6 P 2 W 0\nmiss 0: group 15\ngroup 0/0: output 1\n".to_string();
    for number in 1..16 {
        let [lower, bit] = [number - 1, number % 6];
        let one = |fixed| format!("{}{fixed}{}", "*".repeat(5 - bit), "*".repeat(bit));
        let [zero, one] = [one('0'), one('1')];
        text += &format!("group 0/{number}: group {lower}; set {zero}, group {lower}; ");
        text += &format!("set {one}, group {lower}\n");
    }
    let (records, _) = whole_records(&parse(&text).unwrap().bytes);
    // A state is 256 (departing) + 64 port + header: every header departs at port 1.
    let [from_1, from_2] = [64, 128].map(|number| next(network(&records), number));
    assert_eq!((from_1, from_2), (vec![], (256 + 64..256 + 128).collect()));
}

#[test]
fn steps_are_those_of_the_second_implementation() {
    let mut random = seeded(1);
    let [mut back, mut through, mut several] = [0, 0, 0];
    for of in all_widths() {
        let records = random_network(&mut random, of, MODEST);
        let ours = network(&records);
        let Ok(theirs) = second::file::read(&records) else { panic!("refused") };
        for (number, theirs) in second::steps::all_steps(&theirs).iter().enumerate() {
            let expected: Vec<usize> =
                (0..ours.states()).filter(|state| theirs.contains(*state)).collect();
            let steps = next(ours, number);
            assert_eq!(steps, expected, "{of:?}, state {number}");
            let departing = number + ours.states() / 2;
            back += usize::from(steps.iter().any(|to| to >> of.h == departing >> of.h));
            through += usize::from(through_group(ours, number));
            several += usize::from(by_several(ours, number));
        }
    }
    assert!(back > 100, "{back} states step back to their port");
    assert!(through > 100, "{through} states go through a group");
    assert!(several > 100, "on {several} states several rules act");
}

/// Two states make a route of the library just where the one steps to the other.
#[test]
fn steps_are_those_of_the_library() {
    let mut random = seeded(9);
    let [mut back, mut through, mut several] = [0, 0, 0];
    for _ in 0..60 {
        let records = random_network(&mut random, SMALL, BARE);
        let network = network(&records);
        for from in 0..32 {
            let is_step = |to: &usize| find(&records, [from, *to]) == Ok(Some(vec![from, *to]));
            let steps: Vec<usize> = (0..32).filter(is_step).collect();
            assert_eq!(next(network, from), steps, "state {from} of {records:?}");
            back += usize::from(steps.iter().any(|to| to >> 1 == (from + 16) >> 1));
            through += usize::from(through_group(network, from));
            several += usize::from(by_several(network, from));
        }
    }
    assert!(back > 20, "{back} states step back to their port");
    assert!(through > 20, "{through} states go through a group");
    assert!(several > 20, "on {several} states several rules act");
}

/// The lowest state that breaks the one policy, by the second implementation.
fn lowest(records: &[Record]) -> Option<usize> {
    match Second.answer(&Call::Check, &mut Lent::just(records)) {
        Answer::Holds => None,
        Answer::Violated { state, .. } => Some(state),
        refused => panic!("{refused:?}"),
    }
}

#[test]
fn truth_is_that_of_the_second_implementation() {
    let mut random = seeded(2);
    let [mut held, mut broken] = [0, 0];
    for round in 0..400 {
        let of = if round % 10 == 0 { Widths { h: 2, p: 3, w: 1 } } else { SMALL };
        let bare = random_network(&mut random, of, BARE);
        let length = 1 + random.below(14);
        let nodes = random_formula(&mut random, of.bits(), length);
        let truth = Truth::of(network(&bare), &nodes);
        let ours = (0..1 << of.bits()).find(|state| truth.breaks(*state));
        assert_eq!(ours, lowest(&with_policies(&bare, &policy(0, &nodes))), "{nodes:?}");
        match ours {
            Some(_) => broken += 1,
            None => held += 1,
        }
    }
    assert!(held > 50 && broken > 50, "{held} held, {broken} broken");
}

/// A formula over X and Y.
fn random_pair(random: &mut Random, bits: u8) -> Vec<Node> {
    let variable = |random: &mut Random| random.below(2) as u8;
    let mut nodes =
        vec![[1, variable(random), variable(random)], [0, Y, random.below(bits.into()) as u8]];
    for _ in 0..random.below(4) {
        let last = nodes.len() as u8 - 1;
        let earlier = random.below(nodes.len()) as u8;
        nodes.push(match random.below(4) {
            0 => [3, last, 0],
            1 => and(last, earlier),
            2 => or(last, earlier),
            _ => [8, last, random.below(4) as u8],
        });
    }
    nodes
}

/// The Y of the first `exists Y.`.
fn first_y(truth: &Truth, x: usize) -> Option<usize> {
    truth.reasons(x).unwrap().iter().find_map(|reason| reason.y)
}

/// Whether a formula is true for a pair of states, by the second implementation.
fn is_true(bare: &[Record], nodes: &[Node], x: usize, y: usize) -> bool {
    let bits = network(bare).widths.bits();
    let mut nodes = nodes.to_vec();
    let whole = nodes.len() as u8 - 1;
    let is_y = push_is_state(&mut nodes, Y, y, bits);
    let both = push(&mut nodes, and(whole, is_y));
    let there = push(&mut nodes, some(both, Y));
    let is_x = push_is_state(&mut nodes, 0, x, bits);
    push(&mut nodes, and(there, is_x));
    lowest(&with_policies(bare, &policy(0, &nodes))) == Some(x)
}

/// With `A & exists Y. B` the witness is the lowest Y that makes B true with the state.
#[test]
fn the_witness_is_the_lowest() {
    let mut random = seeded(3);
    let mut found = 0;
    for round in 0..400 {
        let bare = random_network(&mut random, ONE, BARE);
        let inner = random_pair(&mut random, 4);
        let mut nodes = inner.clone();
        let there = push(&mut nodes, some(inner.len() as u8 - 1, Y));
        // In a conjunction, in a disjunction, or alone.
        let outside = push(&mut nodes, [2, 0, 0]);
        match round % 3 {
            0 => push(&mut nodes, and(outside, there)),
            1 => push(&mut nodes, or(there, there)),
            _ => push(&mut nodes, and(there, there)),
        };
        let truth = Truth::of(network(&bare), &nodes);
        let Some(x) = (0..16).rev().find(|state| truth.breaks(*state)) else { continue };
        let y = first_y(&truth, x).unwrap();
        assert!(is_true(&bare, &inner, x, y), "{inner:?}");
        assert!((0..y).all(|lower| !is_true(&bare, &inner, x, lower)), "{inner:?}");
        found += usize::from(y > 0);
    }
    assert!(found > 40, "{found}");
}

#[test]
fn no_witness_where_no_y_is_chosen() {
    let bare = random_network(&mut seeded(4), SMALL, BARE);
    let of = |nodes: &[Node]| first_y(&Truth::of(network(&bare), nodes), 31);
    let [bit, some_y, all_y] = [[0, 1, 3], [6, 0, 1], [7, 0, 1]];
    assert_eq!(of(&[bit, some_y]), Some(8));
    // Not for all Y: the lowest for which it is false.
    assert_eq!(of(&[bit, all_y, [3, 1, 0]]), Some(0));
    assert_eq!(of(&[bit, [3, 0, 0], [7, 1, 1], [3, 2, 0]]), Some(8));
    assert_eq!(of(&[[0, 0, 3]]), None);
    assert_eq!(of(&[[0, 0, 3], [6, 0, 0]]), None);
    assert_eq!(of(&[bit, some_y, [3, 1, 0], [3, 2, 0]]), Some(8));
}

/// The walk of a policy about what is reached leads by steps from X to Y, and none is shorter.
#[test]
fn walks() {
    let mut random = seeded(5);
    let mut longest = 0;
    for _ in 0..60 {
        let records = random_network(&mut random, SMALL, BARE);
        let network = network(&records);
        let from = random.below(32);
        let mut reached = vec![from];
        for distance in 1..32 {
            let steps = |to: &usize| reached.iter().any(|state| network.steps(*state, *to));
            let next: Vec<usize> = (0..32).filter(steps).collect();
            for to in &next {
                let walk = walk_to(network, from, *to);
                assert!(walk.len() <= distance + 1 && walk[0] == from);
                assert_eq!(walk.last(), Some(to));
                assert!(walk.windows(2).all(|pair| network.steps(pair[0], pair[1])));
                longest = longest.max(walk.len());
            }
            reached = next;
        }
    }
    assert!(longest > 4, "{longest}");
}

/// The walk from a state to another, which is reached.
fn walk_to(network: Network, from: usize, to: usize) -> Vec<usize> {
    let mut nodes = vec![[1, 0, 1], [8, 0, 1]];
    let is_y = push_is_state(&mut nodes, Y, to, 5);
    let both = push(&mut nodes, and(is_y, 1));
    push(&mut nodes, some(both, Y));
    let reasons = Truth::of(network, &nodes).reasons(from).unwrap();
    assert_eq!(reasons.len(), 2);
    assert_eq!(reasons[1].y, Some(to));
    reasons[1].walks[0].clone()
}

/// What many shared nodes are made of is looked at once.
#[test]
fn reasons_of_shared_nodes() {
    let bare = random_network(&mut seeded(8), SMALL, BARE);
    let mut nodes = vec![[0, 1, 3], [6, 0, 1]];
    for last in 1..31 {
        push(&mut nodes, and(last, last));
    }
    let reasons = Truth::of(network(&bare), &nodes).reasons(31).unwrap();
    assert_eq!(reasons.iter().filter(|reason| reason.y == Some(8)).count(), 1);
}

/// The book goes with the gate's store through a series of commands.
#[test]
fn the_book_goes_with_the_gate() {
    let mut random = seeded(6);
    let [mut forwarded, mut blocked, mut added] = [0, 0, 0];
    for round in 0..60 {
        let mut records = guarded_network(&mut random, SMALL);
        records[0][4] = VERSIONS[round % VERSIONS.len()];
        let mut gate = Gate::new(&records).unwrap();
        let mut book = Book::new(&records, &[]);
        for number in 1..60 {
            let given = random_command(&mut random, gate.records());
            let Ok(given) = Record::try_from(given) else { continue };
            let before = gate.records().to_vec();
            match gate.command(&given) {
                Ok(wegbaro::Commanded::Forwarded { .. }) => {
                    book = book.after(&given, Origin::Command(number));
                    forwarded += 1;
                }
                Ok(_) => blocked += 1,
                Err(_) => {}
            }
            assert_eq!(book.records, gate.records(), "{given:?} on {before:?}");
            assert_eq!(book.origins.len(), book.records.len());
            added += usize::from(given[0] == 7 && gate.count() > before.len());
        }
    }
    assert!(forwarded > 100 && blocked > 50, "{forwarded} forwarded, {blocked} blocked");
    assert!(added > 20, "{added} rules added by a modify");
}

/// A modify without its rule: in version 1 the book has one rule more, behind the others.
#[test]
fn a_modify_without_its_rule() {
    let [low, high] = [10, 20].map(|priority| rule(0, priority, ANY, ANY, &[output(1, 3)]));
    let group = record(&[9, 0, 0, 0, 0, 0, 0, 0, 1, 0, 0, 1, 1]);
    let before = |version: u8, rules: &[Record]| {
        let start = [with(widths(1, 2, 0), 4, version), miss(0, &[output(0, 3)])];
        Book::new(&[&start, rules, &[group]].concat(), &[])
    };
    for version in [0, 4] {
        let book = before(version, &[high]);
        assert_eq!(book.after(&modify(low), Origin::Command(1)), book);
    }
    let left = before(1, &[high]).after(&modify(low), Origin::Command(1));
    assert_eq!(left.records, before(1, &[high, low]).records);
    let origins: Vec<String> = left.origins.iter().map(Origin::to_string).collect();
    assert_eq!(origins, ["record 0", "record 1", "record 2", "command 1", "record 3"]);
    let first = before(1, &[]).after(&modify(low), Origin::Command(1));
    assert_eq!(first.records, before(1, &[low]).records);
    // With its rule it replaces the actions, and a delete without its rule changes nothing.
    let dropped = rule(0, 20, ANY, ANY, &[output(0, 3)]);
    let replaced = left.after(&modify(dropped), Origin::Command(2));
    assert_eq!(replaced.records, before(1, &[dropped, low]).records);
    assert_eq!(first.after(&delete(high), Origin::Command(2)), first);
}

/// Puts the last node of the last policy there once more.
fn repeat_last_node(records: &mut Vec<Record>) {
    let last = records.iter().rposition(|record| record[0] == 5).expect("a policy");
    records.insert(last, records[last]);
}

/// Every refusal of a damaged network or command has a cause of its own row.
#[test]
fn every_refusal_has_a_cause() {
    let mut random = seeded(7);
    let mut seen = [0; 17];
    let mut words: Vec<Vec<String>> = vec![vec![]; 17];
    let mut count = |refusal: Refusal, cause: Option<wegbaro_tools::causes::Cause>, of: &str| {
        let Some(cause) = cause else { panic!("{refusal} without a cause: {of}") };
        seen[refusal.row] += 1;
        let words = &mut words[refusal.row];
        let form: String = cause.words.chars().filter(|c| !c.is_ascii_digit()).collect();
        if !words.contains(&form) {
            words.push(form);
        }
    };
    let telling = Telling { at: &|place| format!("record {place}"), names: &Names::default() };
    for round in 0..20_000 {
        let mut records = match round % 40 {
            0 => crowded(&mut random, SMALL),
            1..=20 => guarded_network(&mut random, SMALL),
            _ => random_network(&mut random, Widths { h: 2, p: 2, w: 1 }, MODEST),
        };
        // Damage seldom makes one node too many for a policy.
        match round % 200 {
            0 => repeat_last_node(&mut records),
            _ => drop(damage(&mut random, &mut records)),
        }
        let mut store = records.concat();
        store.resize(STORE_BYTES.max(store.len()), 0);
        let mut work = vec![0; work_bytes(&records)];
        let n = records.len();
        if let Err(refusal) = check(&store, n, &mut work) {
            let cause = network_cause(&records, refusal, telling);
            count(refusal, cause, &format!("{records:?}"));
            continue;
        }
        let given = random_command(&mut random, &records);
        if let Err(refusal) = command(&mut store, n, &mut work, &given) {
            let cause = command_cause(&records, &given, refusal, telling);
            count(refusal, cause, &format!("{given:?}"));
        }
    }
    for row in [3, 4, 5, 6, 7, 8, 9, 10, 12, 16] {
        assert!(seen[row] > 0, "row {row}: {seen:?}");
    }
    assert!(words[12].iter().any(|it| it.contains("is in_port")), "{:?}", words[12]);
    // Rows with several causes show more than one of them.
    for row in [3, 4, 5, 6, 7, 9, 12, 16] {
        assert!(words[row].len() > 1, "row {row}: {:?}", words[row]);
    }
}

/// A command in words, with the names of its text, is read as the same command.
#[test]
fn commands_in_words_are_read_back() {
    for (text, name, least) in [
        (include_str!("../../examples/templates/network.txt"), "edge", 6),
        (include_str!("../../examples/uplinks/network.txt"), "group mirror", 1),
    ] {
        let source = Source::of_text(parse(text).unwrap());
        let of = source.widths().unwrap();
        let book = Book::default();
        let standing = Standing { source: &source, book: &book };
        let mut named = 0;
        for command in &source.commands {
            let words = standing.record_words(&command.record);
            let read = parse_command(&words, of, &source.names).unwrap();
            assert_eq!(read.record, command.record, "{words}");
            named += usize::from(words.contains(name));
        }
        assert!(named >= least, "{named}");
    }
}

/// Every part of a record goes by its name: switch, port, header and group.
#[test]
fn records_by_their_names() {
    let statements = [
        "link icu:up - icu:line",
        "miss icu: group all",
        "rule icu priority 7 port line header alarm: set alarm, output up, output controller",
        "group icu/all: set alarm, output line; output drop",
        "group icu/3: group all",
    ];
    let text = format!(
        "widths H 1 P 3 W 0\nname switch 0 icu\nname port 0:2 line\nname port 4 up\n\
         name header 1 alarm\nname group 0/1 all\n{}\n",
        statements.join("\n")
    );
    let source = Source::of_text(parse(&text).unwrap());
    let standing = Standing { source: &source, book: &Book::default() };
    let words = source.network[1..].iter().map(|record| standing.record_words(record));
    assert_eq!(words.collect::<Vec<String>>(), statements);
}

/// A group in words, with the names of its text.
#[test]
fn groups_in_words() {
    let text = include_str!("../../examples/uplinks/network.txt");
    let source = Source::of_text(parse(text).unwrap());
    let groups = source.network.iter().filter(|record| record[0] == 9);
    let standing = Standing { source: &source, book: &Book::default() };
    let words: Vec<String> = groups.map(|group| standing.record_words(group)).collect();
    let expected =
        ["group 0/uplinks: output 4; output 5", "group 0/mirror: output 3; group uplinks"];
    assert_eq!(words, expected);
}
