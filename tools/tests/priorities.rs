//! Rules of equal priority: all that match act, and the words about an answer say so.

mod common;
mod running;
mod seeded;

use common::parsed;
use running::{expect, file, wegbaro, Ran, K, K_LINES};
use seeded::seeded;
use wegbaro_tests::formulas::{
    all, and, bit, external, not, or, push, push_is_state, r, random_formula, some, tc, X, Y,
};
use wegbaro_tests::networks::{random_network, Sizes, Widths, MODEST};
use wegbaro_tests::random::Random;
use wegbaro_tools::formula::Node;
use wegbaro_tools::print::whole_records;
use wegbaro_tools::priorities::{acting_together, is_even};
use wegbaro_tools::steps::{Network, State, Way};
use wegbaro_tools::truth::Truth;
use wegbaro_tools::Record;

/// The example with two rules of one priority that match the same frame.
const EQUALS: &str = concat!(env!("CARGO_MANIFEST_DIR"), "/../examples/equals/network.txt");

fn records(text: &str) -> Vec<Record> {
    whole_records(&parsed(text).bytes).0
}

fn network(records: &[Record]) -> Network<'_> {
    Network::new(records).unwrap()
}

/// One switch, N of 4: a state is 8 (departing) + 2 port + header.
const SWITCH: &str = "\
widths H 1 P 2 W 0
miss 0: output controller
rule 0 priority 10 port 1: output 2
rule 0 priority 5 port 1: output drop
rule 0 priority 10 header 0: set 1, in_port
rule 0 priority 10 port 0* header 0: in_port
";

/// The steps of a state, in the order in which the records send the copies.
fn next(records: &[Record], number: usize) -> Vec<usize> {
    let network = network(records);
    let state = State::numbered(number, network.widths);
    network.next(state).iter().map(|state| state.number(network.widths)).collect()
}

/// All matching rules of the highest priority act, in the order of the file, each from the header of
/// the arrival: the third of them sends header 0 though the second sets header 1. A rule of lower
/// priority does not act beside them, nor does the miss.
#[test]
fn all_rules_of_the_highest_priority_act() {
    let records = records(SWITCH);
    let network = network(&records);
    let acting = |number| network.acting(State::numbered(number, network.widths));
    let found: Vec<Vec<usize>> = (2..8).map(acting).collect();
    assert_eq!(found, [vec![2, 4, 5], vec![2], vec![4], vec![1], vec![4], vec![1]]);
    // Nothing acts on what departs, or arrives at the drop port.
    assert_eq!([0, 1, 8, 15].map(acting), [vec![], vec![], vec![], vec![]]);
    let steps: Vec<Vec<usize>> = (2..8).map(|number| next(&records, number)).collect();
    // From port 1 with header 0 and 1, then from port 2, then from the controller, which is not sent
    // what came from there.
    assert_eq!(steps, [vec![12, 11, 10], vec![13], vec![13], vec![15], vec![15], vec![]]);
}

/// What takes a frame on: each rule that sends it there, and beside them the rules that do not.
#[test]
fn what_takes_a_frame_on() {
    let text = format!("{SWITCH}rule 0 priority 10: output 1, output 2\n");
    let records = records(&text);
    let network = network(&records);
    let state = |number| State::numbered(number, network.widths);
    let taken = |from, to| {
        let taken = network.taken(state(from), state(to))?;
        let by = |way: &Way| way.iter().map(|it| (it.place, it.part)).collect();
        let by: Vec<Vec<(usize, Option<usize>)>> = taken.by.iter().map(by).collect();
        Some((by, taken.beside))
    };
    assert_eq!(taken(2, 12), Some((vec![vec![(2, None)], vec![(6, Some(2))]], vec![4, 5])));
    assert_eq!(taken(2, 11), Some((vec![vec![(4, Some(2))]], vec![2, 5, 6])));
    assert_eq!(taken(5, 11), Some((vec![vec![(6, Some(1))]], vec![])));
    assert_eq!(taken(2, 13), None);
}

/// A ward with three rules of one priority that send header 1 out.
const OPEN: &str = "\
widths H 1 P 2 W 0
miss 0: output drop
rule 0 priority 3 port 1: output 2
rule 0 priority 3: output 2, output controller
rule 0 priority 3 header 1: output 2
policy 0: header 1 never leaves
";

/// The way by which a state breaks a policy names the rules that send a frame on, and those of equal
/// priority that act beside them, be they a command's.
#[test]
fn a_way_by_rules_of_equal_priority() {
    let words = "\
start: violated: policy 0, line 6, is broken by state 3 (switch 0, port 1, arriving, header 1)
    with Y = state 13 (switch 0, port 2, departing, header 1), by this way:
    - switch 0: in at port 1, out at port 2, header 1 (line 3: rule 0 priority 3 port 1 header *: \
output 2; line 4 and line 5 send it there too, with the same priority)
";
    expect(&["check", "-"], OPEN.as_bytes(), 1, words);
    let blocked = "\
command 3 (add 0 priority 10 port ** header 0: set 1, output 2): blocked: policy 0, line 13, is \
broken by state 2 (switch 0, port 1, arriving, header 0)
    with Y = state 29 (switch 1, port 2, departing, header 1), by this way:
    - switch 0: in at port 1, out at port 2, header 0 set to 1 (command 3: rule 0 priority 10 port ** \
header 0: set 1, output 2; line 8 acts too, with the same priority)
    - switch 1: in at port 1, out at port 2, header 1 (line 9: rule 1 priority 10 port 1 header *: \
output 2)
";
    let ran = wegbaro(&["session", K], b"add 0 priority 10 header 0: set 1, output 2\n");
    assert!(ran.text().ends_with(blocked), "{}", ran.text());
}

/// A ward in which rules of equal priority take a frame on, one of them through a group.
const WARD: &str = "\
widths H 1 P 3 W 0
miss 0: output drop
rule 0 priority 7 port 1: output 2
rule 0 priority 7 header 1: group 4
rule 0 priority 7 port 0**: output 3
group 0/4: output 5; output 2
";

/// A route tells every rule that takes the frame on, and which rules act beside them.
#[test]
fn a_route_by_rules_of_equal_priority() {
    let words = "\
route: found, 1 step
    state 3 (switch 0, port 1, arriving, header 1)
    - line 3: rule 0 priority 7 port 1 header *: output 2
    - with the same priority, line 4: rule 0 priority 7 port *** header 1: group 4
    - line 6: group 0/4: output 5; output 2 (bucket 2)
    - line 5 acts too, with the same priority
    state 21 (switch 0, port 2, departing, header 1)
";
    expect(&["route", "-", "3", "21"], WARD.as_bytes(), 0, words);
    let object = r#""by":"rule 0 priority 7 port 1 header *: output 2","by_record":2,"by_line":3,"also":[{"by":"rule 0 priority 7 port *** header 1: group 4","by_record":3,"by_line":4,"groups":[{"by":"group 0/4: output 5; output 2 (bucket 2)","by_record":5,"by_line":6}]}],"beside":[4]}"#;
    let ran = wegbaro(&["route", "--json", "-", "3", "21"], WARD.as_bytes());
    assert!(ran.text().contains(object), "{}", ran.text());
    let lines = "s0 [label=\"switch 0\\nstep 1: rule priority 7 port 1 header *: output 2\\l\
                 step 1: rule priority 7 port *** header 1: group 4\\l\
                 step 1: group 4: output 5; output 2 (bucket 2)\\l\"];";
    let ran = wegbaro(&["route", "--dot", "-", "3", "21"], WARD.as_bytes());
    assert!(ran.text().contains(lines), "{}", ran.text());
    // With header 0 the rule for header 1 does not match, and is not told.
    let words = "\
route: found, 1 step
    state 2 (switch 0, port 1, arriving, header 0)
    - line 5: rule 0 priority 7 port 0** header *: output 3
    - line 3 acts too, with the same priority
    state 22 (switch 0, port 3, departing, header 0)
";
    expect(&["route", "-", "2", "22"], WARD.as_bytes(), 0, words);
    // Records have no lines.
    let records = file("equals", &records(WARD).concat());
    let ran = wegbaro(&["route", &records, "2", "22"], b"");
    assert!(ran.text().contains("\n    - record 2 acts too, with the same priority\n"), "{ran:?}");
}

/// The sets of rules that act together, with the lowest state for each.
fn sets(text: &str) -> Vec<(Vec<usize>, usize)> {
    let records = records(text);
    let network = network(&records);
    let sets = acting_together(network).into_iter();
    sets.map(|it| (it.places, it.state.number(network.widths))).collect()
}

/// Rules act together where no rule of higher priority matches, and at no port of drop. Sets within a
/// larger one are not told.
#[test]
fn rules_that_act_together() {
    assert_eq!(sets(SWITCH), [(vec![2, 4, 5], 2)]);
    let switch = |rules: &str| sets(&format!("widths H 1 P 2 W 0\nmiss 0: output 1\n{rules}"));
    let none: [(Vec<usize>, usize); 0] = [];
    assert_eq!(switch("rule 0 priority 1 port 1: output 2\nrule 0 priority 2: output 2\n"), none);
    assert_eq!(
        switch("rule 0 priority 1 port 1: output 2\nrule 0 priority 1 port 1*: output 1\n"),
        none
    );
    assert_eq!(
        switch("rule 0 priority 1 header 1: output 2\nrule 0 priority 1 header 0: output 1\n"),
        none
    );
    let pair = "rule 0 priority 1 port 1: output 2\nrule 0 priority 1 header 1: output 1\n";
    assert_eq!(switch(pair), [(vec![2, 3], 3)]);
    // A rule above hides them where they meet, or not.
    assert_eq!(switch(&format!("{pair}rule 0 priority 2 header 1: output 1\n")), none);
    assert_eq!(switch(&format!("{pair}rule 0 priority 2 header 0: output 1\n")), [(vec![2, 3], 3)]);
    let at_drop = "rule 0 priority 1 port 0*: output 2\nrule 0 priority 1 port *0: output 2\n";
    assert_eq!(switch(at_drop), none);
    let two = "rule 0 priority 1 port 1: output 2\nrule 0 priority 1 port *1 header 0: output 2\n\
               rule 0 priority 1 port 11: output 2\n";
    assert_eq!(switch(two), [(vec![2, 3], 2), (vec![3, 4], 6)]);
    let other = "widths H 1 P 2 W 1\nmiss 0: output 1\nmiss 1: output 1\n\
                 rule 0 priority 1: output 2\nrule 1 priority 1 port 1: output 2\n";
    assert_eq!(sets(other), none);
}

#[test]
fn even_policies() {
    let reach = [r(X, Y), tc(0, X, Y)];
    let with = |more: &[Node]| is_even(&[&reach[..], more].concat());
    assert!(with(&[some(1, Y)]));
    assert!(with(&[external(X), not(2), some(1, Y), and(3, 4)]));
    assert!(!with(&[some(1, Y), not(2)]));
    assert!(!with(&[not(1), some(2, Y)]));
    assert!(with(&[not(1), all(2, Y), not(3)]));
    // One node, reached over one NOT and over none.
    assert!(!with(&[not(1), or(1, 2), some(3, Y)]));
    assert!(!is_even(&[r(X, Y), not(0), tc(1, X, X)]));
    assert!(is_even(&[r(X, Y), not(0), tc(1, X, X), not(2)]));
    // Without an R, and with one that is no part of the last node.
    assert!(is_even(&[bit(X, 0), not(0)]));
    assert!(is_even(&[r(X, Y), not(0), external(X)]));
}

/// How many NOTs each way from a node down to an R passes, way by way.
fn nots(nodes: &[Node], from: u8) -> Vec<usize> {
    let [kind, one, other] = nodes[usize::from(from)];
    match kind {
        0 | 2 => vec![],
        1 => vec![0],
        3 => nots(nodes, one).iter().map(|count| count + 1).collect(),
        4 | 5 => [nots(nodes, one), nots(nodes, other)].concat(),
        _ => nots(nodes, one),
    }
}

/// Evenness is that of the ways one by one.
#[test]
fn even_way_by_way() {
    let mut random = seeded(21);
    let [mut even, mut uneven] = [0, 0];
    for _ in 0..5_000 {
        let length = 1 + random.below(14);
        let nodes = random_formula(&mut random, 5, length);
        let ways = nots(&nodes, nodes.len() as u8 - 1);
        let expected = ways.iter().all(|count| count.is_multiple_of(2));
        assert_eq!(is_even(&nodes), expected, "{nodes:?}");
        even += usize::from(expected && !ways.is_empty());
        uneven += usize::from(!expected);
    }
    assert!(even > 100 && uneven > 100, "{even} even, {uneven} not");
}

/// A network with rules of two priorities, so that many act together. The same rule stands once.
fn crowded(random: &mut Random) -> Vec<Record> {
    let most = Sizes { links: 3, rules: 10, policies: 0, nodes: 0, ..MODEST };
    let mut records: Vec<Record> = vec![];
    for mut record in random_network(random, Widths { h: 1, p: 2, w: 1 }, most) {
        if record[0] == 4 {
            record[2..4].copy_from_slice(&[0, random.bits(1)]);
        }
        if records.iter().all(|other| record[0] != 4 || other[..8] != record[..8]) {
            records.push(record);
        }
    }
    records
}

/// The network of switches that take just one of several equal rules: no two have one priority, and
/// each keeps its place above and below the others.
fn one_at_a_time(random: &mut Random, records: &[Record]) -> Vec<Record> {
    let mut ranks: Vec<u8> = (0..records.len() as u8).collect();
    let mut apart = records.to_vec();
    for rule in apart.iter_mut().filter(|record| record[0] == 4) {
        rule[2] = ranks.swap_remove(random.below(ranks.len()));
    }
    apart
}

/// The policy that a state reaches another.
fn reaches(from: usize, to: usize) -> Vec<Node> {
    let mut nodes = vec![r(X, Y), tc(0, X, Y)];
    let is_end = push_is_state(&mut nodes, Y, to, 5);
    let reached = push(&mut nodes, and(1, is_end));
    let some_y = push(&mut nodes, some(reached, Y));
    let none = push(&mut nodes, not(some_y));
    let is_start = push_is_state(&mut nodes, X, from, 5);
    push(&mut nodes, and(is_start, none));
    nodes
}

/// What the notes say: an even policy that holds where rules act together also holds where switches
/// take one of them. One that is not even may be broken there.
#[test]
fn even_policies_where_one_rule_is_taken() {
    let mut random = seeded(22);
    let [mut even, mut broken] = [0, 0];
    for _ in 0..2_000 {
        let records = crowded(&mut random);
        let nodes = match random.one_in(2) {
            true => reaches(random.below(32), random.below(32)),
            false => {
                let length = 1 + random.below(14);
                random_formula(&mut random, 5, length)
            }
        };
        let holds = |records: &[Record]| {
            let truth = Truth::of(network(records), &nodes);
            (0..32).all(|state| !truth.breaks(state))
        };
        let is_about_steps = !nots(&nodes, nodes.len() as u8 - 1).is_empty();
        let is_choice = !acting_together(network(&records)).is_empty();
        if !is_about_steps || !is_choice || !holds(&records) {
            continue;
        }
        for _ in 0..4 {
            let apart = one_at_a_time(&mut random, &records);
            assert_eq!(acting_together(network(&apart)), []);
            let stands = holds(&apart);
            assert!(stands || !is_even(&nodes), "{nodes:?} over {apart:?}");
            even += usize::from(is_even(&nodes));
            broken += usize::from(!stands);
        }
    }
    assert!(even > 100 && broken > 5, "{even} times even, {broken} times broken");
}

const HOLDS: &str = "start: the network holds, no policy is broken\n";

/// What is said of the example: its two rules, and each of its policies.
const EQUALS_NOTES: &str = "\
note: line 24 and line 25 are rules of switch core (1) with priority 10 that both match port 6, \
header alarm (1); both act, where a switch may take just one of them
note: policy 0 \"the pump stays inside\", line 28, is even: it holds also if a switch takes just \
one of these rules, whichever
note: policy 1 \"the server hears the pump\", line 31, is not even: it holds over the steps of all \
these rules together, and may be broken if a switch takes just one of them
";

/// The notes stand on standard error, for every form of the answers, and change no answer.
#[test]
fn notes_on_the_example() {
    let unjudged = "note: the file's commands are not judged; `wegbaro run` judges them too\n";
    let ran = wegbaro(&["check", EQUALS], b"");
    assert_eq!((ran.status, ran.text()), (Some(0), HOLDS));
    assert_eq!(ran.said, format!("{unjudged}{EQUALS_NOTES}"));
    // README.md shows both outputs.
    let shown = format!("{unjudged}{HOLDS}{EQUALS_NOTES}").replace('\n', "\n    ");
    let shown =
        format!("    wegbaro check examples/equals/network.txt\n    {}\n", shown.trim_end());
    assert!(include_str!("../README.md").contains(&shown), "{shown}");
    let lines = "start holds\n1 blocked 1 3\n2 blocked 0 2\n3 forwarded 52\n";
    let gate = |ran: Ran, text: &str| {
        assert_eq!((ran.status, ran.text(), ran.said.as_str()), (Some(1), text, EQUALS_NOTES));
    };
    gate(wegbaro(&["run", "--gate", EQUALS], b""), lines);
    gate(wegbaro(&["session", "--gate", EQUALS], b""), lines);
    let explained = wegbaro(&["run", EQUALS], b"");
    gate(wegbaro(&["explain", EQUALS], lines.as_bytes()), explained.text());
    let ran = wegbaro(&["run", "--json", EQUALS], b"");
    assert_eq!((ran.status, ran.said.as_str()), (Some(1), EQUALS_NOTES));
}

/// The desk's rule taken alone, as by a priority above the other's, breaks the policy that is not
/// even; the server's rule taken alone breaks none.
#[test]
fn one_rule_of_the_example_taken_alone() {
    let text = std::fs::read_to_string(EQUALS).unwrap();
    let network = &text[..text.find("\nadd ").unwrap()];
    let taken = |rule: &str| {
        let higher = rule.replace("priority 10", "priority 11");
        assert_eq!(network.matches(rule).count(), 1, "{rule}");
        network.replace(rule, &higher).into_bytes()
    };
    let desk = taken("rule core priority 10 header alarm: output desk");
    expect(&["check", "--gate", "-"], &desk, 1, "start violated 1 3\n");
    let server = taken("rule core priority 10 port 6: output server");
    let ran = wegbaro(&["check", "--gate", "-"], &server);
    assert_eq!((ran.status, ran.text(), ran.said.as_str()), (Some(0), "start holds\n", ""));
}

/// Where a network does not hold, its policies are not said to hold. One that is refused has no rules
/// that act.
#[test]
fn notes_on_networks_that_do_not_hold() {
    let ran = wegbaro(&["check", "--gate", "-"], OPEN.as_bytes());
    assert_eq!((ran.status, ran.text()), (Some(1), "start violated 0 3\n"));
    let said =
        "note: line 3, line 4 and line 5 are rules of switch 0 with priority 3 that all match \
                port 1, header 1; all act, where a switch may take just one of them\n";
    assert_eq!(ran.said, said);
    let twice = OPEN.replace("rule 0 priority 3 header 1", "rule 0 priority 3");
    let ran = wegbaro(&["check", "--gate", "-"], twice.as_bytes());
    assert_eq!((ran.text(), ran.said.as_str()), ("start refused 8 4\n", ""));
}

/// What a command leaves is noted where rules act together that did not before, be it that they are
/// uncovered. What that means for the policies is noted once.
#[test]
fn notes_on_commands() {
    let commands = "\
add 0 priority 10 header 0: set 1, output 2
add 0 priority 10 port 1: output drop
modify 0 priority 10 port 1: output controller
add 0 priority 20 port 1: output drop
delete 0 priority 20 port 1
";
    let lines = "\
3 blocked 0 2
4 forwarded 22
5 forwarded 22
6 forwarded 23
7 forwarded 22
";
    let ran = wegbaro(&["session", "--gate", K], commands.as_bytes());
    assert_eq!((ran.status, ran.text()), (Some(1), format!("{K_LINES}{lines}").as_str()));
    let together = |command: &str| {
        format!(
            "note: line 8 and {command} are rules of switch 0 with priority 10 that both match port \
             1, header 0; both act, where a switch may take just one of them\n"
        )
    };
    let even =
        "note: policy 0, line 13, is even: it holds also if a switch takes just one of these \
                rules, whichever\n";
    assert_eq!(ran.said, together("command 4") + even + &together("command 5"));
}

/// Many rules, and many sets of them, are counted.
#[test]
fn many_rules_that_act_together() {
    let mut ward = "widths H 3 P 3 W 0\nmiss 0: output 1\n".to_string();
    for header in ["***", "**0", "*0*", "*00", "0**", "0*0", "00*", "000"] {
        ward += &format!("rule 0 priority 1 header {header}: output 2\n");
    }
    let ran = wegbaro(&["check", "-"], ward.as_bytes());
    let said = "note: line 3, line 4, line 5, line 6 and 4 more are rules of switch 0 with priority 1 \
                that all match port 1, header 0; all act, where a switch may take just one of them\n";
    assert_eq!(ran.said, said);
    let mut ward = "widths H 3 P 3 W 0\nmiss 0: output 1\n".to_string();
    for header in 0..8 {
        ward += &format!("rule 0 priority 1 header {header}: output 2\n");
    }
    for port in 1..3 {
        ward += &format!("rule 0 priority 1 port {port}: output 2\n");
    }
    let said = wegbaro(&["check", "-"], ward.as_bytes()).said;
    assert_eq!(said.matches(" are rules of switch 0 ").count(), 8, "{said}");
    assert!(said.ends_with("note: so it is with 8 more sets of rules\n"), "{said}");
}
