//! Formulas and the nodes they are compiled to.

mod common;
mod seeded;

use common::{parsed, with_policies};
use seeded::seeded;
use wegbaro_tests::formulas::{
    all, and, bit, external, not, or, policy, r, random_formula, some, tc, Node, X, Y,
};
use wegbaro_tests::gate::{Answer, Call, Gate, Lent};
use wegbaro_tests::k::{delete_d, dropping_add, first_add, k, rule_d, second_add, setting_add};
use wegbaro_tests::library::{program, Library};
use wegbaro_tests::networks::{random_network, Sizes, Widths, MODEST};
use wegbaro_tests::records::Record;
use wegbaro_tools::formula::print_formula;

/// The nodes of a formula over states of five bits.
fn compiled(formula: &str) -> Vec<Node> {
    let bytes = parsed(&format!("widths H 1 P 2 W 1\npolicy 0: {formula}\n")).bytes;
    bytes[24..].chunks(24).map(|node| [node[2], node[3], node[4]]).collect()
}

#[test]
fn each_kind_of_node() {
    assert_eq!(compiled("bit(X,4)"), [bit(X, 4)]);
    assert_eq!(compiled("R(X,X)"), [r(X, X)]);
    assert_eq!(compiled("exists Y. R(Y,X)"), [r(Y, X), some(0, Y)]);
    assert_eq!(compiled("forall Y. E(Y)"), [external(Y), all(0, Y)]);
    assert_eq!(compiled("exists X. !E(X)"), [external(X), not(0), some(1, X)]);
    assert_eq!(compiled("tc(R(Y,X))(X,X)"), [r(Y, X), tc(0, X, X)]);
    for (pair, from, to) in [("X,Y", X, Y), ("Y,X", Y, X), ("Y,Y", Y, Y)] {
        let formula = format!("exists Y. tc(R(X,Y))({pair})");
        assert_eq!(compiled(&formula), [r(X, Y), tc(0, from, to), some(1, Y)]);
    }
}

#[test]
fn what_belongs_together() {
    let [a, b, c] = [bit(X, 0), bit(X, 1), bit(X, 2)];
    let [a_, b_, c_] = ["bit(X,0)", "bit(X,1)", "bit(X,2)"];
    assert_eq!(compiled(&format!("{a_} | ({b_} & {c_})")), [a, b, c, and(1, 2), or(0, 3)]);
    assert_eq!(compiled(&format!("({a_} & {b_}) | {c_}")), [a, b, and(0, 1), c, or(2, 3)]);
    assert_eq!(compiled(&format!("({a_} or {b_}) and {c_}")), [a, b, or(0, 1), c, and(2, 3)]);
    assert_eq!(compiled(&format!("!{a_} & {b_}")), [a, not(0), b, and(1, 2)]);
    assert_eq!(compiled(&format!("not ({a_} & {b_})")), [a, b, and(0, 1), not(2)]);
    assert_eq!(compiled(&format!("{a_} & {b_} & {c_}")), [a, b, and(0, 1), c, and(2, 3)]);
    assert_eq!(compiled(&format!("{a_} & ({b_} & {c_})")), [a, b, c, and(1, 2), and(0, 3)]);
    let far = [a, b, c, or(1, 2), some(3, Y), and(0, 4)];
    assert_eq!(compiled(&format!("{a_} & (exists Y. {b_} | {c_})")), far);
    assert_eq!(compiled(&format!("{a_} & exists Y. ({b_} | {c_})")), far);
    let same = [a, b, c, and(1, 2), some(3, Y), and(0, 4)];
    assert_eq!(compiled(&format!("{a_} & exists Y. {b_} & {c_}")), same);
    let near = [a, b, some(1, Y), and(0, 2), c, or(3, 4)];
    assert_eq!(compiled(&format!("({a_} & exists Y. {b_}) | {c_}")), near);
    let negated = [a, b, or(0, 1), some(2, Y), not(3)];
    assert_eq!(compiled(&format!("!exists Y. {a_} | {b_}")), negated);
}

#[test]
fn equal_parts_are_one_node() {
    assert_eq!(compiled("E(X) & E(X)"), [external(X), and(0, 0)]);
    let shared = [external(X), not(0), bit(X, 0), or(1, 2), not(3), and(3, 4)];
    assert_eq!(compiled("(!E(X) | bit(X,0)) & !(!E(X) | bit(X,0))"), shared);
    // A node's truth is over both variables, so one node serves under different quantifiers.
    let under_two = [r(X, Y), some(0, Y), all(0, Y), not(2), and(1, 3)];
    assert_eq!(compiled("(exists Y. R(X,Y)) & !forall Y. R(X,Y)"), under_two);
}

#[test]
fn fields_are_few_nodes() {
    let [header, low, high, switch, direction] = [0, 1, 2, 3, 4].map(|number| bit(X, number));
    assert_eq!(compiled("switch(X) = 1"), [switch]);
    assert_eq!(compiled("header(X) = * & departing(X)"), [direction]);
    let neither = [direction, header, or(0, 1), not(2)];
    assert_eq!(compiled("arriving(X) & header(X) = 0"), neither);
    assert_eq!(compiled("!(departing(X) | header(X) != 0)"), neither);
    // Three points of four ports: the switch once, and a port that is not 0.
    let points = compiled("at(X, 1:1, 1:2, 1:3)");
    assert_eq!(points, [switch, high, low, or(1, 2), and(0, 3)]);
    let common = "(switch(X) = 1 & loops(X)) | (external(X) & switch(X) = 1)";
    assert_eq!(compiled(common), [switch, r(X, Y), tc(1, X, X), external(X), or(2, 3), and(0, 4)]);
    assert_eq!(compiled("header 1 never leaves").len(), 14);
}

#[test]
fn printed_formulas_compile_to_themselves() {
    let mut random = seeded(6);
    let mut same = 0;
    for _ in 0..4_000 {
        let length = 1 + random.below(14);
        let nodes = random_formula(&mut random, 5, length);
        let Some(formula) = print_formula(&nodes) else { continue };
        let again = compiled(&formula);
        assert!(again.len() <= nodes.len());
        assert_eq!(print_formula(&again).as_ref(), Some(&formula));
        assert_eq!(compiled(&formula), again);
        same += usize::from(again == nodes);
    }
    assert!(same > 400, "only {same} came back node for node");
}

/// The answer of the check call.
fn check(records: &[Record]) -> Answer {
    Library.answer(&Call::Check, &mut Lent::just(records))
}

#[test]
fn printed_formulas_mean_the_same() {
    let mut random = seeded(7);
    let most = Sizes { links: 2, rules: 6, policies: 0, nodes: 0, ..MODEST };
    let [mut held, mut violated] = [0, 0];
    for _ in 0..600 {
        let network = random_network(&mut random, Widths { h: 1, p: 2, w: 1 }, most);
        let length = 1 + random.below(14);
        let nodes = random_formula(&mut random, 5, length);
        let Some(formula) = print_formula(&nodes) else { continue };
        let judged = |nodes: &[Node]| check(&with_policies(&network, &policy(0, nodes)));
        let answer = judged(&nodes);
        assert_eq!(judged(&compiled(&formula)), answer, "{formula}");
        match answer {
            Answer::Holds => held += 1,
            _ => violated += 1,
        }
    }
    assert!(held > 50 && violated > 50, "{held} held, {violated} violated");
}

#[test]
fn a_formula_that_is_too_long_is_printed_as_nodes() {
    let mut nodes = vec![external(X)];
    for last in 0..31 {
        nodes.push(and(last, last));
    }
    assert_eq!(print_formula(&nodes), None);
    assert!(print_formula(&nodes[..6]).is_some());
    assert_eq!(print_formula(&[not(0)]), None);
    assert_eq!(print_formula(&[[9, 0, 0]]), None);
}

/// K with its policy written as a formula.
const K: &str = "\
widths H 1 P 2 W 1
link 0:2 - 1:1
miss 0: output 0
miss 1: output 0
rule 0 priority 10 port 01 header 0: output 10
rule 1 priority 10 port 1: output 2
policy 0: E(X) & !bit(X,4) & exists Y. (tc(R(X,Y))(X,Y) & (E(Y) & bit(Y,4) & bit(Y,0)))
";

#[test]
fn k_as_a_formula_has_the_verdicts_of_k() {
    let ours = parsed(K).bytes;
    assert_eq!(ours[..6 * 24], k().concat()[..6 * 24]);
    assert_eq!(ours.len(), 20 * 24);
    let cases = [
        (first_add(), "1 blocked 0 3"),
        (second_add(), "1 forwarded 21"),
        (setting_add(), "1 blocked 0 2"),
        (dropping_add(), "1 forwarded 20"),
        (delete_d(), "1 forwarded 20"),
    ];
    for (command, line) in cases {
        let input = [&ours[..], &command].concat();
        assert_eq!(program(&input), format!("start holds\n{line}\n").into_bytes());
    }
    let commands = "\
add 0 priority 8 header 1: output 0
add 0 priority 5: output 2
delete 0 priority 8 header 1
";
    let with_d = [K, commands].concat();
    let bytes = parsed(&with_d).bytes;
    assert_eq!(bytes[20 * 24 + 1..21 * 24], rule_d()[1..]);
    assert_eq!(program(&bytes), b"start holds\n1 forwarded 21\n2 forwarded 22\n3 blocked 0 3\n");
}
