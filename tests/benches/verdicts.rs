//! Times the check call and a forwarded command with eight policies of one closure each, at N = 4 to 10,
//! and with two kinds of policies that are made to be slow, at N = 10: the library, plain Rust on 64-bit
//! words in turn, and decision diagrams on BuDDy where its header is installed.
//!
//! With the argument `--tsv`, only the times, for two libraries to be put side by side: the crate for
//! Rust takes the one in the folder that `WEGBARO_LIB_DIR` names.

use wegbaro_tests::closing::Closing;
use wegbaro_tests::diagrams::Diagrams;
use wegbaro_tests::formulas::{and, bit, external, not, or, policy, push, some, tc, Node, X, Y};
use wegbaro_tests::networks::{scattered, Widths};
use wegbaro_tests::random::Random;
use wegbaro_tests::records::{link, miss, output, rule, set, widths, Action, Pattern, Record, ANY};
use wegbaro_tests::times::{both, Both, Form, Times};

/// The widths for each N from 4 to 10, but of the random networks.
const REGULAR: [Widths; 7] = [
    Widths { h: 1, p: 2, w: 0 },
    Widths { h: 1, p: 2, w: 1 },
    Widths { h: 2, p: 2, w: 1 },
    Widths { h: 2, p: 2, w: 2 },
    Widths { h: 2, p: 3, w: 2 },
    Widths { h: 2, p: 3, w: 3 },
    Widths { h: 2, p: 4, w: 3 },
];
/// The widths of the random networks.
const RANDOM: [Widths; 7] = [
    Widths { h: 1, p: 2, w: 0 },
    Widths { h: 1, p: 2, w: 1 },
    Widths { h: 1, p: 2, w: 2 },
    Widths { h: 1, p: 3, w: 2 },
    Widths { h: 1, p: 3, w: 3 },
    Widths { h: 1, p: 4, w: 3 },
    Widths { h: 1, p: 4, w: 4 },
];
/// Headers with bit 0 clear.
const EVEN: Pattern = [0, 1];

/// How frames go. No rule changes header bit 0.
#[derive(Clone, Copy, Debug, PartialEq, Eq)]
enum Kind {
    /// Switches in a row. Even headers cross each from a port to the one opposite, where the header has
    /// two bits every second port sets the upper one, and odd headers are dropped.
    Chain,
    /// Random links and rules.
    Random,
    /// The links of the chain. Every header is sent to all ordinary ports.
    Flooded,
    /// The links of the chain and those from the last switch to the first. Every header crosses each
    /// switch to the port opposite, but at switch 0 goes on in the next lane, and after the last lane
    /// in the first with the upper of two header bits changed.
    Ring,
}

impl Kind {
    const ALL: [Kind; 4] = [Kind::Chain, Kind::Random, Kind::Flooded, Kind::Ring];

    fn word(self) -> &'static str {
        match self {
            Kind::Chain => "chain",
            Kind::Random => "random",
            Kind::Flooded => "flooded",
            Kind::Ring => "ring",
        }
    }

    fn widths(self, bits: u8) -> Widths {
        let all = if self == Kind::Random { RANDOM } else { REGULAR };
        all.into_iter().find(|of| of.bits() == bits).expect("widths for each N")
    }

    /// The records of so many bits before the policies, a quarter as many rules as states.
    fn records(self, bits: u8) -> Vec<Record> {
        let of = self.widths(bits);
        let rules = 1 << (bits - 2);
        let records = match self {
            Kind::Random => scattered(&mut Random::new(3), of, rules),
            _ => self.regular(of),
        };
        assert_eq!(count(&records, 4), rules);
        records
    }

    /// The records before the policies, unless they are random.
    fn regular(self, of: Widths) -> Vec<Record> {
        let lanes = Lanes::of(of);
        let mut records = vec![widths(of.h, of.p, of.w)];
        records.extend(lanes.links(self == Kind::Ring));
        records.extend((0..1 << of.w).map(|switch| miss(switch, &[lanes.drop()])));
        for switch in 0..1 << of.w {
            for port in 1..=lanes.last() {
                records.extend(self.rules(lanes, switch, port));
            }
            if of.h == 2 {
                records.extend((0..4).map(|header| self.controller_rule(lanes, switch, header)));
            }
        }
        records
    }

    /// The two rules for what arrives at a port.
    fn rules(self, lanes: Lanes, switch: u8, port: u8) -> [Record; 2] {
        let arriving = [port, lanes.full()];
        match self {
            Kind::Ring => {
                let upper = 1 << (lanes.of.h - 1);
                [0, upper].map(|value| {
                    let actions = lanes.onward(switch, port, value);
                    rule(switch, 10, arriving, [value, upper], &actions)
                })
            }
            Kind::Flooded => [
                rule(switch, 10, arriving, EVEN, &[output(0, 0)]),
                rule(switch, 5, arriving, ANY, &[output(0, 0)]),
            ],
            _ => [
                rule(switch, 10, arriving, EVEN, &lanes.across(port)),
                rule(switch, 5, arriving, ANY, &[lanes.drop()]),
            ],
        }
    }

    /// The rule for what arrives from the controller with a header.
    fn controller_rule(self, lanes: Lanes, switch: u8, header: u8) -> Record {
        let action = if self == Kind::Flooded { output(0, 0) } else { lanes.drop() };
        rule(switch, 10, [lanes.full(), lanes.full()], [header, 3], &[action])
    }
}

/// Switches one behind the other: some of the upper ports of each are linked to lower ones of the next.
#[derive(Clone, Copy)]
struct Lanes {
    of: Widths,
}

impl Lanes {
    fn of(of: Widths) -> Lanes {
        Lanes { of }
    }

    /// All bits of a port.
    fn full(self) -> u8 {
        (1 << self.of.p) - 1
    }

    /// The last ordinary port.
    fn last(self) -> u8 {
        self.full() - 1
    }

    /// How many lanes are linked.
    fn count(self) -> u8 {
        (self.last() / 2 - 1).max(1)
    }

    fn opposite(self, port: u8) -> u8 {
        self.last() + 1 - port
    }

    fn drop(self) -> Action {
        output(0, self.full())
    }

    /// From each switch to the next, in a ring from the last to the first too.
    fn links(self, ring: bool) -> Vec<Record> {
        let switches = 1 << self.of.w;
        let last = if ring { switches } else { switches - 1 };
        let from = |switch: u8| {
            (1..=self.count())
                .map(move |lane| link(switch, self.opposite(lane), (switch + 1) % switches, lane))
        };
        (0..last).flat_map(from).collect()
    }

    /// To the port opposite; every second port sets the upper of two header bits.
    fn across(self, port: u8) -> Vec<Action> {
        let marks = self.of.h == 2 && port % 2 == 1;
        let mark = marks.then_some(set(2, 2));
        mark.into_iter().chain([output(self.opposite(port), self.full())]).collect()
    }

    /// To the port opposite, at switch 0 in the next lane.
    fn onward(self, switch: u8, port: u8, upper: u8) -> Vec<Action> {
        let forward = port <= self.count();
        let lane = if forward { port } else { self.opposite(port) };
        if switch > 0 || lane > self.count() {
            return vec![output(self.opposite(port), self.full())];
        }
        let next = lane % self.count() + 1;
        let out = if forward { self.opposite(next) } else { next };
        let turns = self.of.h == 2 && next == 1;
        let turned = turns.then_some(set(upper ^ 2, 2));
        turned.into_iter().chain([output(out, self.full())]).collect()
    }
}

/// What arrives outside with header bit 0 clear never leaves with it set and one more bit set, or the
/// reverse.
fn guard(number: u8, bits: u8, closing: Closing) -> Vec<Node> {
    let [from, to] = closing.pair;
    let mut nodes = vec![];
    let step = closing.push_step(&mut nodes, number, bits);
    let leads = push(&mut nodes, tc(step, from, to));
    let reverse = number % 2 == 1;
    let enters = outside(&mut nodes, X, bits, [reverse, false]);
    let leaves = outside(&mut nodes, Y, bits, [!reverse, true]);
    let further = push(&mut nodes, bit(Y, number % bits));
    let left = push(&mut nodes, and(leaves, further));
    let led = push(&mut nodes, and(leads, left));
    let some_led = push(&mut nodes, some(led, Y));
    push(&mut nodes, and(enters, some_led));
    nodes
}

/// The nodes that say that a state is external, and whether header bit 0 and the top bit are set.
fn outside(nodes: &mut Vec<Node>, variable: u8, bits: u8, are_set: [bool; 2]) -> u8 {
    let mut fact = push(nodes, external(variable));
    for (place, is_set) in [0, bits - 1].into_iter().zip(are_set) {
        let mut its = push(nodes, bit(variable, place));
        if !is_set {
            its = push(nodes, not(its));
        }
        fact = push(nodes, and(fact, its));
    }
    fact
}

/// A network with eight guards.
fn network(kind: Kind, bits: u8, closing: Closing) -> Vec<Record> {
    with_policies(kind.records(bits), |number| guard(number, bits, closing))
}

/// The records with eight policies behind them.
fn with_policies(records: Vec<Record>, nodes: impl Fn(u8) -> Vec<Node>) -> Vec<Record> {
    let policies = (0..8).flat_map(|number| policy(number, &nodes(number)));
    records.into_iter().chain(policies).collect()
}

/// Policies of ten closures each, with X and Y exchanged, of relations that many pairs are in.
#[derive(Clone, Copy, Debug)]
enum Slow {
    /// Each closure is of half of all pairs, those that differ in one bit, and leads from every state to
    /// every state. AND with the same half of all pairs, which stand as they are and not exchanged, makes
    /// that half of the closure again.
    WithAnd,
    /// The pairs of a state with one bit set and one with it clear, a quarter of all, and NOT and a
    /// closure in turn: both this quarter and the other pairs are their own closure.
    WithNot,
}

impl Slow {
    const ALL: [Slow; 2] = [Slow::WithAnd, Slow::WithNot];

    fn words(self) -> &'static str {
        match self {
            Slow::WithAnd => "ten, AND behind each",
            Slow::WithNot => "ten, NOT before each",
        }
    }

    /// The nodes of a policy, which holds, since the last node is true of no state.
    fn nodes(self, number: u8) -> Vec<Node> {
        let mut nodes = vec![];
        let relation = self.push_relation(&mut nodes, number);
        let mut last = relation;
        for _ in 0..10 {
            last = self.push_closure(&mut nodes, last, relation);
        }
        let rest = push(&mut nodes, not(last));
        let both = push(&mut nodes, and(last, rest));
        push(&mut nodes, some(both, Y));
        nodes
    }

    /// The relation of the bit of a policy's number.
    fn push_relation(self, nodes: &mut Vec<Node>, number: u8) -> u8 {
        let [one, other] = [X, Y].map(|variable| push(nodes, bit(variable, number)));
        let [first, excluded] = match self {
            Slow::WithAnd => [or(one, other), and(one, other)].map(|node| push(nodes, node)),
            Slow::WithNot => [one, other],
        };
        let second = push(nodes, not(excluded));
        push(nodes, and(first, second))
    }

    /// One closure more, of the last node.
    fn push_closure(self, nodes: &mut Vec<Node>, last: u8, relation: u8) -> u8 {
        match self {
            Slow::WithAnd => {
                let led = push(nodes, tc(last, Y, X));
                push(nodes, and(led, relation))
            }
            Slow::WithNot => {
                let rest = push(nodes, not(last));
                push(nodes, tc(rest, Y, X))
            }
        }
    }
}

fn count(records: &[Record], kind: u8) -> usize {
    records.iter().filter(|record| record[0] == kind).count()
}

/// The networks with their sizes.
fn print_sizes() {
    println!("| N | network | H, P, W | links | rules | nodes of a policy, same | own |");
    println!("|---|---|---|---|---|---|---|");
    for bits in (4..=10).rev() {
        for kind in Kind::ALL {
            let Widths { h, p, w } = kind.widths(bits);
            let [same, _, own, _] = Closing::ALL.map(|closing| network(kind, bits, closing));
            let [links, rules] = [2, 4].map(|kind| count(&same, kind));
            let [same, own] = [same, own].map(|records| count(&records, 5) / 8);
            let name = kind.word();
            println!("| {bits} | {name} | {h}, {p}, {w} | {links} | {rules} | {same} | {own} |");
        }
    }
    println!();
}

/// The network and how its policies are written: what tells rows of one N apart.
type Name = [String; 3];

/// The times of every network, printed as they are taken.
fn all_times(form: Form, diagrams: Option<&Diagrams>) -> Vec<(u8, Name, Both)> {
    let mut rows = vec![];
    form.print_head(&[&["N", "network"], &Closing::COLUMNS[..]].concat());
    for bits in (4..=10).rev() {
        for kind in Kind::ALL {
            for closing in Closing::ALL {
                let times = both(&network(kind, bits, closing), diagrams);
                let [closures, pair] = closing.words();
                let name = [kind.word().to_string(), closures, pair];
                form.print_row(&[&[bits.to_string()], &name[..]].concat(), &times);
                rows.push((bits, name, times));
            }
        }
    }
    rows
}

/// The times of the chain at N = 10 with policies that are made to be slow, printed as they are taken.
fn print_slow(form: Form, diagrams: Option<&Diagrams>) {
    for slow in Slow::ALL {
        let records = with_policies(Kind::Chain.records(10), |number| slow.nodes(number));
        let columns = ["10", "chain, made to be slow", slow.words(), "(Y,X)"];
        form.print_row(&columns.map(str::to_string), &both(&records, diagrams));
    }
}

/// How many times as long a check takes at N = 10 as at N = 9.
fn print_growth(rows: &[(u8, Name, Both)]) {
    println!("\n| network | {} | library | Rust | BDD |", Closing::COLUMNS.join(" | "));
    println!("|---|---|---|---|---|---|");
    for (_, name, at_10) in rows.iter().filter(|(bits, ..)| *bits == 10) {
        let same = |(bits, its, _): &&(u8, Name, Both)| *bits == 9 && its == name;
        let (_, _, at_9) = rows.iter().find(same).expect("a row for each N");
        let grown = |of: fn(&Times) -> Option<f64>| {
            let growth = of(&at_10.check).zip(of(&at_9.check)).map(|(at_10, at_9)| at_10 / at_9);
            growth.map_or("–".to_string(), |growth| format!("{growth:.2}"))
        };
        let library = grown(|times| Some(times.library.median));
        let words = grown(|times| Some(times.words.median));
        let diagrams = grown(|times| times.diagrams);
        println!("| {} | {library} | {words} | {diagrams} |", name.join(" | "));
    }
}

fn main() {
    let form = Form::of_arguments();
    let diagrams = Diagrams::compiled(env!("CARGO_TARGET_TMPDIR"));
    if form == Form::Markdown {
        print_sizes();
    }
    let rows = all_times(form, diagrams.as_ref());
    print_slow(form, diagrams.as_ref());
    if form == Form::Markdown {
        print_growth(&rows);
    }
}
