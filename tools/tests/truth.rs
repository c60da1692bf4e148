//! Compiled formulas have the truth of the formula as written, which is worked out here from the
//! fields of the states.

mod common;
mod seeded;

use common::with_policies;
use seeded::seeded;
use std::collections::BTreeMap;
use wegbaro_tests::formulas::policy;
use wegbaro_tests::gate::{Answer, Call, Gate, Lent};
use wegbaro_tests::networks::{all_widths, random_network, Sizes, Widths, MODEST};
use wegbaro_tests::random::Random;
use wegbaro_tests::records::Record;
use wegbaro_tests::second::{self, Second};
use wegbaro_tools::compile::{compile, Compiled};
use wegbaro_tools::formula::Node;
use wegbaro_tools::names::Names;
use wegbaro_tools::parse::Reader;
use wegbaro_tools::tokens::statements;
use wegbaro_tools::widths::Widths as Wide;
use wegbaro_tools::written::{read_formula, Written};

/// A formula to be written; a variable is 0 for X, 1 for Y.
enum Tree {
    /// The direction, 0 arriving.
    Direction(usize, usize),
    /// A field, its pattern with stars, and whether it differs.
    Fits(Field, usize, String, bool),
    Same(Field, [usize; 2], bool),
    At(usize, usize, usize),
    External(usize),
    Bit(usize, usize),
    Steps([usize; 2]),
    Reaches([usize; 2]),
    Loops(usize),
    Not(Box<Tree>),
    And(Vec<Tree>),
    Or(Vec<Tree>),
    Exists(usize, Box<Tree>),
    Forall(usize, Box<Tree>),
    Tc(Box<Tree>, [usize; 2]),
}

#[derive(Clone, Copy)]
enum Field {
    Header,
    Port,
    Switch,
}

const FIELDS: [Field; 3] = [Field::Header, Field::Port, Field::Switch];

impl Field {
    fn word(self) -> &'static str {
        match self {
            Field::Header => "header",
            Field::Port => "port",
            Field::Switch => "switch",
        }
    }

    fn width(self, of: Widths) -> u8 {
        match self {
            Field::Header => of.h,
            Field::Port => of.p,
            Field::Switch => of.w,
        }
    }

    /// The field of a state: direction, switch, port and header from the top down.
    fn of(self, of: Widths, state: usize) -> usize {
        let [header, port, switch] = [of.h, of.p, of.w].map(|width| 1_usize << width);
        match self {
            Field::Header => state % header,
            Field::Port => state / header % port,
            Field::Switch => state / header / port % switch,
        }
    }
}

/// A random formula of about so many parts.
fn random_tree(random: &mut Random, of: Widths, size: usize) -> Tree {
    let variable = random.below(2);
    let pair = [random.below(2), random.below(2)];
    if size > 1 {
        let half = |random: &mut Random| Box::new(random_tree(random, of, size - 1));
        let several = |random: &mut Random| {
            let count = 2 + random.below(3);
            (0..count).map(|_| random_tree(random, of, size / count)).collect()
        };
        return match random.below(8) {
            0 => Tree::Not(half(random)),
            1..=3 => Tree::And(several(random)),
            4 | 5 => Tree::Or(several(random)),
            6 => match random.one_in(2) {
                true => Tree::Exists(variable, half(random)),
                false => Tree::Forall(variable, half(random)),
            },
            _ => Tree::Tc(half(random), pair),
        };
    }
    match random.below(11) {
        0 => Tree::Direction(variable, random.below(2)),
        1..=3 => {
            let field = random.pick(&FIELDS);
            let stars = random.one_in(2);
            let character = |random: &mut Random| match stars && random.one_in(2) {
                true => '*',
                false => random.pick(&['0', '1']),
            };
            let pattern = (0..field.width(of)).map(|_| character(random)).collect();
            Tree::Fits(field, variable, pattern, random.one_in(2))
        }
        4 => Tree::Same(random.pick(&FIELDS), pair, random.one_in(2)),
        5 => Tree::At(variable, random.below(1 << of.w), random.below(1 << of.p)),
        6 => Tree::External(variable),
        7 => Tree::Bit(variable, random.below(of.bits().into())),
        8 => Tree::Steps(pair),
        9 => Tree::Reaches(pair),
        _ => Tree::Loops(variable),
    }
}

/// The formula in words, with one of the forms where there are several.
fn write(random: &mut Random, tree: &Tree) -> String {
    let name = |variable: &usize| ["X", "Y"][*variable];
    let names = |pair: &[usize; 2]| format!("({},{})", name(&pair[0]), name(&pair[1]));
    let chain = |random: &mut Random, parts: &[Tree], signs: [&str; 2]| {
        let sign = random.pick(&signs);
        let parts: Vec<String> = parts.iter().map(|part| write(random, part)).collect();
        format!("({})", parts.join(&format!(" {sign} ")))
    };
    match tree {
        Tree::Direction(one, 0) => format!("arriving({})", name(one)),
        Tree::Direction(one, _) => format!("departing({})", name(one)),
        Tree::Fits(field, one, pattern, differs) => {
            let sign = if *differs { "!=" } else { "=" };
            let number = usize::from_str_radix(pattern, 2).unwrap_or(0);
            let has_stars = pattern.contains('*');
            // A switch without stars is a number, and without bits it is switch 0.
            let bits = has_stars || !matches!(field, Field::Switch) && random.one_in(2);
            let pattern = if bits { pattern.clone() } else { number.to_string() };
            format!("{}({}) {sign} {pattern}", field.word(), name(one))
        }
        Tree::Same(field, [one, other], differs) => {
            let sign = if *differs { "!=" } else { "=" };
            format!("{0}({1}) {sign} {0}({2})", field.word(), name(one), name(other))
        }
        Tree::At(one, switch, port) => format!("at({}, {switch}:{port})", name(one)),
        Tree::External(one) => format!("{}({})", random.pick(&["external", "E"]), name(one)),
        Tree::Bit(one, bit) => format!("bit({},{bit})", name(one)),
        Tree::Steps(pair) => format!("{}{}", random.pick(&["steps", "R"]), names(pair)),
        Tree::Reaches(pair) => format!("reaches{}", names(pair)),
        Tree::Loops(one) => format!("loops({})", name(one)),
        Tree::Not(part) => {
            let word = random.pick(&["!", "not "]);
            format!("{word}{}", write(random, part))
        }
        Tree::And(parts) => chain(random, parts, ["&", "and"]),
        Tree::Or(parts) => chain(random, parts, ["|", "or"]),
        Tree::Exists(one, part) => format!("(exists {}. {})", name(one), write(random, part)),
        Tree::Forall(one, part) => format!("(forall {}. {})", name(one), write(random, part)),
        Tree::Tc(part, pair) => format!("tc({}){}", write(random, part), names(pair)),
    }
}

/// For each pair of states as X and Y whether something is so.
type Table = Vec<bool>;

/// The network's steps and external points, from its own fields.
struct World {
    of: Widths,
    states: usize,
    steps: Table,
    external: Vec<bool>,
}

impl World {
    fn new(records: &[Record]) -> World {
        let Ok(network) = second::file::read(records) else { panic!("refused") };
        let of = Widths::of(&records[0]);
        let states = 1 << of.bits();
        let all = second::steps::all_steps(&network);
        let steps = pairs(states, |[x, y]| all[x].contains(y));
        let external = |state: usize| {
            let [switch, port] = [Field::Switch, Field::Port].map(|it| it.of(of, state) as u8);
            network.is_external(second::states::Point { switch, port })
        };
        World { of, states, steps, external: (0..states).map(external).collect() }
    }

    fn pairs(&self, truth: impl Fn([usize; 2]) -> bool) -> Table {
        pairs(self.states, truth)
    }

    fn truth(&self, tree: &Tree) -> Table {
        let of = self.of;
        match tree {
            Tree::Direction(one, direction) => {
                self.pairs(|sight| sight[*one] / (self.states / 2) == *direction)
            }
            Tree::Fits(field, one, pattern, differs) => self.pairs(|sight| {
                let bits = format!("{:b}", (1 << field.width(of)) + field.of(of, sight[*one]));
                let mut characters = bits[1..].chars().zip(pattern.chars());
                characters.all(|(bit, fixed)| fixed == '*' || fixed == bit) != *differs
            }),
            Tree::Same(field, [one, other], differs) => self.pairs(|sight| {
                (field.of(of, sight[*one]) == field.of(of, sight[*other])) != *differs
            }),
            Tree::At(one, switch, port) => self.pairs(|sight| {
                let state = sight[*one];
                Field::Switch.of(of, state) == *switch && Field::Port.of(of, state) == *port
            }),
            Tree::External(one) => self.pairs(|sight| self.external[sight[*one]]),
            Tree::Bit(one, bit) => self.pairs(|sight| sight[*one] >> bit & 1 == 1),
            Tree::Steps(pair) => self.seen(&self.steps, *pair),
            Tree::Reaches(pair) => self.seen(&self.walks(&self.steps), *pair),
            Tree::Loops(one) => self.seen(&self.walks(&self.steps), [*one, *one]),
            Tree::Not(part) => self.truth(part).into_iter().map(|truth| !truth).collect(),
            Tree::And(parts) => self.joined(parts, |one, other| one && other),
            Tree::Or(parts) => self.joined(parts, |one, other| one || other),
            Tree::Exists(one, part) => self.over(&self.truth(part), *one, true),
            Tree::Forall(one, part) => self.over(&self.truth(part), *one, false),
            Tree::Tc(part, pair) => self.seen(&self.walks(&self.truth(part)), *pair),
        }
    }

    /// The truth of a node list's last node.
    fn truth_of_nodes(&self, nodes: &[Node]) -> Table {
        let mut tables: Vec<Table> = vec![];
        for [kind, one, other] in nodes.iter().map(|node| node.map(usize::from)) {
            let table = match kind {
                0 => self.pairs(|sight| sight[one] >> other & 1 == 1),
                1 => self.seen(&self.steps, [one, other]),
                2 => self.pairs(|sight| self.external[sight[one]]),
                3 => tables[one].iter().map(|truth| !truth).collect(),
                4 => zip(&tables[one], &tables[other], |one, other| one && other),
                5 => zip(&tables[one], &tables[other], |one, other| one || other),
                6 => self.over(&tables[one], other, true),
                7 => self.over(&tables[one], other, false),
                8 => self.seen(&self.walks(&tables[one]), [other / 2, other % 2]),
                _ => panic!("no node has kind {kind}"),
            };
            tables.push(table);
        }
        tables.pop().unwrap()
    }

    /// The relation of two states seen over a pair of variables.
    fn seen(&self, relation: &Table, [one, other]: [usize; 2]) -> Table {
        self.pairs(|sight| relation[sight[one] * self.states + sight[other]])
    }

    fn joined(&self, parts: &[Tree], join: fn(bool, bool) -> bool) -> Table {
        let tables = parts.iter().map(|part| self.truth(part));
        tables.reduce(|one, other| zip(&one, &other, join)).unwrap()
    }

    /// Whether some state as the variable has this truth; if all have the other, the other.
    fn over(&self, table: &Table, variable: usize, truth: bool) -> Table {
        let states = self.states;
        self.pairs(|[x, y]| {
            let mut line = (0..states).map(|state| match variable {
                0 => table[state * states + y],
                _ => table[x * states + state],
            });
            line.any(|it| it == truth) == truth
        })
    }

    /// A walk of one or more pairs of the relation: states are gone through one after the other as
    /// those that a walk may pass.
    fn walks(&self, relation: &Table) -> Table {
        let states = self.states;
        let mut walks = relation.clone();
        for middle in 0..states {
            let onward = walks[middle * states..(middle + 1) * states].to_vec();
            for from in 0..states {
                if walks[from * states + middle] {
                    let line = &mut walks[from * states..(from + 1) * states];
                    line.iter_mut().zip(&onward).for_each(|(walk, more)| *walk |= more);
                }
            }
        }
        walks
    }
}

fn pairs(states: usize, truth: impl Fn([usize; 2]) -> bool) -> Table {
    (0..states * states).map(|pair| truth([pair / states, pair % states])).collect()
}

fn zip(one: &Table, other: &Table, join: fn(bool, bool) -> bool) -> Table {
    one.iter().zip(other).map(|(one, other)| join(*one, *other)).collect()
}

fn read(formula: &str, of: Widths) -> Written {
    let wide = Wide { h: of.h, p: of.p, w: of.w };
    let mut reader = Reader::with(wide, Names::default());
    let mut found = statements(formula);
    let read = read_formula(&mut reader, &mut found[0], wide);
    read.unwrap_or_else(|fault| panic!("{}", fault.show("formula", formula)))
}

const SIZES: Sizes = Sizes { links: 4, rules: 8, policies: 0, nodes: 0, ..MODEST };

/// How often each outcome was met.
type Counts = BTreeMap<&'static str, usize>;

/// Compiles a random formula and compares the truths for every pair of states.
fn one_formula(random: &mut Random, of: Widths, size: usize, counts: &mut Counts) {
    let network = random_network(random, of, SIZES);
    let world = World::new(&network);
    let tree = random_tree(random, of, size);
    let formula = write(random, &tree);
    let truth = world.truth(&tree);
    let wide = Wide { h: of.h, p: of.p, w: of.w };
    let outcome = match compile(&read(&formula, of), wide) {
        Compiled::One(nodes, constant) => {
            assert!(nodes.len() <= 32);
            assert!(all_are_used(&nodes), "{formula}: {nodes:?}");
            assert!(world.truth_of_nodes(&nodes) == truth, "{formula} as {nodes:?}");
            match constant {
                Some(constant) => {
                    assert!(truth.iter().all(|it| *it == constant), "{formula}");
                    "constant"
                }
                None => "one",
            }
        }
        Compiled::Split(parts, nodes) => {
            assert!(parts.len() > 1 && nodes > 32);
            assert!(parts.iter().all(|nodes| nodes.len() <= 32 && all_are_used(nodes)));
            let tables = parts.iter().map(|nodes| world.truth_of_nodes(nodes));
            let together = tables.reduce(|one, other| zip(&one, &other, |a, b| a || b));
            assert!(together.unwrap() == truth, "{formula} as {parts:?}");
            "split"
        }
        Compiled::TooLong(nodes) => {
            assert!(nodes > 32);
            "too long"
        }
    };
    *counts.entry(outcome).or_default() += 1;
}

/// Whether every node but the last is an operand.
fn all_are_used(nodes: &[Node]) -> bool {
    let last = nodes.len() - 1;
    (0..last as u8).all(|number| {
        nodes.iter().any(|[kind, one, other]| match kind {
            3 | 6..=8 => *one == number,
            4 | 5 => *one == number || *other == number,
            _ => false,
        })
    })
}

#[test]
fn random_formulas_for_every_pair_of_states() {
    let mut random = seeded(1);
    let mut counts = Counts::new();
    let small: Vec<Widths> = all_widths().into_iter().filter(|of| of.bits() <= 6).collect();
    for round in 0..1_500 {
        let of = random.pick(&small);
        one_formula(&mut random, of, 1 + round % 24, &mut counts);
    }
    for outcome in ["constant", "one", "split", "too long"] {
        assert!(counts.get(outcome) > Some(&20), "{counts:?}");
    }
}

#[test]
fn random_formulas_of_wider_wards() {
    let mut random = seeded(2);
    let mut counts = Counts::new();
    let wide: Vec<Widths> =
        all_widths().into_iter().filter(|of| (7..=8).contains(&of.bits())).collect();
    for round in 0..60 {
        let of = random.pick(&wide);
        one_formula(&mut random, of, 2 + round % 12, &mut counts);
    }
    assert!(counts.get("one") > Some(&20), "{counts:?}");
}

/// Checks a formula that fits into one policy by the closures it gets beyond those it is written with.
fn fits_by_closures(random: &mut Random, of: Widths, tree: &Tree, written: usize) {
    let world = World::new(&random_network(random, of, SIZES));
    let formula = write(random, tree);
    let wide = Wide { h: of.h, p: of.p, w: of.w };
    let Compiled::One(nodes, _) = compile(&read(&formula, of), wide) else {
        panic!("{formula} does not fit");
    };
    assert!(nodes.iter().filter(|node| node[0] == 8).count() > written, "{formula} as {nodes:?}");
    assert!(world.truth_of_nodes(&nodes) == world.truth(tree), "{formula} as {nodes:?}");
}

/// Two points of six bits each: what is said of Y shares the bits of X.
#[test]
fn two_points_share_their_bits() {
    let mut random = seeded(3);
    let of = Widths { h: 1, p: 4, w: 2 };
    for _ in 0..10 {
        let point = |random: &mut Random, it| Tree::At(it, random.below(4), random.below(16));
        let header = |it, value: &str| Tree::Fits(Field::Header, it, value.to_string(), false);
        let there = Tree::And(vec![Tree::Reaches([0, 1]), point(&mut random, 1), header(1, "1")]);
        let start = [point(&mut random, 0), header(0, "0"), Tree::Direction(0, 0)];
        let parts = start.into_iter().chain([Tree::Exists(1, Box::new(there))]).collect();
        fits_by_closures(&mut random, of, &Tree::And(parts), 1);
    }
}

/// The same switch among sixteen: each is among the other's bits.
#[test]
fn the_same_switch_by_order() {
    let mut random = seeded(5);
    let of = Widths { h: 1, p: 2, w: 4 };
    let from_outside = Tree::And(vec![Tree::External(1), Tree::Reaches([1, 0])]);
    let again = Tree::And(vec![Tree::Reaches([0, 1]), Tree::Same(Field::Switch, [0, 1], false)]);
    let tree = Tree::And(vec![
        Tree::Direction(0, 1),
        Tree::Exists(1, Box::new(from_outside)),
        Tree::Exists(1, Box::new(again)),
    ]);
    fits_by_closures(&mut random, of, &tree, 2);
}

/// The second implementation finds the lowest state that the formula as written has.
#[test]
fn the_lowest_state_of_a_policy() {
    let mut random = seeded(4);
    let of = Widths { h: 1, p: 2, w: 2 };
    let [mut held, mut violated] = [0, 0];
    for round in 0..300 {
        let network = random_network(&mut random, of, SIZES);
        let tree = Tree::Exists(1, Box::new(random_tree(&mut random, of, 2 + round % 8)));
        let formula = write(&mut random, &tree);
        let wide = Wide { h: of.h, p: of.p, w: of.w };
        let Compiled::One(nodes, _) = compile(&read(&formula, of), wide) else { continue };
        let world = World::new(&network);
        let truth = world.truth(&tree);
        let lowest = (0..world.states).find(|state| truth[state * world.states]);
        let records = with_policies(&network, &policy(0, &nodes));
        let checked = Second.answer(&Call::Check, &mut Lent::just(&records));
        match lowest {
            Some(state) => assert_eq!(checked, Answer::Violated { policy: 0, state }, "{formula}"),
            None => assert_eq!(checked, Answer::Holds, "{formula}"),
        }
        match lowest {
            Some(_) => violated += 1,
            None => held += 1,
        }
    }
    assert!(held > 50 && violated > 50, "{held} held, {violated} violated");
}
