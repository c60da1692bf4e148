//! Times the check call and a forwarded command on networks of source document 001's three kinds at
//! N = 4 to 10, with a quarter as many rules as states and eight policies: the library, plain Rust on
//! 64-bit words in turn, and decision diagrams on BuDDy where its header is installed. With the argument
//! `--tsv`, only the times.

use wegbaro_tests::closing::Closing;
use wegbaro_tests::diagrams::Diagrams;
use wegbaro_tests::formulas::{and, bit, external, not, or, policy, push, some, tc, Node, X, Y};
use wegbaro_tests::networks::Widths;
use wegbaro_tests::records::{output, rule, Record};
use wegbaro_tests::times::{both, Form};
use wegbaro_tools::generate::{generate, Kind, Options};
use wegbaro_tools::parse::parse;
use wegbaro_tools::print::whole_records;

const SEED: u64 = 1;
/// Each N, and the switches and flows of its networks. Two switches with a link between them are of each
/// kind.
const SIZES: [(u8, [usize; 2]); 7] =
    [(10, [16, 64]), (9, [4, 8]), (8, [4, 4]), (7, [4, 2]), (6, [2, 2]), (5, [2, 1]), (4, [2, 1])];
const MOST_NODES: usize = 32;

/// A generated network: the records before its policies, and the nodes of these.
struct Network {
    of: Widths,
    records: Vec<Record>,
    policies: Vec<Vec<Node>>,
}

impl Network {
    fn generated(kind: Kind, (bits, [switches, flows]): (u8, [usize; 2])) -> Network {
        let options = Options::new(switches, flows, 0).expect("a size within the limits");
        let text = narrowed(generate(kind, options, SEED), bits);
        let parsed = parse(&text).expect("a text without a fault");
        let (mut records, _) = whole_records(&parsed.bytes);
        let nodes = records.split_off(records.partition_point(|record| record[0] < 5));
        let policies = nodes.chunk_by(|one, next| one[1] == next[1]).map(|nodes| {
            let node = |record: &Record| [record[2], record[3], record[4]];
            nodes.iter().map(node).collect()
        });
        let of = Widths::of(&records[0]);
        assert_eq!(of.bits(), bits);
        Network { of, policies: policies.collect(), records }
    }

    /// The network with its policies as they are, in turn up to eight.
    fn as_generated(&self) -> Vec<Record> {
        let eight = self.policies.iter().cycle().take(8).cloned();
        self.with_policies(eight.collect())
    }

    /// The network with eight policies that are written in a way: each number has one of those that fit.
    fn written(&self, closing: Closing) -> Vec<Record> {
        let one_of = |number: u8| {
            let mut forms = self.forms(number, closing);
            forms.retain(|nodes| nodes.len() <= MOST_NODES);
            forms.swap_remove(usize::from(number) % forms.len())
        };
        self.with_policies((0..8).map(one_of).collect())
    }

    /// The policies of the document: no frame goes round, none comes back to a switch that it left, here
    /// one switch for each number, and none that leaves has gone more hops than the longest route.
    fn forms(&self, number: u8, closing: Closing) -> Vec<Vec<Node>> {
        let formula = Formula { nodes: vec![], number, of: self.of, closing };
        let longer = self.policies.get(2).map(|nodes| Formula { nodes: nodes.clone(), ..formula });
        let forms = [formula.clone().goes_round(), formula.comes_back()];
        forms.into_iter().chain(longer.map(Formula::leaves)).collect()
    }

    /// The network with all its rules and these policies.
    fn with_policies(&self, policies: Vec<Vec<Node>>) -> Vec<Record> {
        let numbered = (0..).zip(policies).flat_map(|(number, nodes)| policy(number, &nodes));
        self.with_all_rules().into_iter().chain(numbered).collect()
    }

    /// The records with a quarter as many rules as states that do the same: each rule in four, by the low
    /// bits of the port, then rules of a lower priority that drop as the miss does.
    fn with_all_rules(&self) -> Vec<Record> {
        let count = self.records.partition_point(|record| record[0] < 4);
        let (front, rules) = self.records.split_at(count);
        let parts = rules.iter().flat_map(|rule| (0..4).map(|value| part(rule, value)));
        let all: Vec<Record> = front.iter().copied().chain(parts).collect();
        let missing = count + (1 << (self.of.bits() - 2)) - all.len();
        all.into_iter().chain(self.idle_rules().take(missing)).collect()
    }

    /// A rule for each ordinary port and header that drops.
    fn idle_rules(&self) -> impl Iterator<Item = Record> {
        let Widths { h, p, w } = self.of;
        let [ports, headers] = [(1 << p) - 1, (1 << h) - 1];
        (0..1 << (w + h)).flat_map(move |both: u8| {
            let [switch, header] = [both >> h, both & headers];
            (1..ports).map(move |port| {
                rule(switch, 1, [port, ports], [header, headers], &[output(0, ports)])
            })
        })
    }
}

/// The text of a network of two switches, made so narrow. The generator's port width is 3, so that N is
/// at least 6, but such a network has a host at port 1 and a link at port 2 of each switch, and no other
/// port in use: at N = 5 its port width is 2. At N = 4 it is switch 0 alone, where port 2 has no link.
fn narrowed(text: String, bits: u8) -> String {
    match bits {
        5 => text.replace("P 3", "P 2"),
        4 => {
            let other = ["link", "miss 1", "rule 1"];
            let is_here = |line: &&str| !other.iter().any(|start| line.starts_with(start));
            let lines: Vec<&str> = text.lines().filter(is_here).collect();
            lines.join("\n").replace("P 3 W 1", "P 2 W 0")
        }
        _ => text,
    }
}

/// The part of a rule for ports with these two low bits.
fn part(rule: &Record, value: u8) -> Record {
    let mut part = *rule;
    part[4..6].copy_from_slice(&[value, 3]);
    part
}

/// The nodes of a policy.
#[derive(Clone)]
struct Formula {
    nodes: Vec<Node>,
    number: u8,
    of: Widths,
    closing: Closing,
}

impl Formula {
    fn push(&mut self, node: Node) -> u8 {
        push(&mut self.nodes, node)
    }

    /// Walks from the first variable to the second.
    fn push_walk(&mut self, first: u8, second: u8) -> u8 {
        let step = self.closing.push_step(&mut self.nodes, self.number, self.of.bits());
        let is_exchanged = self.closing.pair == [Y, X];
        self.push(if is_exchanged { tc(step, second, first) } else { tc(step, first, second) })
    }

    /// A frame from outside gets to a state on a loop.
    fn goes_round(mut self) -> Vec<Node> {
        let enters = self.push(external(X));
        let [walk, round] = [self.push_walk(X, Y), self.push_walk(Y, Y)];
        let both = self.push(and(walk, round));
        let goes = self.push(some(both, Y));
        self.push(and(enters, goes));
        self.nodes
    }

    /// A frame from outside departs at the switch of the policy's number, and gets there again.
    fn comes_back(mut self) -> Vec<Node> {
        let departs = self.push(bit(X, self.of.bits() - 1));
        let [outside, walk] = [self.push(external(Y)), self.push_walk(Y, X)];
        let both = self.push(and(outside, walk));
        let entered = self.push(some(both, Y));
        let departed = self.push(and(departs, entered));
        let [there, again] = [X, Y].map(|variable| self.push_at_switch(variable));
        let left = self.push_and(departed, there);
        let walk = self.push_walk(X, Y);
        let both = self.push_and(walk, again);
        let back = self.push(some(both, Y));
        self.push(and(left, back));
        self.nodes
    }

    /// A node, and another if there is one.
    fn push_and(&mut self, node: u8, other: Option<u8>) -> u8 {
        other.map_or(node, |other| self.push(and(node, other)))
    }

    /// A state is at the switch of the policy's number; nothing is to be said where there is one switch.
    fn push_at_switch(&mut self, variable: u8) -> Option<u8> {
        let first = self.of.h + self.of.p;
        let (ones, zeros): (Vec<u8>, Vec<u8>) =
            (0..self.of.w).partition(|place| self.number >> place & 1 == 1);
        let mut join = |places: Vec<u8>, by: fn(u8, u8) -> Node| {
            let bits: Vec<u8> =
                places.iter().map(|place| self.push(bit(variable, first + place))).collect();
            bits.into_iter().reduce(|one, other| self.push(by(one, other)))
        };
        let [ones, zeros] = [join(ones, and), join(zeros, or)];
        let clear = zeros.map(|zeros| self.push(not(zeros)));
        match (ones, clear) {
            (Some(ones), Some(clear)) => Some(self.push(and(ones, clear))),
            (one, other) => one.or(other),
        }
    }

    /// The last node so far is true, and X gets to where a frame leaves.
    fn leaves(mut self) -> Vec<Node> {
        let so = self.nodes.len() as u8 - 1;
        let [walk, outside] = [self.push_walk(X, Y), self.push(external(Y))];
        let both = self.push(and(walk, outside));
        let leaves = self.push(some(both, Y));
        self.push(and(so, leaves));
        self.nodes
    }
}

/// What is timed of a network, each with the words for it.
fn timed(network: &Network) -> Vec<([String; 2], Vec<Record>)> {
    let as_generated = (["as generated", "–"].map(str::to_string), network.as_generated());
    let written = Closing::ALL.map(|closing| (closing.words(), network.written(closing)));
    [as_generated].into_iter().chain(written).collect()
}

fn count(records: &[Record], is_so: impl Fn(&Record) -> bool) -> usize {
    records.iter().filter(|record| is_so(record)).count()
}

/// The networks with their sizes.
fn print_sizes(networks: &[(String, Network)]) {
    println!("| network | N | H, P, W | links | rules | closures | pair | nodes | TC among them |");
    println!("|---|---|---|---|---|---|---|---|---|");
    for (name, network) in networks {
        let (of, Widths { h, p, w }) = (network.of, network.of);
        for (words, records) in timed(network) {
            let [links, rules, nodes] = [2, 4, 5].map(|kind| count(&records, |it| it[0] == kind));
            let closures = count(&records, |record| record[0] == 5 && record[2] == 8);
            let sizes = format!("{} | {h}, {p}, {w} | {links} | {rules}", of.bits());
            println!("| {name} | {sizes} | {} | {nodes} | {closures} |", words.join(" | "));
        }
    }
    println!();
}

fn main() {
    let form = Form::of_arguments();
    let diagrams = Diagrams::compiled(env!("CARGO_TARGET_TMPDIR"));
    let sized =
        |size| Kind::ALL.map(|kind| (kind.word().to_uppercase(), Network::generated(kind, size)));
    let networks: Vec<(String, Network)> = SIZES.into_iter().flat_map(sized).collect();
    if form == Form::Markdown {
        print_sizes(&networks);
    }
    form.print_head(&[&["N", "network"], &Closing::COLUMNS[..]].concat());
    for (name, network) in &networks {
        let first = [network.of.bits().to_string(), name.clone()];
        for (words, records) in timed(network) {
            let times = both(&records, diagrams.as_ref());
            form.print_row(&[&first, &words[..]].concat(), &times);
        }
    }
}
