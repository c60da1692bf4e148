//! Networks of three kinds, with shortest routes for random flows, as texts.

use crate::arguments::{fault, Arguments};
use crate::fault::quoted;
use crate::groups::MOST_GROUPS;
use crate::names::Point;
use crate::standard;
use crate::subcommands::{ProgramOption, FLOWS, GROUPS, SEED, SWITCHES};
use crate::templates::MOST_HOPS;
use crate::trouble::{Status, Trouble};
use crate::widths::Widths;
use std::fmt::Write;

/// The kind of a network.
#[derive(Clone, Copy, Debug, PartialEq, Eq)]
pub enum Kind {
    /// Few switches have most of the links: the weight of a switch is drawn by a power law.
    Plod,
    /// Tiers, each about half as large as the one below; a switch is joined to two of the next tier.
    Tree,
    Ring,
}

impl Kind {
    pub const ALL: [Kind; 3] = [Kind::Plod, Kind::Tree, Kind::Ring];

    /// The word for a kind.
    pub fn word(self) -> &'static str {
        match self {
            Kind::Plod => "plod",
            Kind::Tree => "tree",
            Kind::Ring => "ring",
        }
    }

    /// The kind of a word.
    pub fn of(word: &str) -> Option<Kind> {
        Kind::ALL.into_iter().find(|kind| kind.word() == word)
    }
}

/// The port width: six ordinary ports.
const PORTS: u8 = 3;
/// The most links of a switch with a host, whose port is port 1.
const MOST_LINKS: usize = 5;
const HOST: u8 = 1;
/// How often a flow is drawn again whose header another flow has on its way.
const TRIES: usize = 100;

/// How large a network is.
#[derive(Clone, Copy, Debug, PartialEq, Eq)]
pub struct Options {
    switches: usize,
    flows: usize,
    groups: usize,
}

impl Options {
    /// So many switches (2 to 16), flows (at most 64) and groups (at most 16).
    pub fn new(switches: usize, flows: usize, groups: usize) -> Result<Options, String> {
        if !(2..=16).contains(&switches) {
            return Err(format!("the number of switches is 2 to 16, not {switches}"));
        }
        if flows > 64 {
            return Err(format!("the number of flows is at most 64, not {flows}"));
        }
        if groups > MOST_GROUPS {
            return Err(format!("the number of groups is at most {MOST_GROUPS}, not {groups}"));
        }
        Ok(Options { switches, flows, groups })
    }

    /// The widths: as many switches, and if they fit as many headers as there are flows.
    fn widths(self) -> Widths {
        let bits = |count: usize| (count.max(2) - 1).ilog2() as u8 + 1;
        let w = bits(self.switches);
        Widths { h: bits(self.flows).min(9 - PORTS - w), p: PORTS, w }
    }
}

/// `wegbaro generate`: the text of a network.
pub fn run(arguments: &Arguments) -> Result<Status, Trouble> {
    let word = arguments.joined(0);
    let Some(kind) = Kind::of(&word) else {
        let kinds = Kind::ALL.map(Kind::word).join(", ");
        return Err(fault(format!("`{}` is no KIND ({kinds})", quoted(&word))));
    };
    let size = |option: ProgramOption, otherwise: u64| {
        let number = arguments.number(option.name, otherwise)?;
        Ok(usize::try_from(number).unwrap_or(usize::MAX))
    };
    let [switches, flows, groups] = [size(SWITCHES, 4)?, size(FLOWS, 4)?, size(GROUPS, 0)?];
    let options = Options::new(switches, flows, groups).map_err(fault)?;
    let text = generate(kind, options, arguments.number(SEED.name, 0)?);
    standard::write(text.as_bytes())?;
    Ok(Status::Good)
}

/// The text of a network; the same seed gives the same text.
pub fn generate(kind: Kind, options: Options, seed: u64) -> String {
    let mut random = Random { state: seed };
    let graph = match kind {
        Kind::Plod => plod(&mut random, options.switches),
        Kind::Tree => tree(options.switches),
        Kind::Ring => ring(options.switches),
    };
    let of = options.widths();
    let flows = graph.flows(&mut random, options.flows, of);
    let title = format!(
        "# {}, {} switches, {} flows, seed {seed}.",
        kind.word().to_uppercase(),
        graph.switches,
        flows.len()
    );
    graph.text(&title, of, &flows, options.groups)
}

/// splitmix64
struct Random {
    state: u64,
}

impl Random {
    fn below(&mut self, bound: usize) -> usize {
        self.state = self.state.wrapping_add(0x9E37_79B9_7F4A_7C15);
        let mut word = self.state;
        word = (word ^ (word >> 30)).wrapping_mul(0xBF58_476D_1CE4_E5B9);
        word = (word ^ (word >> 27)).wrapping_mul(0x94D0_49BB_1331_11EB);
        ((word ^ (word >> 31)) % bound as u64) as usize
    }

    fn pick<T: Copy>(&mut self, from: &[T]) -> T {
        from[self.below(from.len())]
    }
}

/// Switches, which of them have hosts, and links between two switches.
struct Graph {
    switches: usize,
    hosts: usize,
    links: Vec<[usize; 2]>,
}

/// Frames with a header from the first switch of a route to the host of the last.
struct Flow {
    header: u8,
    route: Vec<usize>,
}

fn ring(switches: usize) -> Graph {
    let links = match switches {
        2 => vec![[0, 1]],
        _ => (0..switches).map(|switch| [switch, (switch + 1) % switches]).collect(),
    };
    Graph { switches, hosts: switches, links }
}

/// The sizes of a tree's tiers, each half of the one below, rounded up, down to two or one.
fn tiers(lowest: usize) -> Vec<usize> {
    let mut sizes = vec![lowest];
    while sizes.len() == 1 || sizes[sizes.len() - 1] > 2 {
        sizes.push(sizes[sizes.len() - 1].div_ceil(2));
    }
    sizes
}

/// A tree of at most so many switches; hosts are at its lowest tier, of two switches at both.
fn tree(most: usize) -> Graph {
    let fits = |lowest: &usize| tiers(*lowest).iter().sum::<usize>() <= most;
    let sizes = tiers((1..=most).take_while(fits).last().unwrap_or(1));
    let mut links = vec![];
    let mut first = 0;
    for pair in sizes.windows(2) {
        let [size, above] = [pair[0], pair[1]];
        for switch in 0..size {
            let mut joined = vec![switch / 2 % above, (switch / 2 + 1) % above];
            joined.dedup();
            links.extend(joined.into_iter().map(|other| [first + switch, first + size + other]));
        }
        first += size;
    }
    Graph { switches: sizes.iter().sum(), hosts: sizes[0].max(2), links }
}

/// Every switch draws a number x from 1 to n and has weight n / x, between 1 and the most links. It is
/// joined to an earlier one with weight left; then pairs with weight left are joined.
fn plod(random: &mut Random, switches: usize) -> Graph {
    let draw = |random: &mut Random| (switches / (1 + random.below(switches))).clamp(1, MOST_LINKS);
    let mut left: Vec<usize> = (0..switches).map(|_| draw(random)).collect();
    let mut links: Vec<[usize; 2]> = vec![];
    let degree =
        |links: &[[usize; 2]], it: usize| links.iter().flatten().filter(|s| **s == it).count();
    for switch in 1..switches {
        let mut earlier: Vec<usize> = (0..switch).filter(|it| left[*it] > 0).collect();
        if earlier.is_empty() {
            earlier = (0..switch).filter(|it| degree(&links, *it) < MOST_LINKS).collect();
        }
        let other = random.pick(&earlier);
        links.push([other, switch]);
        left[other] = left[other].saturating_sub(1);
        left[switch] = left[switch].saturating_sub(1);
    }
    for _ in 0..4 * switches {
        let mut pair = [random.below(switches), random.below(switches)];
        pair.sort();
        let open = pair.iter().all(|it| left[*it] > 0 && degree(&links, *it) < MOST_LINKS);
        if open && pair[0] != pair[1] && !links.contains(&pair) {
            links.push(pair);
            pair.iter().for_each(|it| left[*it] -= 1);
        }
    }
    Graph { switches, hosts: switches, links }
}

impl Graph {
    /// Random flows along shortest routes over links of random length. Where a header has a way
    /// already, another flow of that header goes the same way on.
    fn flows(&self, random: &mut Random, count: usize, of: Widths) -> Vec<Flow> {
        let lengths: Vec<usize> = self.links.iter().map(|_| 1 + random.below(9)).collect();
        let onward = self.onward(&lengths);
        let mut flows: Vec<Flow> = vec![];
        for _ in 0..count {
            let drawn = (0..TRIES).find_map(|_| {
                let [from, to] = [random.below(self.hosts), random.below(self.hosts)];
                let header = random.below(1 << of.h) as u8;
                let flow = Flow { header, route: route(&onward, from, to) };
                (from != to && flows.iter().all(|other| other.agrees(&flow))).then_some(flow)
            });
            flows.extend(drawn);
        }
        flows
    }

    /// For each switch and each destination the next switch of a shortest route.
    fn onward(&self, lengths: &[usize]) -> Vec<Vec<usize>> {
        let count = self.switches;
        let far = usize::MAX / 4;
        let mut distance = vec![vec![far; count]; count];
        let mut onward: Vec<Vec<usize>> = (0..count).map(|it| vec![it; count]).collect();
        for (link, length) in self.links.iter().zip(lengths) {
            for [from, to] in [*link, [link[1], link[0]]] {
                distance[from][to] = *length;
                onward[from][to] = to;
            }
        }
        (0..count).for_each(|it| distance[it][it] = 0);
        for middle in 0..count {
            for from in 0..count {
                for to in 0..count {
                    let over = distance[from][middle] + distance[middle][to];
                    if over < distance[from][to] {
                        distance[from][to] = over;
                        onward[from][to] = onward[from][middle];
                    }
                }
            }
        }
        onward
    }

    /// The port of a switch for its link to another: links have the ports behind the host's.
    fn port(&self, switch: usize, other: usize) -> u8 {
        let mine = self.links.iter().filter(|link| link.contains(&switch));
        let place = mine.take_while(|link| !link.contains(&other)).count() as u8;
        place + if switch < self.hosts { HOST + 1 } else { 1 }
    }

    /// The network as a text. The first ports that rules send to, as many as there are groups, have a
    /// group each, and the rules send through it.
    fn text(&self, title: &str, of: Widths, flows: &[Flow], groups: usize) -> String {
        let mut text =
            format!("{title} Port {HOST} of switches 0 to {} is a host's.\n", self.hosts - 1);
        let Widths { h, p, w } = of;
        let mut line = |line: String| writeln!(text, "{line}").unwrap_or_default();
        line(format!("widths H {h} P {p} W {w}"));
        for [one, other] in &self.links {
            let ports = [self.port(*one, *other), self.port(*other, *one)];
            line(format!("link {one}:{} - {other}:{}", ports[0], ports[1]));
        }
        for switch in 0..1 << w {
            line(format!("miss {switch}: output drop"));
        }
        let sent = |flow: &Flow| flow.sent(self);
        let mut grouped: Vec<Point> = flows.iter().flat_map(sent).collect();
        grouped.sort();
        grouped.dedup();
        grouped.truncate(groups);
        let rule = |flow: &Flow| flow.rules(self, &grouped);
        let mut rules: Vec<String> = flows.iter().flat_map(rule).collect();
        rules.sort();
        rules.dedup();
        rules.into_iter().for_each(&mut line);
        line("policy 0: no loop over states".to_string());
        line("policy 1: no frame comes back to a switch it left".to_string());
        let longest = flows.iter().map(|flow| flow.route.len()).max().unwrap_or(1);
        if longest <= MOST_HOPS.into() {
            let hops = if longest == 1 { "hop" } else { "hops" };
            line(format!("policy 2: no route of more than {longest} {hops}"));
        }
        for point in &grouped {
            let [switch, port] = point;
            let number = group_of(&grouped, *point).unwrap_or_default();
            line(format!("group {switch}/{number}: output {port}"));
        }
        text
    }
}

/// The number of the group that sends to a point, if it has one: a switch's groups are numbered from 0.
fn group_of(grouped: &[Point], point: Point) -> Option<usize> {
    let mut mine = grouped.iter().filter(|[switch, _]| *switch == point[0]);
    mine.position(|other| *other == point)
}

/// The switches from one to another.
fn route(onward: &[Vec<usize>], from: usize, to: usize) -> Vec<usize> {
    let mut route = vec![from];
    let mut last = from;
    while last != to {
        last = onward[last][to];
        route.push(last);
    }
    route
}

impl Flow {
    /// The switch behind one of the route; the last one's is its host.
    fn next(&self, switch: usize) -> Option<Option<usize>> {
        let place = self.route.iter().position(|it| *it == switch)?;
        Some(self.route.get(place + 1).copied())
    }

    /// Whether no switch would have to send frames of one header two ways.
    fn agrees(&self, other: &Flow) -> bool {
        let same = |it: &usize| other.next(*it).is_none_or(|next| Some(next) == self.next(*it));
        self.header != other.header || self.route.iter().all(same)
    }

    /// The switches of the route, each with the port to which it sends.
    fn sent(&self, graph: &Graph) -> Vec<Point> {
        let point = |switch: &usize| match self.next(*switch) {
            Some(Some(next)) => [*switch as u8, graph.port(*switch, next)],
            _ => [*switch as u8, HOST],
        };
        self.route.iter().map(point).collect()
    }

    fn rules(&self, graph: &Graph, grouped: &[Point]) -> Vec<String> {
        let rule = |point: Point| {
            let [switch, port] = point;
            let action = match group_of(grouped, point) {
                Some(number) => format!("group {number}"),
                None => format!("output {port}"),
            };
            format!("rule {switch} priority 10 header {}: {action}", self.header)
        };
        self.sent(graph).into_iter().map(rule).collect()
    }
}
