//! Times the three calls at N = 10: reading, the step plane, the check and the command with eight
//! closures, and routes.

mod plain;

use plain::groups::{self, Groups};
use std::hint::black_box;
use std::time::Instant;
use wegbaro_tests::formulas::{and, bit, external, not, policy, r, some, tc, Node, X, Y};
use wegbaro_tests::gate::{Answer, Call, Gate, Lent, MOST_RECORDS};
use wegbaro_tests::library::Library;
use wegbaro_tests::networks::{largest, largest_without_policies, nested_groups, Widths};
use wegbaro_tests::random::Random;
use wegbaro_tests::records::{add, link, miss, output, rule, run, widths, Record};
use wegbaro_tests::second::network::{Action, Match, Network, Pattern, Rule};
use wegbaro_tests::second::states::{Direction, Point, State, DROP};
use wegbaro_tests::second::{file, routes, steps, Second};
use wegbaro_tests::winding::winding;

const RUNS: usize = 101;
const STATES: usize = 1024;
const WORDS: usize = STATES / 64;
/// Row 11: the work is too short, which is found after all records are read.
const SHORT: Answer = Answer::Refused { number: 11, place: 0 };

fn check(gate: &dyn Gate, lent: &mut Lent) -> Answer {
    gate.answer(&Call::Check, black_box(lent))
}

/// A network just lent, but without any work.
fn without_work(records: &[Record]) -> Lent {
    Lent { work: vec![], ..Lent::just(records) }
}

/// Microseconds that a call takes.
fn time<T>(call: impl FnOnce() -> T) -> f64 {
    let start = Instant::now();
    black_box(call());
    start.elapsed().as_secs_f64() * 1e6
}

fn median(mut times: Vec<f64>) -> f64 {
    times.sort_by(f64::total_cmp);
    times[times.len() / 2]
}

/// The medians of two times taken in turn.
fn medians(mut run: impl FnMut() -> [f64; 2]) -> [f64; 2] {
    let times: Vec<[f64; 2]> = (0..RUNS).map(|_| run()).collect();
    [0, 1].map(|which| median(times.iter().map(|pair| pair[which]).collect()))
}

fn set_bit(words: &mut [u64], place: usize) {
    words[place / 64] |= 1 << (place % 64);
}

fn depart(network: &Network, row: &mut [u64], point: Point, header: u8) {
    let state = State { direction: Direction::Departing, point, header };
    set_bit(row, state.number(network.widths));
}

/// Sends to the ports of a pattern but that of arrival.
fn send(network: &Network, row: &mut [u64], point: Point, header: u8, ports: Pattern) {
    let widths = network.widths;
    let starred = ports.has_stars(widths.port);
    for port in (0..widths.ports()).filter(|port| *port != point.port) {
        if ports.matches(port) && (!starred || widths.is_ordinary(port)) {
            depart(network, row, Point { port, ..point }, header);
        }
    }
}

/// Puts what actions send of an arriving state into its row.
fn act(network: &Network, groups: &Groups, row: &mut [u64], arrived: State, actions: &[Action]) {
    let State { point, mut header, .. } = arrived;
    for action in actions {
        match action {
            Action::Set(pattern) => header = pattern.put_into(header),
            Action::Output(ports) => send(network, row, point, header, *ports),
            Action::InPort => depart(network, row, point, header),
            Action::Group(number) => {
                let sent = groups.sent(point.switch, *number, header);
                groups::add_elsewhere(network, row, sent, point);
            }
        }
    }
}

/// A priority, above that of a miss record.
fn rank(rule: &Rule) -> u32 {
    1 + u32::from(rule.matching.priority)
}

/// Takes each arriving state that a rule matches: its fixed bits, with any of its stars set.
fn each_match(network: &Network, rule: &Rule, mut take: impl FnMut(usize)) {
    let (Match { switch, port, header, .. }, widths) = (rule.matching, network.widths);
    let bits = |port: u8, header: u8| usize::from(port) << widths.header | usize::from(header);
    let below = widths.port + widths.header;
    let fixed = usize::from(switch) << below | bits(port.value, header.value);
    let stars = (1 << below) - 1 - bits(port.care, header.care);
    let mut set = 0;
    loop {
        take(fixed | set);
        set = set.wrapping_sub(stars) & stars;
        if set == 0 {
            return;
        }
    }
}

/// Clears the plane and puts in the steps of arriving states. Each rule is taken twice over the states
/// that it matches: for the highest rank of each, and to act where that is its own.
#[inline(never)]
fn fill_arriving(network: &Network, plane: &mut [u64]) {
    plane.fill(0);
    let groups = Groups::of(network);
    let mut highest = [0; STATES / 2];
    for rule in &network.rules {
        each_match(network, rule, |state| highest[state] = rank(rule).max(highest[state]));
    }
    let mut run = |number: usize, actions: &[Action]| {
        let arrived = State::numbered(number, network.widths);
        if arrived.point.port != DROP {
            act(network, &groups, &mut plane[number * WORDS..][..WORDS], arrived, actions);
        }
    };
    for rule in &network.rules {
        each_match(network, rule, |state| {
            if highest[state] == rank(rule) {
                run(state, &rule.actions);
            }
        });
    }
    for number in (0..STATES / 2).filter(|number| highest[*number] == 0) {
        run(number, &network.misses[number >> (network.widths.port + network.widths.header)]);
    }
}

/// Puts in the steps of departing states, and gives the row of external states.
type Departing = fn(&Network, &mut [u64]) -> [u64; WORDS];

/// Each state by a search of the links.
#[inline(never)]
fn by_state(network: &Network, plane: &mut [u64]) -> [u64; WORDS] {
    let widths = network.widths;
    for (number, row) in plane.chunks_exact_mut(WORDS).enumerate().skip(STATES / 2) {
        let State { point, header, .. } = State::numbered(number, widths);
        if let Some(point) = network.other_end(point) {
            set_bit(row, State { direction: Direction::Arriving, point, header }.number(widths));
        }
    }
    let mut row = [0; WORDS];
    for number in 0..STATES {
        if network.is_external(State::numbered(number, widths).point) {
            set_bit(&mut row, number);
        }
    }
    row
}

/// All states by one walk over the links, as the library does it.
#[inline(never)]
fn by_link(network: &Network, plane: &mut [u64]) -> [u64; WORDS] {
    let widths = network.widths;
    let mut linked = [0; WORDS];
    for link in &network.links {
        for (from, to) in [(link.one, link.other), (link.other, link.one)] {
            for header in 0..1 << widths.header {
                let [from, to] = [from, to].map(|point| {
                    State { direction: Direction::Arriving, point, header }.number(widths)
                });
                set_bit(&mut plane[(STATES / 2 + from) * WORDS..], to);
                set_bit(&mut linked, from);
                set_bit(&mut linked, STATES / 2 + from);
            }
        }
    }
    let mut row = [0; WORDS];
    for number in 0..STATES {
        if widths.is_ordinary(State::numbered(number, widths).point.port) {
            set_bit(&mut row, number);
        }
    }
    std::array::from_fn(|place| row[place] & !linked[place])
}

/// Fails unless the plane and the row of external states are those of the second implementation.
fn compare(network: &Network, plane: &[u64], row: &[u64]) {
    let has = |words: &[u64], state: usize| words[state / 64] >> (state % 64) & 1 == 1;
    let steps = steps::all_steps(network);
    for x in 0..STATES {
        let point = State::numbered(x, network.widths).point;
        assert_eq!(has(row, x), network.is_external(point), "external {x}");
        for y in 0..STATES {
            assert_eq!(has(&plane[x * WORDS..], y), steps[x].contains(y), "step {x} {y}");
        }
    }
}

/// Reading the largest network.
fn reading() -> f64 {
    let records = largest(&mut Random::new(1));
    let mut lent = without_work(&records);
    assert_eq!(lent.n, MOST_RECORDS);
    assert_eq!(check(&Library, &mut lent), SHORT);
    median((0..RUNS).map(|_| time(|| check(&Library, &mut lent))).collect())
}

/// 256 rules at one switch, each of higher priority than those before it, so that every one that
/// matches takes the lead.
fn one_switch() -> Vec<Record> {
    let mut random = Random::new(4);
    let mut pattern = |width: u8| {
        let care = random.bits(width);
        [random.bits(width) & care, care]
    };
    let sending = |priority: u16| {
        let port = 1 + priority as u8 % 6;
        rule(0, priority, pattern(3), pattern(6), &[output(port, 7)])
    };
    let rules: Vec<Record> = (0..256).map(sending).collect();
    [vec![widths(6, 3, 0), miss(0, &[output(0, 7)])], rules].concat()
}

/// The same rules, each of which runs one of sixteen groups in place of its action. Each group but the
/// lowest has three buckets on to the next lower one.
fn one_switch_with_groups() -> Vec<Record> {
    let mut records = one_switch();
    for (number, rule) in records[2..].iter_mut().enumerate() {
        rule[9..12].copy_from_slice(&run(number as u8 % 16));
    }
    records.extend(nested_groups(Widths { h: 6, p: 3, w: 0 }, 0));
    records
}

/// The values and cares of the 256 patterns of nine bits with the most stars.
fn widest() -> Vec<[u16; 2]> {
    let mut cares: Vec<u16> = (0..512).collect();
    cares.sort_by_key(|care| care.count_ones());
    let of_care = |care: u16| {
        let values = (0..512).filter(move |value| value & !care == 0);
        values.map(move |value| [value, care])
    };
    cares.into_iter().flat_map(of_care).take(256).collect()
}

/// 256 rules of one priority at one switch, with the widest patterns of port and header, so that as
/// many as possible act on each state: 46 with at most two bits fixed, and some of those with three.
fn equals_at_one_switch() -> Vec<Record> {
    let sending = |(number, [value, care]): (u8, [u16; 2])| {
        let port = [value, care].map(|bits| (bits >> 6) as u8);
        let header = [value, care].map(|bits| (bits & 63) as u8);
        rule(0, 7, port, header, &[output(1 + number % 6, 7)])
    };
    let rules = (0..=255).zip(widest()).map(sending);
    [widths(6, 3, 0), miss(0, &[output(0, 7)])].into_iter().chain(rules).collect()
}

/// The same rules, each of which runs the highest of sixteen groups in place of its action.
fn equals_with_groups() -> Vec<Record> {
    let mut records = equals_at_one_switch();
    records[2..].iter_mut().for_each(|rule| rule[9..12].copy_from_slice(&run(15)));
    records.extend(nested_groups(Widths { h: 6, p: 3, w: 0 }, 0));
    records
}

/// What arrives never leads to a state with a bit that is both set and not: so it holds everywhere.
fn vacuous(other: u8) -> Vec<Node> {
    vec![
        bit(X, 9),
        not(0),
        r(X, Y),
        tc(2, X, Y),
        bit(Y, other),
        not(4),
        and(4, 5),
        and(3, 6),
        some(7, Y),
        and(1, 8),
    ]
}

/// 256 rules at one switch, two links, and eight closures that hold. Where there are groups, every
/// rule runs the highest of the sixteen in place of its action.
fn closed_at_one_switch(groups: &[Record]) -> Vec<Record> {
    let mut records = one_switch();
    if !groups.is_empty() {
        records[2..].iter_mut().for_each(|rule| rule[9..12].copy_from_slice(&run(15)));
    }
    records.splice(1..1, [link(0, 1, 0, 2), link(0, 3, 0, 4)]);
    records.extend((0..8).flat_map(|number| policy(number, &vacuous(number))));
    records.extend(groups);
    records
}

/// The check call with eight closures: with sixteen nested groups that every rule runs, and without.
fn check_groups() -> [f64; 2] {
    let groups = nested_groups(Widths { h: 6, p: 3, w: 0 }, 0);
    let networks = [closed_at_one_switch(&groups), closed_at_one_switch(&[])];
    let mut lent = networks.map(|records| Lent::just(&records));
    medians(|| {
        let [with, without] = &mut lent;
        [with, without].map(|lent| time(|| assert_eq!(check(&Library, lent), Answer::Holds)))
    })
}

/// The step plane, the external row and two cleared planes: the library, and plain Rust.
fn step_plane(records: &[Record], departing: Departing) -> [f64; 2] {
    let (mut lent, mut short) = (Lent::just(records), without_work(records));
    assert_eq!(check(&Library, &mut lent), Answer::Holds);
    assert_eq!(check(&Library, &mut short), SHORT);
    let network = file::read(records).unwrap();
    let mut planes = vec![0; 2 * STATES * WORDS];
    let fill = |plane: &mut [u64]| {
        fill_arriving(black_box(&network), plane);
        departing(&network, plane)
    };
    let row = fill(&mut planes[..STATES * WORDS]);
    compare(&network, &planes, &row);
    medians(|| {
        let whole = time(|| check(&Library, &mut lent));
        let read = time(|| check(&Library, &mut short));
        let plain = time(|| {
            black_box(fill(&mut planes[..STATES * WORDS]));
            black_box(&mut planes).fill(0);
        });
        [whole - read, plain]
    })
}

/// What arrives outside with header 0 never leaves with header 1 and another bit set.
fn guard(other: u8) -> Vec<Node> {
    vec![
        external(X),
        bit(X, 9),
        bit(X, 0),
        not(1),
        not(2),
        and(0, 3),
        and(5, 4),
        r(X, Y),
        tc(7, X, Y),
        external(Y),
        bit(Y, 9),
        bit(Y, 0),
        bit(Y, other),
        and(9, 10),
        and(13, 11),
        and(14, 12),
        and(8, 15),
        some(16, Y),
        and(6, 17),
    ]
}

/// A network of 96 links, 256 rules and eight guards that hold, since its SETs change no bit.
fn guarded() -> Vec<Record> {
    let mut records = largest_without_policies(&mut Random::new(3));
    records.drain(97..113);
    for record in records.iter_mut().filter(|record| record[0] > 2) {
        for action in record[9..21].chunks_exact_mut(3).filter(|action| action[0] == 2) {
            action.copy_from_slice(&[2, 0, 0]);
        }
    }
    records.extend((0..8).flat_map(|number| policy(number, &guard(number + 1))));
    records
}

/// The check call on the guarded network: the library, and the second implementation.
fn check_guarded(records: &[Record]) -> [f64; 2] {
    let mut lent = Lent::just(records);
    let gates: [&dyn Gate; 2] = [&Library, &Second];
    for gate in gates {
        assert_eq!(check(gate, &mut lent), Answer::Holds);
    }
    medians(|| gates.map(|gate| time(|| check(gate, &mut lent))))
}

/// The command call on it, with an add that makes a rule drop and is forwarded.
fn command_guarded(records: &[Record]) -> [f64; 2] {
    let before = Lent::just(records);
    let [_, switch, low, high, port, port_care, header, header_care, ..] = records[200];
    let priority = u16::from_le_bytes([low, high]);
    let given =
        add(rule(switch, priority, [port, port_care], [header, header_care], &[output(0, 15)]));
    let call = Call::Command(given.to_vec());
    let gates: [&dyn Gate; 2] = [&Library, &Second];
    medians(|| {
        gates.map(|gate| {
            let mut lent = before.clone();
            let mut answer = None;
            let taken = time(|| answer = Some(gate.answer(&call, &mut lent)));
            assert_eq!(answer, Some(Answer::Forwarded { count: lent.n }));
            assert!(lent.store != before.store);
            taken
        })
    })
}

/// A network without policies, the ends of a route, and the route if there is one.
struct Sought {
    records: Vec<Record>,
    ends: [usize; 2],
    route: Option<Vec<usize>>,
}

impl Sought {
    fn new(records: Vec<Record>, ends: [usize; 2]) -> Sought {
        let steps = steps::all_steps(&file::read(&records).unwrap());
        let route = routes::find(&steps, ends[0], ends[1]);
        Sought { records, ends, route }
    }

    /// In the network of the step plane, from state 2 to a state that is farthest from it.
    fn in_largest() -> Sought {
        let records = largest_without_policies(&mut Random::new(2));
        let steps = steps::all_steps(&file::read(&records).unwrap());
        let states = |end: &usize| routes::find(&steps, 2, *end).map_or(0, |route| route.len());
        let farthest = (0..STATES).max_by_key(states).unwrap();
        Sought::new(records, [2, farthest])
    }

    /// The longest route.
    fn longest() -> Sought {
        let long = winding(Widths { h: 1, p: 4, w: 4 });
        Sought::new(long.records, [long.route[0], long.route[long.route.len() - 1]])
    }

    /// In the same network without the rule that changes the header: half of the route's states lead
    /// from the start, the others to the end.
    fn none() -> Sought {
        let Sought { mut records, ends, .. } = Sought::longest();
        records.retain(|record| record[0] != 4 || record[9] != 2);
        Sought::new(records, ends)
    }

    fn name(&self) -> String {
        match &self.route {
            Some(route) => format!("route of {} states", route.len()),
            None => "no route".to_string(),
        }
    }

    /// Fails unless a route is the one sought.
    fn compare(&self, count: Option<usize>, list: &[u16]) {
        let written = count.map(|count| list[..count].iter().map(|state| usize::from(*state)));
        assert_eq!(written.map(Vec::from_iter), self.route);
    }

    /// Without reading: the library, and plain Rust, which has the network parsed.
    fn beside_plain(&self) -> [f64; 2] {
        let (mut lent, mut short) = (Lent::just(&self.records), without_work(&self.records));
        let network = file::read(&self.records).unwrap();
        let mut planes = vec![0; 2 * STATES * WORDS];
        let [start, end] = self.ends;
        let call = Call::Route { start, end };
        let mut list = vec![0; STATES + 1];
        medians(|| {
            let mut answer = None;
            let whole = time(|| answer = found(Library.answer(&call, black_box(&mut lent))));
            self.compare(answer, &lent.list);
            let read = time(|| Library.answer(&call, black_box(&mut short)));
            let plain = time(|| {
                fill_arriving(black_box(&network), &mut planes[..STATES * WORDS]);
                black_box(by_link(&network, &mut planes));
                answer = plain::route(&planes, start, end, &mut list);
                black_box(&mut planes).fill(0);
            });
            self.compare(answer, &list);
            [whole - read, plain]
        })
    }

    /// The whole call, and a check with the policy that no state is on a loop: one closure.
    fn beside_check(&self) -> [f64; 2] {
        let one_closure = policy(0, &[r(X, Y), tc(0, X, X)]);
        let records = [self.records.clone(), one_closure].concat();
        let mut lent = Lent::just(&records);
        let [start, end] = self.ends;
        let call = Call::Route { start, end };
        assert!(!check(&Library, &mut lent).is_refused());
        medians(|| {
            let mut answer = None;
            let route = time(|| answer = found(Library.answer(&call, black_box(&mut lent))));
            self.compare(answer, &lent.list);
            [route, time(|| check(&Library, &mut lent))]
        })
    }
}

/// The count of a route.
fn found(answer: Answer) -> Option<usize> {
    match answer {
        Answer::Found { count } => Some(count),
        Answer::NoRoute => None,
        _ => panic!("{answer:?}"),
    }
}

fn print(name: &str, [library, other]: [f64; 2], beside: &str) {
    println!("| {name} | {library:.0} | {beside} | {other:.0} | {:.2} |", library / other);
}

fn main() {
    println!("| at N = 10 | library, µs | beside it | µs | ratio |");
    println!("|---|---|---|---|---|");
    println!("| reading the largest network | {:.0} | | | |", reading());
    let plane = "step plane, 256 rules and 112 links";
    let records = largest_without_policies(&mut Random::new(2));
    print(plane, step_plane(&records, by_state), "plain Rust, links searched for each state");
    print(plane, step_plane(&records, by_link), "plain Rust, links walked once");
    let plane = "step plane, 256 rules at one switch";
    print(plane, step_plane(&one_switch(), by_link), "plain Rust, links walked once");
    let plane = "step plane, 256 rules and 16 groups at one switch";
    print(plane, step_plane(&one_switch_with_groups(), by_link), "plain Rust, links walked once");
    let plane = "step plane, 256 overlapping rules of one priority at one switch";
    print(plane, step_plane(&equals_at_one_switch(), by_link), "plain Rust, links walked once");
    let plane = "step plane, the same rules, each runs the highest of 16 groups";
    print(plane, step_plane(&equals_with_groups(), by_link), "plain Rust, links walked once");
    let records = guarded();
    print("check, 256 rules and eight closures", check_guarded(&records), "second implementation");
    print("command on the same network", command_guarded(&records), "second implementation");
    let name = "check, 16 groups that 256 rules run, eight closures";
    print(name, check_groups(), "the library, without the groups");
    for sought in [Sought::in_largest(), Sought::longest(), Sought::none()] {
        let name = sought.name();
        print(
            &format!("{name}, less reading"),
            sought.beside_plain(),
            "plain Rust on 64-bit words",
        );
        print(&name, sought.beside_check(), "check with one closure");
    }
}
