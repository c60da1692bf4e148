//! One step of a packet state.

use super::groups::Tables;
use super::network::{Action, Network, Pattern, Rule};
use super::states::{Direction, Point, State, StateSet, DROP};
use std::collections::BTreeMap;

/// For each state number, the numbers of the states it steps to.
pub fn all_steps(network: &Network) -> Vec<StateSet> {
    steps_by(network, |point, header| acting(network, point, header))
}

/// The same if these lists of actions, each by itself, run on what arrives at a point with a header.
pub fn steps_by<A: AsRef<[Action]>>(
    network: &Network,
    mut acting: impl FnMut(Point, u8) -> Vec<A>,
) -> Vec<StateSet> {
    let groups = Tables::of(network);
    let steps_of = |number| {
        let state = State::numbered(number, network.widths);
        let next: Vec<State> = match state.direction {
            Direction::Arriving if state.point.port == DROP => vec![],
            Direction::Arriving => {
                let acting = acting(state.point, state.header);
                let sent = |actions: &A| copies(network, &groups, state, actions.as_ref());
                acting.iter().flat_map(sent).collect()
            }
            Direction::Departing => across(network, state).into_iter().collect(),
        };
        next.iter().map(|state| state.number(network.widths)).collect()
    };
    (0..network.widths.states()).map(steps_of).collect()
}

/// The state at the other end of the link, if there is one.
fn across(network: &Network, departed: State) -> Option<State> {
    let point = network.other_end(departed.point)?;
    Some(State { direction: Direction::Arriving, point, header: departed.header })
}

fn depart(point: Point, header: u8) -> State {
    State { direction: Direction::Departing, point, header }
}

/// The copies of an arriving packet that actions send.
pub fn copies(
    network: &Network,
    groups: &Tables,
    arrived: State,
    actions: &[Action],
) -> Vec<State> {
    let State { point, mut header, .. } = arrived;
    let mut copies = vec![];
    for action in actions {
        match action {
            Action::Set(pattern) => header = pattern.put_into(header),
            Action::Output(pattern) => {
                for port in ports_reached(network, *pattern, point.port) {
                    copies.push(depart(Point { port, ..point }, header));
                }
            }
            Action::InPort => copies.push(depart(point, header)),
            Action::Group(number) => {
                let sent = groups.sent(point.switch, *number, header);
                copies.extend(elsewhere(network, sent, point.port));
            }
        }
    }
    copies
}

/// The states of a set but those at the port of arrival.
fn elsewhere(network: &Network, sent: &StateSet, arrival: u8) -> Vec<State> {
    let sent = sent.without(&StateSet::empty()).into_iter();
    sent.map(|number| State::numbered(number, network.widths))
        .filter(|state| state.point.port != arrival)
        .collect()
}

/// The actions of each record that acts on what arrives at a point with a header: of the rules that
/// match, parted by priority, all of the highest; without one, the miss record.
pub fn acting(network: &Network, point: Point, header: u8) -> Vec<&[Action]> {
    let mut by_priority: BTreeMap<u16, Vec<&[Action]>> = BTreeMap::new();
    for rule in network.rules.iter().filter(|rule| matches(rule, point, header)) {
        by_priority.entry(rule.matching.priority).or_default().push(&rule.actions);
    }
    match by_priority.pop_last() {
        Some((_, highest)) => highest,
        None => vec![&network.misses[usize::from(point.switch)]],
    }
}

/// Whether a rule matches what arrives at a point with a header.
pub fn matches(rule: &Rule, point: Point, header: u8) -> bool {
    let matching = &rule.matching;
    matching.switch == point.switch
        && matching.port.matches(point.port)
        && matching.header.matches(header)
}

/// The ports that an OUTPUT reaches: any one port by its full name, by stars ordinary ones only,
/// and never the port of arrival.
pub fn ports_reached(network: &Network, pattern: Pattern, arrival: u8) -> Vec<u8> {
    let widths = network.widths;
    let starred = pattern.has_stars(widths.port);
    (0..widths.ports())
        .filter(|port| pattern.matches(*port) && (!starred || widths.is_ordinary(*port)))
        .filter(|port| *port != arrival)
        .collect()
}
