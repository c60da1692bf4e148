//! Generated networks and commands have rules of equal priority that act together, in any order.

use std::collections::{BTreeMap, BTreeSet};
use wegbaro_tests::cases::commands::inserted;
use wegbaro_tests::commands::{command, Wish};
use wegbaro_tests::compare;
use wegbaro_tests::networks::{guarded_network, random_network, MODEST};
use wegbaro_tests::random::Random;
use wegbaro_tests::records::Record;
use wegbaro_tests::second::file;
use wegbaro_tests::second::groups::Tables;
use wegbaro_tests::second::network::{Action, Network, Pattern, Rule};
use wegbaro_tests::second::states::{State, StateSet, DROP};
use wegbaro_tests::second::steps::{all_steps, copies, matches};

/// What is met at an arriving state; all but the last say that two rules act that do not send the same.
#[derive(Clone, Copy, Debug, PartialEq, Eq, PartialOrd, Ord)]
enum Met {
    Two,
    /// Three rules or more, no two of which send the same.
    Three,
    /// One of the rules has such an action.
    Set,
    Group,
    InPort,
    Flood,
    Drop,
    /// One of the rules sends nothing.
    Nothing,
    /// Two of the rules each match something that the other does not.
    Partly,
    /// A rule of the same priority matches the same arrival at another switch.
    Elsewhere,
    /// Two rules of one priority match, and a higher one does too.
    Hidden,
}

/// All that a network meets.
fn met_by(network: &Network) -> BTreeSet<Met> {
    let groups = Tables::of(network);
    let states = 0..network.widths.states() / 2;
    let arriving = states.map(|number| State::numbered(number, network.widths));
    let arriving = arriving.filter(|state| state.point.port != DROP);
    arriving.flat_map(|state| met_at(network, &groups, state)).collect()
}

fn met_at(network: &Network, groups: &Tables, state: State) -> Vec<Met> {
    let matching: Vec<&Rule> =
        network.rules.iter().filter(|rule| matches(rule, state.point, state.header)).collect();
    let highest = matching.iter().map(|rule| rule.matching.priority).max();
    let (acting, lower): (Vec<&Rule>, Vec<&Rule>) =
        matching.into_iter().partition(|rule| Some(rule.matching.priority) == highest);
    let sent = |rule: &&Rule| -> StateSet {
        let copies = copies(network, groups, state, &rule.actions);
        copies.iter().map(|copy| copy.number(network.widths)).collect()
    };
    let sent: Vec<StateSet> = acting.iter().map(sent).collect();
    let is_new = |(place, set): &(usize, &StateSet)| !sent[..*place].contains(set);
    let differing = sent.iter().enumerate().filter(is_new).count();
    let mut met = vec![];
    if differing > 1 {
        met.extend([Met::Two].into_iter().chain(met_by_actions(network, &acting)));
        let facts = [
            (Met::Three, differing > 2),
            (Met::Nothing, sent.contains(&StateSet::empty())),
            (Met::Partly, acting.iter().any(|one| acting.iter().any(|other| cross(one, other)))),
            (Met::Elsewhere, network.rules.iter().any(|rule| is_elsewhere(rule, acting[0], state))),
        ];
        met.extend(facts.into_iter().filter(|(_, is_so)| *is_so).map(|(met, _)| met));
    }
    if lower.iter().any(|rule| are_more(&lower, rule.matching.priority)) {
        met.push(Met::Hidden);
    }
    met
}

fn met_by_actions(network: &Network, acting: &[&Rule]) -> Vec<Met> {
    let full = network.widths.controller();
    let met_by = |action: &Action| match *action {
        Action::Set(_) => Some(Met::Set),
        Action::Group(_) => Some(Met::Group),
        Action::InPort => Some(Met::InPort),
        Action::Output(Pattern { value: DROP, care }) if care == full => Some(Met::Drop),
        Action::Output(ports) if ports.care != full => Some(Met::Flood),
        Action::Output(_) => None,
    };
    acting.iter().flat_map(|rule| &rule.actions).filter_map(met_by).collect()
}

/// Whether each of two rules of a switch matches something that the other does not.
fn cross(one: &Rule, other: &Rule) -> bool {
    !covers(one, other) && !covers(other, one)
}

/// Whether a rule matches whatever another one of its switch does.
fn covers(wide: &Rule, narrow: &Rule) -> bool {
    let within = |wide: Pattern, narrow: Pattern| {
        wide.care & !narrow.care == 0 && narrow.value & wide.care == wide.value
    };
    within(wide.matching.port, narrow.matching.port)
        && within(wide.matching.header, narrow.matching.header)
}

/// Whether more than one rule is of a priority.
fn are_more(rules: &[&Rule], priority: u16) -> bool {
    rules.iter().filter(|rule| rule.matching.priority == priority).count() > 1
}

/// Whether a rule is for another switch, and else of a rule's priority and for its arrival.
fn is_elsewhere(rule: &Rule, acting: &Rule, state: State) -> bool {
    let given = &rule.matching;
    given.switch != acting.matching.switch
        && given.priority == acting.matching.priority
        && given.port.matches(state.point.port)
        && given.header.matches(state.header)
}

/// How many of a hundred networks meet each.
fn shares(networks: &[Vec<Record>]) -> BTreeMap<Met, usize> {
    let mut counts = BTreeMap::new();
    for records in networks {
        for met in met_by(&file::read(records).unwrap()) {
            *counts.entry(met).or_default() += 1;
        }
    }
    counts.values_mut().for_each(|count| *count = 100 * *count / networks.len());
    counts
}

/// Fails unless at least so many of a hundred networks meet each.
fn assert_meet(networks: &[Vec<Record>], least: &[(Met, usize)]) {
    let shares = shares(networks);
    for (met, least) in least {
        assert!(shares.get(met) >= Some(least), "{met:?}: {shares:?}");
    }
}

/// Of a hundred random networks so many have each; rules that are drawn one by one have fewer.
#[test]
fn equals_are_generated() {
    let mut random = Random::new(60);
    let (mut any, mut guarded) = (vec![], vec![]);
    for of in compare::widths_up_to(8).into_iter().cycle().take(1_240) {
        any.push(random_network(&mut random, of, MODEST));
        guarded.push(guarded_network(&mut random, of));
    }
    let of_any = [
        (Met::Two, 40),
        (Met::Three, 10),
        (Met::Set, 34),
        (Met::Group, 22),
        (Met::InPort, 25),
        (Met::Flood, 32),
        (Met::Drop, 7),
        (Met::Nothing, 13),
        (Met::Partly, 17),
        (Met::Elsewhere, 6),
        (Met::Hidden, 33),
    ];
    let of_guarded = [
        (Met::Two, 14),
        (Met::Set, 10),
        (Met::Group, 3),
        (Met::InPort, 7),
        (Met::Flood, 10),
        (Met::Nothing, 3),
        (Met::Partly, 3),
        (Met::Hidden, 3),
    ];
    assert_meet(&any, &of_any);
    assert_meet(&guarded, &of_guarded);
}

/// Adds of new rules by which rules come to act together that do not send the same, where none did
/// before.
#[test]
fn equals_are_added() {
    let mut random = Random::new(61);
    let (mut alone, mut added) = (0, 0);
    for of in compare::widths_up_to(8).into_iter().cycle().take(1_240) {
        let records = guarded_network(&mut random, of);
        let meets = |records: &[Record]| met_by(&file::read(records).unwrap()).contains(&Met::Two);
        if !meets(&records) {
            let given = command(&mut random, &records, Wish::AddNew);
            let behind = records.iter().rposition(|record| record[0] <= 4).unwrap() + 1;
            let mut rule: Record = given.try_into().unwrap();
            rule[0] = 4;
            alone += 1;
            added += usize::from(meets(&inserted(&records, behind, rule)));
        }
    }
    assert!(100 * added > 10 * alone, "{added} of {alone}");
}

/// Whatever order the rules stand in. What the gates answer then is compared by `compare::orders`.
#[test]
fn steps_are_the_same_in_any_order() {
    let mut random = Random::new(63);
    let mut meeting = 0;
    for of in compare::widths_up_to(7).into_iter().cycle().take(600) {
        let mut network = file::read(&random_network(&mut random, of, MODEST)).unwrap();
        let steps = all_steps(&network);
        for _ in 0..4 {
            random.shuffle(&mut network.rules);
            assert_eq!(all_steps(&network), steps, "{network:?}");
        }
        meeting += usize::from(met_by(&network).contains(&Met::Two));
    }
    assert!(meeting > 200, "{meeting}");
}
