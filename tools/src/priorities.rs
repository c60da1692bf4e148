//! Rules of equal priority that act on the same frame.
//!
//! OpenFlow leaves open which of several matching rules of the highest priority a switch takes, and
//! makers differ. The gate lets all of them act, and judges the steps of all together. Of an even
//! policy that holds it is proved that it also holds if each state takes the steps of just one of
//! the rules, whichever.

use crate::answers::broken::nodes_of;
use crate::answers::start::policies;
use crate::answers::taken::places_words;
use crate::answers::Standing;
use crate::formula::Node;
use crate::kind::node;
use crate::steps::{priority_of, Network, State};
use crate::trouble::Trouble;
use crate::Record;

/// The most sets of rules that are told at once.
const MOST_SETS: usize = 8;

/// What makes a rule the same rule: switch, priority and patterns.
type Match = [u8; 7];

/// Rules of one switch that act on some state together.
#[derive(Clone, Debug, PartialEq, Eq)]
pub struct Together {
    /// Their places, in the order of the file.
    pub places: Vec<usize>,
    /// The lowest state on which they act.
    pub state: State,
}

impl Together {
    /// The rules by what makes them the same, in ascending order.
    fn matches(&self, records: &[Record]) -> Vec<Match> {
        let rules = self.places.iter().map(|place| &records[*place]);
        let mut matches: Vec<Match> =
            rules.map(|rule| std::array::from_fn(|i| rule[i + 1])).collect();
        matches.sort();
        matches
    }
}

/// The rules that act on a state together, for every state on which several do. A set within a larger
/// one is left out.
pub fn acting_together(network: Network) -> Vec<Together> {
    let mut found: Vec<Together> = vec![];
    for state in (0..network.states()).map(|number| State::numbered(number, network.widths)) {
        let places = network.acting(state);
        if places.len() > 1 && found.iter().all(|other| other.places != places) {
            found.push(Together { places, state });
        }
    }
    let is_part = |one: &Together| {
        let is_larger = |other: &&Together| other.places.len() > one.places.len();
        found.iter().filter(is_larger).any(|other| has_all(&other.places, &one.places))
    };
    found.iter().filter(|one| !is_part(one)).cloned().collect()
}

/// Whether an ascending list has all these entries.
fn has_all<T: Ord>(list: &[T], entries: &[T]) -> bool {
    entries.iter().all(|entry| list.binary_search(entry).is_ok())
}

/// Whether every way from a policy's last node down to an R passes an even number of NOTs.
pub fn is_even(nodes: &[Node]) -> bool {
    // For each node whether an R lies below it, over an even and over an odd number of NOTs.
    let mut below: Vec<[bool; 2]> = vec![];
    for &[kind, one, other] in nodes {
        let operand = |number: u8| below[usize::from(number)];
        below.push(match kind {
            node::BIT | node::E => [false, false],
            node::R => [true, false],
            node::NOT => {
                let [even, odd] = operand(one);
                [odd, even]
            }
            node::AND | node::OR => {
                let [one, other] = [operand(one), operand(other)];
                [one[0] || other[0], one[1] || other[1]]
            }
            _ => operand(one),
        });
    }
    below.last().is_none_or(|[_, odd]| !odd)
}

/// What is noted of rules that act together.
#[derive(Clone, Debug, Default)]
pub struct Noted {
    /// The sets of the network that was last looked at.
    sets: Vec<Vec<Match>>,
    /// Whether it is noted what they mean for the policies.
    policies: bool,
}

impl Noted {
    /// The sets of these records that are not noted. From then on all of them are.
    fn renew(&mut self, records: &[Record], mut together: Vec<Together>) -> Vec<Together> {
        let sets = together.iter().map(|it| it.matches(records)).collect();
        let before = std::mem::replace(&mut self.sets, sets);
        together.retain(|it| !before.iter().any(|set| has_all(set, &it.matches(records))));
        together
    }
}

/// Notes on the rules that act together in a network that no row refuses, unless they are noted.
/// Where it holds, the first of them are followed by what that means for each policy.
pub fn notes_on_equals(
    standing: Standing,
    holds: bool,
    noted: &mut Noted,
) -> Result<Vec<String>, Trouble> {
    let records = &standing.book.records;
    let new = noted.renew(records, acting_together(standing.network()?));
    let first = new.iter().take(MOST_SETS);
    let mut notes: Vec<String> = first.map(|it| together_words(standing, it)).collect();
    if new.len() > MOST_SETS {
        let more = new.len() - MOST_SETS;
        notes.push(format!("so it is with {more} more sets of rules"));
    }
    if holds && !new.is_empty() && !noted.policies {
        notes.extend((0..policies(records)).map(|policy| evenness_words(standing, policy)));
        noted.policies = true;
    }
    Ok(notes)
}

fn together_words(standing: Standing, together: &Together) -> String {
    let [switch, port, header] = standing.field_words(together.state);
    let rules = places_words(standing.book, &together.places);
    let priority = priority_of(&standing.book.records[together.places[0]]);
    let all = if together.places.len() == 2 { "both" } else { "all" };
    format!(
        "{rules} are rules of switch {switch} with priority {priority} that {all} match port \
         {port}, header {header}; {all} act, where a switch may take just one of them"
    )
}

/// What the verdict that the network holds means for a policy.
fn evenness_words(standing: Standing, policy: usize) -> String {
    let holds = match is_even(&nodes_of(&standing.book.records, policy)) {
        true => "is even: it holds also if a switch takes just one of these rules, whichever",
        false => {
            "is not even: it holds over the steps of all these rules together, and may be broken \
             if a switch takes just one of them"
        }
    };
    format!("policy {policy}{} {holds}", standing.policy_words(policy))
}
