//! Gates that choose among the rules of a state wrong in one way each.

use wegbaro_tests::gate::{Answer, Call, Gate, Lent};
use wegbaro_tests::second::answer_by;
use wegbaro_tests::second::groups::Tables;
use wegbaro_tests::second::network::{Action, Network, Rule};
use wegbaro_tests::second::states::{Direction, Point, State, StateSet, DROP};
use wegbaro_tests::second::steps::{all_steps, copies, matches};

#[derive(Clone, Copy, Debug, PartialEq, Eq)]
pub enum ChoiceVice {
    TakesTheFirst,
    TakesTheLast,
    TakesTheFirstAndTheLast,
    TakesTheFirstThatSends,
    TakesWhatAllSend,
    TakesLowerOnes,
    TakesTheLowest,
    TakesTheMissToo,
    TakesTheMissIfNothingIsSent,
    TakesUnmatchedOnesBetween,
    TakesOtherSwitches,
    HidesByOtherSwitches,
    ComparesLowBytes,
    ComparesHighBytes,
    HandsTheHeaderOn,
}

pub const CHOICE_VICES: [ChoiceVice; 15] = [
    ChoiceVice::TakesTheFirst,
    ChoiceVice::TakesTheLast,
    ChoiceVice::TakesTheFirstAndTheLast,
    ChoiceVice::TakesTheFirstThatSends,
    ChoiceVice::TakesWhatAllSend,
    ChoiceVice::TakesLowerOnes,
    ChoiceVice::TakesTheLowest,
    ChoiceVice::TakesTheMissToo,
    ChoiceVice::TakesTheMissIfNothingIsSent,
    ChoiceVice::TakesUnmatchedOnesBetween,
    ChoiceVice::TakesOtherSwitches,
    ChoiceVice::HidesByOtherSwitches,
    ChoiceVice::ComparesLowBytes,
    ChoiceVice::ComparesHighBytes,
    ChoiceVice::HandsTheHeaderOn,
];

/// A gate with a vice, if any, in the choice of rules by which it answers, else as the second
/// implementation.
pub struct Choosing(pub Option<ChoiceVice>);

impl Gate for Choosing {
    fn answer(&self, call: &Call, lent: &mut Lent) -> Answer {
        answer_by(&|network| self.steps(network), call, lent)
    }
}

impl Choosing {
    /// The steps, those of arriving states by what is chosen.
    fn steps(&self, network: &Network) -> Vec<StateSet> {
        let groups = Tables::of(network);
        let mut steps = all_steps(network);
        for (number, set) in steps.iter_mut().enumerate() {
            let state = State::numbered(number, network.widths);
            if state.direction == Direction::Arriving && state.point.port != DROP {
                *set = self.sent(network, &groups, state);
            }
        }
        steps
    }

    /// What an arriving state is sent to by the records that are chosen.
    fn sent(&self, network: &Network, groups: &Tables, state: State) -> StateSet {
        let sent_by = |actions: &[Action]| -> StateSet {
            let copies = copies(network, groups, state, actions);
            copies.iter().map(|copy| copy.number(network.widths)).collect()
        };
        let chosen = self.chosen(network, state);
        let sent: Vec<StateSet> = chosen.iter().map(|actions| sent_by(actions)).collect();
        let all: StateSet = sent.iter().flat_map(members).collect();
        match self.0 {
            Some(ChoiceVice::TakesTheFirstThatSends) => {
                sent.into_iter().find(|set| *set != StateSet::empty()).unwrap_or(all)
            }
            Some(ChoiceVice::TakesWhatAllSend) => {
                let by_all = |state: &usize| sent.iter().all(|set| set.contains(*state));
                members(&all).into_iter().filter(by_all).collect()
            }
            Some(ChoiceVice::TakesTheMissIfNothingIsSent) if all == StateSet::empty() => {
                sent_by(&network.misses[usize::from(state.point.switch)])
            }
            _ => all,
        }
    }

    /// The actions that are chosen, each list to be run by itself.
    fn chosen(&self, network: &Network, state: State) -> Vec<Vec<Action>> {
        let miss = &network.misses[usize::from(state.point.switch)];
        let places = self.places(network, state);
        let mut chosen: Vec<Vec<Action>> =
            places.iter().map(|place| network.rules[*place].actions.clone()).collect();
        match self.0 {
            _ if is_missed(network, state) => return vec![miss.clone()],
            Some(ChoiceVice::TakesTheFirst) => chosen.truncate(1),
            Some(ChoiceVice::TakesTheLast) => drop(chosen.drain(..chosen.len() - 1)),
            Some(ChoiceVice::TakesTheFirstAndTheLast) if chosen.len() > 2 => {
                drop(chosen.drain(1..chosen.len() - 1));
            }
            Some(ChoiceVice::TakesTheMissToo) => chosen.push(miss.clone()),
            Some(ChoiceVice::HandsTheHeaderOn) => chosen = vec![chosen.concat()],
            _ => {}
        }
        chosen
    }

    /// The places of the rules that are taken to be the highest ones that match.
    fn places(&self, network: &Network, state: State) -> Vec<usize> {
        let Rules { here, elsewhere } = Rules::matching(network, state);
        let rank = |place: &usize| self.rank(&network.rules[*place]);
        let compared = match self.0 {
            Some(ChoiceVice::HidesByOtherSwitches) => [&here[..], &elsewhere].concat(),
            _ => here.clone(),
        };
        let decisive = match self.0 {
            Some(ChoiceVice::TakesTheLowest) => compared.iter().map(rank).min(),
            _ => compared.iter().map(rank).max(),
        };
        let is_chosen = |place: &usize| Some(rank(place)) == decisive;
        let highest: Vec<usize> = here.iter().copied().filter(is_chosen).collect();
        match self.0 {
            Some(ChoiceVice::TakesLowerOnes) => here,
            Some(ChoiceVice::TakesOtherSwitches) => {
                highest.into_iter().chain(elsewhere.into_iter().filter(is_chosen)).collect()
            }
            Some(ChoiceVice::TakesUnmatchedOnesBetween) if !highest.is_empty() => {
                let between = highest[0]..=highest[highest.len() - 1];
                let is_equal = |place: &usize| {
                    let rule = &network.rules[*place];
                    rule.matching.switch == state.point.switch && is_chosen(place)
                };
                between.filter(is_equal).collect()
            }
            _ => highest,
        }
    }

    /// A priority as it is compared.
    fn rank(&self, rule: &Rule) -> u16 {
        let [low, high] = rule.matching.priority.to_le_bytes();
        match self.0 {
            Some(ChoiceVice::ComparesLowBytes) => low.into(),
            Some(ChoiceVice::ComparesHighBytes) => high.into(),
            _ => rule.matching.priority,
        }
    }
}

/// The places of rules whose patterns match an arriving state.
struct Rules {
    /// Those of its switch.
    here: Vec<usize>,
    /// Those of other switches that could act here: the switch has their groups.
    elsewhere: Vec<usize>,
}

impl Rules {
    fn matching(network: &Network, state: State) -> Rules {
        let mut matching = Rules { here: vec![], elsewhere: vec![] };
        for (place, rule) in network.rules.iter().enumerate() {
            let its = Point { switch: rule.matching.switch, ..state.point };
            if matches(rule, its, state.header) {
                if its == state.point {
                    matching.here.push(place);
                } else if network.has_groups_of(state.point.switch, &rule.actions) {
                    matching.elsewhere.push(place);
                }
            }
        }
        matching
    }
}

/// Whether no rule matches an arriving state.
fn is_missed(network: &Network, state: State) -> bool {
    Rules::matching(network, state).here.is_empty()
}

fn members(set: &StateSet) -> Vec<usize> {
    set.without(&StateSet::empty())
}
