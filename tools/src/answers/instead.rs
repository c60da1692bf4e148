//! Where a frame goes that does not get to where a policy wants it.

use super::Standing;
use crate::json::Object;
use crate::steps::{Network, State};

/// The most states that are told in words.
const MOST_STATES: usize = 16;

/// Where a frame gets to in the end.
#[derive(Clone, Debug, Default, PartialEq, Eq)]
pub struct Instead {
    /// The states from which it goes no further.
    pub ends: Vec<usize>,
    /// Of each loop, or loops that lead into each other, the lowest state.
    pub rounds: Vec<usize>,
}

impl Instead {
    /// Where a frame gets to from a state.
    pub fn of(network: Network, from: usize) -> Instead {
        let next: Vec<Vec<usize>> =
            (0..network.states()).map(|number| next_of(network, number)).collect();
        let mut all = reached(&next, from);
        all[from] = true;
        let from_each: Vec<Vec<bool>> = (0..next.len())
            .map(|state| if all[state] { reached(&next, state) } else { vec![] })
            .collect();
        let is_round = |one: usize, other: usize| from_each[one][other] && from_each[other][one];
        let (mut ends, mut rounds) = (vec![], vec![]);
        for state in (0..next.len()).filter(|state| all[*state]) {
            if next[state].is_empty() {
                ends.push(state);
            }
            if is_round(state, state) && !(0..state).any(|lower| is_round(state, lower)) {
                rounds.push(state);
            }
        }
        Instead { ends, rounds }
    }
}

/// The states that a state steps to.
fn next_of(network: Network, number: usize) -> Vec<usize> {
    let states = network.next(State::numbered(number, network.widths));
    states.into_iter().map(|state| state.number(network.widths)).collect()
}

/// For each state whether one or more steps lead there.
fn reached(next: &[Vec<usize>], from: usize) -> Vec<bool> {
    let mut found = vec![false; next.len()];
    let mut waiting = next[from].clone();
    while let Some(state) = waiting.pop() {
        if !found[state] {
            found[state] = true;
            waiting.extend(&next[state]);
        }
    }
    found
}

impl Standing<'_> {
    /// Where a frame goes instead, a line for each state.
    pub fn instead_words(self, network: Network, from: usize) -> String {
        let Instead { ends, rounds } = Instead::of(network, from);
        let word = |state: usize| self.numbered_words(network.widths, state);
        let ends = ends.into_iter().map(|state| match state == from {
            true => "nowhere: no copy of it is sent".to_string(),
            false => format!("to its end in {}", word(state)),
        });
        let rounds = rounds.into_iter().map(|state| format!("round by {}", word(state)));
        let lines: Vec<String> = ends.chain(rounds).collect();
        let mut words = "\n    instead the frame goes".to_string();
        for line in lines.iter().take(MOST_STATES) {
            words += &format!("\n    - {line}");
        }
        match lines.len().saturating_sub(MOST_STATES) {
            0 => words,
            more => words + &format!("\n    - and so on, {more} more"),
        }
    }

    /// The same as fields of an object.
    pub fn instead_object(self, object: Object, network: Network, from: usize) -> Object {
        let Instead { ends, rounds } = Instead::of(network, from);
        let [ends, rounds] = [ends, rounds].map(|states| {
            let objects = states.into_iter().map(|state| self.state_object(network.widths, state));
            objects.collect::<Vec<Object>>()
        });
        object.objects("ends", &ends).objects("rounds", &rounds)
    }
}
