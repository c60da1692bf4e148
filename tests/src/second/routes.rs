//! A route, found forwards, level by level of exactly so many steps.

use super::states::StateSet;
use crate::gate::Answer;

/// A state at the end of so many steps, and the place in the level before of the state it comes from.
struct Reached {
    state: usize,
    from: usize,
}

/// The route of fewest steps, at least one, from the start to the end; of several, the smallest list.
pub fn find(steps: &[StateSet], start: usize, end: usize) -> Option<Vec<usize>> {
    let mut levels = vec![vec![Reached { state: start, from: 0 }]];
    for before in 0..steps.len() {
        let level = one_step_more(steps, &levels[before]);
        let met = level.iter().position(|reached| reached.state == end);
        levels.push(level);
        if let Some(place) = met {
            return Some(back_from(&levels, place));
        }
    }
    None
}

/// The next level. Each level stands in the order of the smallest lists of states that lead to its
/// states, so the first state of a level that steps to a state gives the smallest list to that one.
fn one_step_more(steps: &[StateSet], level: &[Reached]) -> Vec<Reached> {
    let mut met = StateSet::empty();
    let mut next = vec![];
    for (from, reached) in level.iter().enumerate() {
        for state in steps[reached.state].without(&met) {
            met.insert(state);
            next.push(Reached { state, from });
        }
    }
    next
}

/// The states that lead to a place of the last level.
fn back_from(levels: &[Vec<Reached>], place: usize) -> Vec<usize> {
    let mut place = place;
    let mut states = vec![];
    for level in levels.iter().rev() {
        states.push(level[place].state);
        place = level[place].from;
    }
    states.reverse();
    states
}

/// Writes the states of a route into the list.
pub fn write(list: &mut [u16], route: &[usize]) -> Answer {
    for (entry, state) in list.iter_mut().zip(route) {
        *entry = *state as u16;
    }
    Answer::Found { count: route.len() }
}
