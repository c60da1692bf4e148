//! Gates whose routes are wrong in one way each.

use wegbaro_tests::gate::{Answer, Call, Gate, Lent};
use wegbaro_tests::networks::Widths;
use wegbaro_tests::second::states::StateSet;
use wegbaro_tests::second::{file, routes, steps, Second};

#[derive(Clone, Copy, Debug, PartialEq, Eq)]
pub enum RouteVice {
    TakesTheLongWay,
    TakesTheLargest,
    ComparesFromTheEnd,
    StaysAtTheStart,
    GivesUpHalfway,
    FindsNothing,
    MakesUpARoute,
    CountsSteps,
    WritesBehind,
    WritesWithoutARoute,
    TakesShortLists,
    CutsStates,
    ListsBeforeStates,
    StatesBeforeWork,
    JudgesFirst,
}

pub const ROUTE_VICES: [RouteVice; 15] = [
    RouteVice::TakesTheLongWay,
    RouteVice::TakesTheLargest,
    RouteVice::ComparesFromTheEnd,
    RouteVice::StaysAtTheStart,
    RouteVice::GivesUpHalfway,
    RouteVice::FindsNothing,
    RouteVice::MakesUpARoute,
    RouteVice::CountsSteps,
    RouteVice::WritesBehind,
    RouteVice::WritesWithoutARoute,
    RouteVice::TakesShortLists,
    RouteVice::CutsStates,
    RouteVice::ListsBeforeStates,
    RouteVice::StatesBeforeWork,
    RouteVice::JudgesFirst,
];

/// A gate with a vice in its route call, else as the second implementation.
pub struct Astray(pub RouteVice);

impl Gate for Astray {
    fn answer(&self, call: &Call, lent: &mut Lent) -> Answer {
        let Call::Route { start, end } = *call else { return Second.answer(call, lent) };
        let before = lent.clone();
        let answer = Second.answer(&self.read(call), lent);
        if answer.is_refused() {
            return self.refused(lent, [start, end], answer);
        }
        if self.0 == RouteVice::JudgesFirst && !holds(&before) {
            lent.list = before.list;
            return Answer::NoRoute;
        }
        match self.another_route(lent, start, end) {
            Some(route) => {
                lent.list = before.list;
                routes::write(&mut lent.list, &route)
            }
            None => self.spoiled(answer, [start, end], &mut lent.list, &before.list),
        }
    }
}

impl Astray {
    /// The call as it is read.
    fn read(&self, call: &Call) -> Call {
        match *call {
            Call::Route { start, end } if self.0 == RouteVice::CutsStates => {
                Call::Route { start: start & 0xFFFF, end: end & 0xFFFF }
            }
            _ => call.clone(),
        }
    }

    /// What is answered in place of a refusal.
    fn refused(&self, lent: &mut Lent, [start, end]: [usize; 2], answer: Answer) -> Answer {
        let by = |number: usize| Answer::Refused { number, place: 0 };
        let states = 1 << Widths::of(&lent.records()[0]).bits();
        let [is_short, is_unknown] = [lent.list.len() <= states, start.max(end) >= states];
        match self.0 {
            RouteVice::TakesShortLists if answer == by(15) && lent.list.len() == states => {
                lent.list.push(0);
                let answer = Second.answer(&Call::Route { start, end }, lent);
                lent.list.pop();
                answer
            }
            RouteVice::ListsBeforeStates if answer == by(14) && is_short => by(15),
            RouteVice::StatesBeforeWork if answer == by(11) && is_unknown => by(14),
            _ => answer,
        }
    }

    /// A route found in another way, if the vice is to do so.
    fn another_route(&self, lent: &Lent, start: usize, end: usize) -> Option<Vec<usize>> {
        let steps = steps::all_steps(&file::read(lent.records()).unwrap());
        match self.0 {
            RouteVice::TakesTheLongWay => depth_first(&steps, start, end),
            RouteVice::TakesTheLargest => largest(&steps, start, end),
            RouteVice::ComparesFromTheEnd => from_the_end(&steps, start, end),
            RouteVice::StaysAtTheStart if start == end => Some(vec![start]),
            _ => None,
        }
    }

    /// What becomes of an answer and its list.
    fn spoiled(
        &self,
        answer: Answer,
        [start, end]: [usize; 2],
        list: &mut [u16],
        list_before: &[u16],
    ) -> Answer {
        match (self.0, answer) {
            (RouteVice::GivesUpHalfway, Answer::Found { count }) if count <= list.len() / 2 => {
                answer
            }
            (RouteVice::GivesUpHalfway | RouteVice::FindsNothing, Answer::Found { .. }) => {
                list.copy_from_slice(list_before);
                Answer::NoRoute
            }
            (RouteVice::MakesUpARoute, Answer::NoRoute) => routes::write(list, &[start, end]),
            (RouteVice::CountsSteps, Answer::Found { count }) => Answer::Found { count: count - 1 },
            (RouteVice::WritesBehind, Answer::Found { count }) => {
                list[count] = !list[count];
                answer
            }
            (RouteVice::WritesWithoutARoute, Answer::NoRoute) => {
                list[0] = !list[0];
                answer
            }
            _ => answer,
        }
    }
}

fn holds(lent: &Lent) -> bool {
    Second.answer(&Call::Check, &mut lent.clone()) == Answer::Holds
}

/// The first path that a search in depth meets.
fn depth_first(steps: &[StateSet], start: usize, end: usize) -> Option<Vec<usize>> {
    let mut met = StateSet::empty();
    let mut path = vec![start];
    while let Some(state) = path.last() {
        match steps[*state].without(&met).first() {
            Some(next) => {
                met.insert(*next);
                path.push(*next);
                if *next == end {
                    return Some(path);
                }
            }
            None => drop(path.pop()),
        }
    }
    None
}

/// Of the routes with the fewest steps, the largest: the smallest one of states numbered downwards.
fn largest(steps: &[StateSet], start: usize, end: usize) -> Option<Vec<usize>> {
    let top = steps.len() - 1;
    let downwards = renumbered(steps, |from, to| [top - from, top - to]);
    let route = routes::find(&downwards, top - start, top - end)?;
    Some(route.into_iter().map(|state| top - state).collect())
}

/// Of the routes with the fewest steps, the one with the smaller state at the last difference.
fn from_the_end(steps: &[StateSet], start: usize, end: usize) -> Option<Vec<usize>> {
    let backwards = renumbered(steps, |from, to| [to, from]);
    let mut route = routes::find(&backwards, end, start)?;
    route.reverse();
    Some(route)
}

/// The steps, each made another one.
fn renumbered(steps: &[StateSet], other: impl Fn(usize, usize) -> [usize; 2]) -> Vec<StateSet> {
    let mut others = vec![StateSet::empty(); steps.len()];
    for (from, set) in steps.iter().enumerate() {
        for to in set.without(&StateSet::empty()) {
            let [from, to] = other(from, to);
            others[from].insert(to);
        }
    }
    others
}
