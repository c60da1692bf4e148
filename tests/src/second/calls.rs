//! Every call, from the buffers to its answer.

use super::commands;
use super::file::{self, Refusal};
use super::judge::{judge_by, Breach};
use super::network::Network;
use super::routes;
use super::states::StateSet;
use crate::gate::{Answer, Call, Lent, MOST_RECORDS, STORE};

/// The steps of a network's states.
pub type Steps<'a> = &'a dyn Fn(&Network) -> Vec<StateSet>;

/// Answers a call by such steps.
pub fn answer_by(steps: Steps, call: &Call, lent: &mut Lent) -> Answer {
    let answered = match call {
        Call::Check => check(steps, lent),
        Call::Command(given) => command(steps, lent, given),
        Call::Route { start, end } => route(steps, lent, *start, *end),
    };
    answered.unwrap_or_else(|Refusal { number, place }| Answer::Refused { number, place })
}

/// Judges the network in the store.
fn check(steps: Steps, lent: &mut Lent) -> Result<Answer, Refusal> {
    let network = admit(lent)?;
    Ok(match verdict(steps, &network, &mut lent.work) {
        None => Answer::Holds,
        Some(Breach { policy, state }) => Answer::Violated { policy, state },
    })
}

/// Judges the network that a command would leave, and installs it if it holds.
fn command(steps: Steps, lent: &mut Lent, given: &[u8]) -> Result<Answer, Refusal> {
    let left = result(&admit(lent)?, given)?;
    Ok(match verdict(steps, &left, &mut lent.work) {
        None => Answer::Forwarded { count: install(&left, &mut lent.store) },
        Some(Breach { policy, state }) => Answer::Blocked { policy, state },
    })
}

/// Writes the route from the start to the end into the list, if there is one.
fn route(steps: Steps, lent: &mut Lent, start: usize, end: usize) -> Result<Answer, Refusal> {
    let network = admit(lent)?;
    let states = network.widths.states();
    if start >= states || end >= states {
        return Err(refusal(14));
    }
    if lent.list.len() <= states {
        return Err(refusal(15));
    }
    lent.work[..network.work_needed()].fill(0);
    Ok(match routes::find(&steps(&network), start, end) {
        None => Answer::NoRoute,
        Some(route) => routes::write(&mut lent.list, &route),
    })
}

/// The verdict on a network, and the work that it needs cleared.
fn verdict(steps: Steps, network: &Network, work: &mut [u8]) -> Option<Breach> {
    work[..network.work_needed()].fill(0);
    judge_by(network, &steps(network))
}

/// The network that a command would leave: rows 12, 16 and 13.
fn result(network: &Network, given: &[u8]) -> Result<Network, Refusal> {
    let command = commands::read(network.widths, given).ok_or(refusal(12))?;
    if !commands::has_groups(network, &command) {
        return Err(refusal(16));
    }
    commands::apply(network, command).ok_or(refusal(13))
}

/// The network in the store: rows 1 to 11, and 16 in a record.
fn admit(lent: &Lent) -> Result<Network, Refusal> {
    if lent.n == 0 || lent.n > MOST_RECORDS {
        return Err(refusal(1));
    }
    if lent.store.len() < STORE {
        return Err(refusal(2));
    }
    let network = file::read(lent.records())?;
    match lent.work.len() >= network.work_needed() {
        true => Ok(network),
        false => Err(refusal(11)),
    }
}

/// A refusal that names no record.
fn refusal(number: usize) -> Refusal {
    Refusal { number, place: 0 }
}

/// Writes the records, zeros behind them up to the least store length, and tells their count.
fn install(network: &Network, store: &mut [u8]) -> usize {
    let records = network.records();
    let bytes = records.concat();
    let (front, behind) = store[..STORE].split_at_mut(bytes.len());
    front.copy_from_slice(&bytes);
    behind.fill(0);
    records.len()
}
