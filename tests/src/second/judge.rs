//! The verdict on a network.

use super::network::{Network, Policy};
use super::states::StateSet;
use super::truth::Truth;

/// A policy and a state that breaks it.
#[derive(Clone, Copy, Debug)]
pub struct Breach {
    pub policy: usize,
    pub state: usize,
}

/// The lowest broken policy and the lowest state breaking it, over steps that are given.
pub fn judge_by(network: &Network, steps: &[StateSet]) -> Option<Breach> {
    network.policies.iter().enumerate().find_map(|(policy, formula)| {
        let state = Truth::new(network, steps, formula).lowest_breaking()?;
        Some(Breach { policy, state })
    })
}

/// The states that a policy forbids, over steps that are given.
pub fn forbidden(network: &Network, steps: &[StateSet], policy: &Policy) -> StateSet {
    let mut truth = Truth::new(network, steps, policy);
    (0..network.widths.states()).filter(|state| truth.is_breaking(*state)).collect()
}
