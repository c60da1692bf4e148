//! The second implementation, written from the rules alone. Records become structures, steps become
//! sets of states, and a policy's truth is worked out on demand by recursion over its formula. A route
//! is found forwards, by the states at the end of one step, of two, and so on. The rules that match a
//! state are parted by priority, and all of the highest act. Groups are never run: what each sends is
//! a table, made from those of lower groups.

mod calls;
mod commands;
mod fields;
pub mod file;
pub mod groups;
pub mod judge;
pub mod network;
mod program;
pub mod routes;
pub mod states;
pub mod steps;
mod truth;

pub use calls::{answer_by, Steps};
pub use program::program;

use crate::gate::{Answer, Call, Gate, Lent};
use steps::all_steps;

/// The second implementation as a gate.
pub struct Second;

impl Gate for Second {
    fn answer(&self, call: &Call, lent: &mut Lent) -> Answer {
        answer_by(&all_steps, call, lent)
    }
}
