//! The check call and the command call in plain Rust on 64-bit words: the yardstick for the times of the
//! proved library.
//!
//! Records are read where they stand. The steps, and then every node of a policy by its number, are
//! planes of bits, for each state as X a row of words with a bit for each state as Y. Below N = 6 a row
//! is one word, partly used. Each TC is closed by Warshall's algorithm, and pairs are exchanged in blocks
//! of 64 times 64 bits.
//!
//! The planes are on the heap, allocated once in a call; of the lent work, what a verdict needs is
//! cleared and nothing else is done with it. Planes in the work would save that clearing, less than a
//! hundredth of a check at N = 10, but bytes lent at any address are no words, and below N = 6 there is
//! no room in them for whole words.

mod calls;
mod commands;
mod fields;
mod file;
mod groups;
mod judge;
mod network;
mod planes;
mod steps;

use crate::gate::{Answer, Call, Gate, Lent};
use crate::second::Second;

/// The two calls as a gate; the others are the second implementation's.
pub struct Words;

impl Gate for Words {
    fn answer(&self, call: &Call, lent: &mut Lent) -> Answer {
        match call {
            Call::Check => calls::check(&lent.store, lent.n, &mut lent.work),
            Call::Command(given) => calls::command(&mut lent.store, lent.n, &mut lent.work, given),
            _ => Second.answer(call, lent),
        }
    }
}
