//! The gate executed: a second implementation, generators, and cases for any gate.
//!
//! A gate to be tested implements [`gate::Gate`]: one method that takes any [`gate::Call`], the buffers
//! [`gate::Lent`] to it, and tells the [`gate::Answer`]. So a further call is a variant of `Call`, those
//! of its answers, an arm in [`library`], which is the proved library from Rust, in [`in_c`], the same
//! from C, and in [`second`]; other gates hand it on. [`cases`] holds calls with answers written by hand;
//! [`compare`] runs a gate against another one on generated networks, commands and inputs, and compares
//! the answer and every byte of every buffer. [`words`] is the gate by whose times the proved library's
//! are measured.
//!
//! Each test draws its inputs from a seed of its own, the same each time. With a number in the
//! environment variable `WEGBARO_SEED` all of them draw others ([`random`]).
//!
//! [`reading`] finds the definitions that a promise rests on, reads `docs/READING.md`, and makes its
//! index of edits.

pub mod build;
pub mod cases;
pub mod closing;
pub mod commands;
pub mod compare;
pub mod damage;
pub mod diagrams;
pub mod even;
pub mod formulas;
pub mod gate;
pub mod in_c;
pub mod inputs;
pub mod k;
pub mod library;
pub mod networks;
pub mod random;
pub mod reading;
pub mod records;
pub mod reordered;
pub mod second;
pub mod times;
pub mod unversioned;
pub mod winding;
pub mod words;
