//! The definitions that a promise rests on, and whether `docs/READING.md` names them.
//!
//! [`sources`] holds the files of the crates, read by [`specs`] (antt) and [`code`] (Rattle). [`walk`]
//! goes from contracts and theorems through every definition that they use. [`document`] reads the
//! tables of `docs/READING.md`, and [`edits`] makes its index of the edits that are refused.

pub mod code;
pub mod document;
pub mod edits;
pub mod sources;
pub mod specs;
pub mod walk;
