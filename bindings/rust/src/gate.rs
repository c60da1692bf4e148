//! A gate: a network that is judged and kept.

use crate::{work_bytes, Buffers, Checked, Commanded, Record, Refusal};
use std::fmt;

/// A network with its verdict, and the buffers in which commands to it are judged.
///
/// Once [`Gate::check`] says that the network holds, it holds for good: a command that would break
/// a policy is blocked and changes nothing. That is proved for every series of commands. Where
/// several matching rules have the highest priority, all of them act; [`crate::check`] says which
/// policies then also hold for a switch that takes just one of them.
#[derive(Clone)]
pub struct Gate {
    buffers: Buffers,
    verdict: Checked,
}

impl Gate {
    /// Judges a network and takes it in. The work buffer is as long as this network needs, so only
    /// rows 1, 3 to 10 and 16 can refuse it.
    pub fn new(records: &[Record]) -> Result<Gate, Refusal> {
        Gate::with_work(records, work_bytes(records))
    }

    /// The same with a work buffer of so many bytes: the answers of a caller that has no more.
    /// Where they are too few, row 11 refuses the network.
    pub fn with_work(records: &[Record], bytes: usize) -> Result<Gate, Refusal> {
        let mut buffers = Buffers::with_work(records, bytes);
        let verdict = buffers.check()?;
        Ok(Gate { buffers, verdict })
    }

    /// The verdict on the network as it is now.
    pub fn check(&self) -> Checked {
        self.verdict
    }

    /// Judges a command as [`crate::command`] does, and carries it out if the network that it leaves
    /// holds. Only rows 12, 16 and 13, in this order, can refuse it: a command leaves widths,
    /// policies and groups as they are.
    ///
    /// Where the network does not hold, the command is judged all the same: it is forwarded if what
    /// it leaves holds.
    pub fn command(&mut self, given: &[u8]) -> Result<Commanded, Refusal> {
        let answer = self.buffers.command(given)?;
        if matches!(answer, Commanded::Forwarded { .. }) {
            self.verdict = Checked::Holds;
        }
        Ok(answer)
    }

    /// The states of a route from one state to another, as [`crate::route`] finds it, or none where
    /// no frame gets there. Only row 14 can refuse it.
    pub fn route(&mut self, start: usize, end: usize) -> Result<Option<Vec<u16>>, Refusal> {
        self.buffers.route(start, end)
    }

    /// The network's records.
    pub fn records(&self) -> &[Record] {
        self.buffers.records()
    }

    /// How many records the network has.
    pub fn count(&self) -> usize {
        self.records().len()
    }
}

impl fmt::Debug for Gate {
    fn fmt(&self, f: &mut fmt::Formatter<'_>) -> fmt::Result {
        let mut gate = f.debug_struct("Gate");
        gate.field("count", &self.count()).field("verdict", &self.verdict).finish_non_exhaustive()
    }
}
