//! The buffers of the calls: how long they are for a network, and an owner of them.

use crate::{check, command, route};
use crate::{Checked, Commanded, Record, Refusal, Routed, RECORD_BYTES, STORE_BYTES};
use std::fmt;

/// A network in a store, with a work buffer and a list as long as it needs: the three calls without
/// lending anything.
///
/// No call is made but those that are asked for, so a network that does not hold, or that a row
/// refuses, has its buffers too. [`crate::Gate`] is for a network that is judged once and then kept.
#[derive(Clone)]
pub struct Buffers {
    store: Vec<u8>,
    count: usize,
    work: Vec<u8>,
    list: Vec<u16>,
}

impl Buffers {
    /// The buffers of a network. Rows 2, 11 and 15 refuse none of their calls.
    pub fn new(records: &[Record]) -> Buffers {
        Buffers::with_work(records, work_bytes(records))
    }

    /// The same with a work buffer of so many bytes. Where they are too few, row 11 refuses a call.
    pub fn with_work(records: &[Record], bytes: usize) -> Buffers {
        let mut store = records.concat();
        store.resize(store.len().max(STORE_BYTES), 0);
        let list = vec![0; list_entries(records)];
        Buffers { store, count: records.len(), work: vec![0; bytes], list }
    }

    /// The check call, [`check`].
    pub fn check(&mut self) -> Result<Checked, Refusal> {
        check(&self.store, self.count, &mut self.work)
    }

    /// The command call, [`command`]. If the command is forwarded, the network is the one that it
    /// leaves.
    pub fn command(&mut self, given: &[u8]) -> Result<Commanded, Refusal> {
        let answer = command(&mut self.store, self.count, &mut self.work, given)?;
        if let Commanded::Forwarded { count } = answer {
            self.count = count;
        }
        Ok(answer)
    }

    /// The route call, [`route`]: the states of the route, or none where no frame gets there.
    pub fn route(&mut self, start: usize, end: usize) -> Result<Option<Vec<u16>>, Refusal> {
        let answer = route(&self.store, self.count, &mut self.work, start, end, &mut self.list)?;
        Ok(match answer {
            Routed::Found { count } => Some(self.list[..count].to_vec()),
            Routed::NoRoute => None,
        })
    }

    /// The network's records.
    pub fn records(&self) -> &[Record] {
        let (records, _) = self.store.as_chunks::<RECORD_BYTES>();
        &records[..self.count]
    }
}

impl fmt::Debug for Buffers {
    fn fmt(&self, f: &mut fmt::Formatter<'_>) -> fmt::Result {
        f.debug_struct("Buffers").field("count", &self.count).finish_non_exhaustive()
    }
}

/// The bytes of work that these records need: a plane of 2^(2N) bits for each node of the longest
/// policy, and two more. No bytes, if the first record is not that of widths within their limits.
pub fn work_bytes(records: &[Record]) -> usize {
    let Some(bits) = state_bits(records) else { return 0 };
    (longest_policy(records) + 2) * ((1 << (2 * bits)) / 8)
}

/// The entries that a list for any route of these records needs: 2^N + 1. No entries, if the first
/// record is not that of widths within their limits.
pub fn list_entries(records: &[Record]) -> usize {
    state_bits(records).map_or(0, |bits| (1 << bits) + 1)
}

/// The bits of a state, N, if the first record is that of widths within their limits.
fn state_bits(records: &[Record]) -> Option<u8> {
    let Some([1, h @ 1..=6, p @ 2..=4, w @ 0..=4, ..]) = records.first() else { return None };
    let bits = 1 + h + p + w;
    (bits <= 10).then_some(bits)
}

/// The nodes of the longest policy, at most 32.
fn longest_policy(records: &[Record]) -> usize {
    let mut nodes = [0; 256];
    for record in records.iter().filter(|record| record[0] == 5) {
        nodes[usize::from(record[1])] += 1;
    }
    let longest = nodes.into_iter().max().unwrap_or(0);
    longest.min(32)
}
