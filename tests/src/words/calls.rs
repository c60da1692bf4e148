//! The check call and the command call.

use super::commands;
use super::file;
use super::judge::judge;
use super::network::Network;
use crate::gate::{Answer, MOST_RECORDS, RECORD, STORE};
use crate::records::Record;
use crate::second::file::Refusal;
use crate::second::judge::Breach;

/// Judges the first n records of the store.
pub fn check(store: &[u8], n: usize, work: &mut [u8]) -> Answer {
    match admit(store, n, work) {
        Err(Refusal { number, place }) => Answer::Refused { number, place },
        Ok((_, network)) => match verdict(&network, work) {
            None => Answer::Holds,
            Some(Breach { policy, state }) => Answer::Violated { policy, state },
        },
    }
}

/// Judges the network that a command would leave, and installs it if it holds.
pub fn command(store: &mut [u8], n: usize, work: &mut [u8], given: &[u8]) -> Answer {
    match result(store, n, work, given) {
        Err(Refusal { number, place }) => Answer::Refused { number, place },
        Ok(left) => match verdict(&Network::of(&left), work) {
            None => Answer::Forwarded { count: install(&left, store) },
            Some(Breach { policy, state }) => Answer::Blocked { policy, state },
        },
    }
}

/// The verdict on a network, and the work that it needs cleared.
fn verdict(network: &Network, work: &mut [u8]) -> Option<Breach> {
    work[..network.work_needed()].fill(0);
    judge(network)
}

/// The records that a command would leave: rows 1 to 12, 16 and 13.
fn result(store: &[u8], n: usize, work: &[u8], given: &[u8]) -> Result<Vec<Record>, Refusal> {
    let (records, network) = admit(store, n, work)?;
    commands::result(records, &network, given).map_err(refusal)
}

/// The records in the store and their network: rows 1 to 11, and 16 in a record.
fn admit<'a>(
    store: &'a [u8],
    n: usize,
    work: &[u8],
) -> Result<(&'a [Record], Network<'a>), Refusal> {
    if n == 0 || n > MOST_RECORDS {
        return Err(refusal(1));
    }
    if store.len() < STORE {
        return Err(refusal(2));
    }
    let (records, _) = store[..n * RECORD].as_chunks::<RECORD>();
    let network = file::read(records)?;
    match work.len() >= network.work_needed() {
        true => Ok((records, network)),
        false => Err(refusal(11)),
    }
}

/// A refusal that names no record.
fn refusal(number: usize) -> Refusal {
    Refusal { number, place: 0 }
}

/// Writes the records, zeros behind them up to the least store length, and tells their count.
fn install(records: &[Record], store: &mut [u8]) -> usize {
    let bytes = records.as_flattened();
    let (front, behind) = store[..STORE].split_at_mut(bytes.len());
    front.copy_from_slice(bytes);
    behind.fill(0);
    records.len()
}
