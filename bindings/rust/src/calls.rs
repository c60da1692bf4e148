//! The three calls over lent buffers.

use crate::version::expect_library;
use crate::Refusal;

#[link(name = "wegbaro", kind = "static")]
extern "C" {
    fn wegbaro_check(
        store: *const u8,
        store_len: usize,
        n: usize,
        work: *mut u8,
        work_len: usize,
    ) -> u64;
    fn wegbaro_command(
        store: *mut u8,
        store_len: usize,
        n: usize,
        work: *mut u8,
        work_len: usize,
        given: *const u8,
        given_len: usize,
    ) -> u64;
    fn wegbaro_route(
        store: *const u8,
        store_len: usize,
        n: usize,
        work: *mut u8,
        work_len: usize,
        start: usize,
        end: usize,
        list: *mut u16,
        list_len: usize,
    ) -> u64;
}

/// The verdict on a network.
#[derive(Clone, Copy, Debug, PartialEq, Eq, Hash)]
pub enum Checked {
    /// No policy's forbidden condition is true for any state. Where rules of equal priority act
    /// together, [`check`] says what that means for a switch that takes just one of them.
    Holds,
    /// Some policy's is.
    Violated {
        /// The lowest broken policy.
        policy: usize,
        /// The lowest state that breaks it.
        state: usize,
    },
}

/// The verdict on a command.
#[derive(Clone, Copy, Debug, PartialEq, Eq, Hash)]
pub enum Commanded {
    /// The network that the command leaves holds, and is in the store.
    Forwarded {
        /// Its count of records.
        count: usize,
    },
    /// It would not hold, and nothing is changed.
    Blocked {
        /// The lowest policy that would be broken.
        policy: usize,
        /// The lowest state that would break it.
        state: usize,
    },
}

/// The answer to the question how a frame gets from one state to another.
#[derive(Clone, Copy, Debug, PartialEq, Eq, Hash)]
pub enum Routed {
    /// There is a route, and it is in the list.
    Found {
        /// Its count of states, both ends included.
        count: usize,
    },
    /// No frame gets there.
    NoRoute,
}

/// The check call: judges the first `n` records of the store.
///
/// Of the rules that match an arriving frame all of the highest priority act, and the frame steps
/// wherever any of them sends it. OpenFlow leaves open which of them a switch takes. A policy is even
/// if every way from its last node down to an R passes an even number of NOTs. If the network holds,
/// each even policy also holds if every state takes the steps of just one of those rules, whichever.
/// Other policies are judged over the steps of all of them together, and nothing is said of a switch
/// that takes just one.
///
/// Every length and every content is allowed. The store has at least [`crate::STORE_BYTES`], the
/// work buffer at least [`crate::work_bytes`] of the network, or the call is refused; what is in the
/// work buffer does not matter, and so much of it is zero after a verdict.
pub fn check(store: &[u8], n: usize, work: &mut [u8]) -> Result<Checked, Refusal> {
    expect_library();
    // SAFETY: the slices are valid for their lengths, not null and do not overlap; the call keeps
    // no pointer and takes every length and content.
    let answer =
        unsafe { wegbaro_check(store.as_ptr(), store.len(), n, work.as_mut_ptr(), work.len()) };
    match parts(answer) {
        (0, 0, 0) => Ok(Checked::Holds),
        (1, policy, state) => Ok(Checked::Violated { policy, state }),
        (2, row, place) => Err(Refusal { row, place }),
        _ => unreachable!("no answer of the check call has the code {answer}"),
    }
}

/// The command call: judges the network that the command would leave of the first `n` records of
/// the store, as [`check`] does, and carries it out if that network holds.
///
/// An add of a rule that is there replaces it. A delete of a rule that is not there changes nothing.
/// A modify of one adds it in version 1 (OpenFlow 1.0), and changes nothing in version 4 (1.3); the
/// version is byte 4 of the widths record, and 0 reads as 4. A command that changes nothing is judged
/// like any other.
///
/// A forwarded command leaves the new records in the store, then zeros to byte 15,768. Otherwise the
/// store is untouched. Start with records that [`check`] said hold, and from then on give the count
/// last answered as forwarded.
pub fn command(
    store: &mut [u8],
    n: usize,
    work: &mut [u8],
    given: &[u8],
) -> Result<Commanded, Refusal> {
    expect_library();
    // SAFETY: as in `check`; `store` and `work` are borrowed mutably, so nothing overlaps.
    let answer = unsafe {
        wegbaro_command(
            store.as_mut_ptr(),
            store.len(),
            n,
            work.as_mut_ptr(),
            work.len(),
            given.as_ptr(),
            given.len(),
        )
    };
    match parts(answer) {
        (0, count, 0) => Ok(Commanded::Forwarded { count }),
        (1, policy, state) => Ok(Commanded::Blocked { policy, state }),
        (2, row, place) => Err(Refusal { row, place }),
        _ => unreachable!("no answer of the command call has the code {answer}"),
    }
}

/// The route call: writes a route from the state `start` to the state `end`, in the network of the
/// first `n` records of the store, into the list.
///
/// A route has both ends and at least one step, each from a state to one that it steps to, by any of
/// the rules where several of equal priority act; from a state to itself it is a loop. Of all such
/// lists it is one of the shortest, and of those the one with the smaller state where it first
/// differs from another. No policy is judged.
///
/// Store and work buffer are as for [`check`], and the list has at least [`crate::list_entries`] of
/// the network, or the call is refused. Entries behind the route keep their values; where there is
/// no route, or the call is refused, all entries do.
pub fn route(
    store: &[u8],
    n: usize,
    work: &mut [u8],
    start: usize,
    end: usize,
    list: &mut [u16],
) -> Result<Routed, Refusal> {
    expect_library();
    // SAFETY: as in `check`; `work` and `list` are borrowed mutably, so nothing overlaps.
    let answer = unsafe {
        wegbaro_route(
            store.as_ptr(),
            store.len(),
            n,
            work.as_mut_ptr(),
            work.len(),
            start,
            end,
            list.as_mut_ptr(),
            list.len(),
        )
    };
    match parts(answer) {
        (0, count, 0) => Ok(Routed::Found { count }),
        (1, 0, 0) => Ok(Routed::NoRoute),
        (2, row, place) => Err(Refusal { row, place }),
        _ => unreachable!("no answer of the route call has the code {answer}"),
    }
}

/// The case of an answer and its two numbers.
fn parts(answer: u64) -> (u64, usize, usize) {
    (answer & 3, (answer >> 2 & 0xFFFF) as usize, (answer >> 18) as usize)
}
