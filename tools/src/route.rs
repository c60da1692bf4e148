//! Routes: how a frame gets from one state to another, as the proved library finds it.

use crate::Record;
use wegbaro::{Buffers, Refusal};

/// The states of a route, or none where no frame gets there.
pub type Found = Result<Option<Vec<usize>>, Refusal>;

/// Asks the library for a route in a network, whether that holds or not.
pub fn find(records: &[Record], [start, end]: [usize; 2]) -> Found {
    let route = Buffers::new(records).route(start, end)?;
    Ok(route.map(|states| states.into_iter().map(usize::from).collect()))
}
