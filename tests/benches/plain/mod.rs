//! A route in a step plane at N = 10, and what groups send, in plain Rust over 64-bit words.

pub mod groups;

use super::{set_bit, WORDS};

/// A row of the plane, or a set of states likewise.
pub type Row = [u64; WORDS];

const NONE: Row = [0; WORDS];

/// Writes the route and tells its count: breadth-first from the start, then backwards, to leave of
/// each level only what leads to the end, then forwards by the lowest state of each level.
#[inline(never)]
pub fn route(plane: &[u64], start: usize, end: usize, list: &mut [u16]) -> Option<usize> {
    let mut levels = levels(plane, start, end)?;
    let last = levels.len() - 1;
    levels[last] = only(end);
    for place in (1..last).rev() {
        levels[place] = leading(plane, &levels[place], &levels[place + 1]);
    }
    let mut state = start;
    list[0] = start as u16;
    for (entry, level) in list[1..].iter_mut().zip(&levels[1..]) {
        state = lowest(&both(row(plane, state), level))?;
        *entry = state as u16;
    }
    Some(levels.len())
}

/// The states first met after each number of steps, up to that of the end.
fn levels(plane: &[u64], start: usize, end: usize) -> Option<Vec<Row>> {
    let mut met = NONE;
    let mut levels = vec![only(start)];
    loop {
        let mut next = NONE;
        for state in states(&levels[levels.len() - 1]) {
            let row = row(plane, state);
            next = std::array::from_fn(|place| next[place] | row[place]);
        }
        next = std::array::from_fn(|place| next[place] & !met[place]);
        met = std::array::from_fn(|place| met[place] | next[place]);
        levels.push(next);
        if next == NONE {
            return None;
        }
        if both(&next, &only(end)) != NONE {
            return Some(levels);
        }
    }
}

/// The states of a level that step to one ahead.
fn leading(plane: &[u64], level: &Row, ahead: &Row) -> Row {
    let mut leading = NONE;
    for state in states(level).filter(|state| both(row(plane, *state), ahead) != NONE) {
        set_bit(&mut leading, state);
    }
    leading
}

fn row(plane: &[u64], state: usize) -> &Row {
    plane[state * WORDS..].first_chunk().expect("a row for each state")
}

fn only(state: usize) -> Row {
    let mut row = NONE;
    set_bit(&mut row, state);
    row
}

fn both(one: &Row, other: &Row) -> Row {
    std::array::from_fn(|place| one[place] & other[place])
}

fn lowest(row: &Row) -> Option<usize> {
    let place = row.iter().position(|word| *word != 0)?;
    Some(64 * place + row[place].trailing_zeros() as usize)
}

/// The states of a set, ascending.
fn states(row: &Row) -> impl Iterator<Item = usize> {
    let mut left = *row;
    std::iter::from_fn(move || {
        let state = lowest(&left)?;
        left[state / 64] &= left[state / 64] - 1;
        Some(state)
    })
}
