//! Rows and planes of bits in 64-bit words.

/// For each state as Y a bit, lowest first: W words, of which below N = 6 the first is partly used.
pub type Row<const W: usize> = [u64; W];

/// No state.
pub fn none<const W: usize>() -> Row<W> {
    [0; W]
}

/// So many states from 0 on.
pub fn first<const W: usize>(states: usize) -> Row<W> {
    match states {
        ..64 => [(1 << states) - 1; W],
        _ => [u64::MAX; W],
    }
}

/// All of the states, or none.
pub fn whole<const W: usize>(is_true: bool, states: usize) -> Row<W> {
    match is_true {
        true => first(states),
        false => none(),
    }
}

/// Those of so many states whose number has a bit: 2^bit in turn have it not and have it.
pub fn with_bit<const W: usize>(bit: u8, states: usize) -> Row<W> {
    let row = std::array::from_fn(|place| match bit {
        ..6 => (u64::MAX / ((1 << (1 << bit)) + 1)) << (1 << bit),
        _ if place >> (bit - 6) & 1 == 1 => u64::MAX,
        _ => 0,
    });
    zip(&row, &first(states), |mine, all| mine & all)
}

/// The states below a number that are so.
pub fn collect<const W: usize>(states: usize, is_so: impl Fn(usize) -> bool) -> Row<W> {
    let mut row = none();
    (0..states).filter(|state| is_so(*state)).for_each(|state| set_bit(&mut row, state));
    row
}

pub fn set_bit<const W: usize>(row: &mut Row<W>, state: usize) {
    row[state / 64] |= 1 << (state % 64);
}

pub fn has_bit<const W: usize>(row: &Row<W>, state: usize) -> bool {
    row[state / 64] >> (state % 64) & 1 == 1
}

/// A row made of two others word by word.
pub fn zip<const W: usize>(one: &Row<W>, other: &Row<W>, by: impl Fn(u64, u64) -> u64) -> Row<W> {
    std::array::from_fn(|place| by(one[place], other[place]))
}

/// Warshall's algorithm: each row with bit k takes in row k.
pub fn close<const W: usize>(plane: &mut [Row<W>]) {
    for word in 0..W {
        for bit in 0..plane.len().min(64) {
            let through = plane[64 * word + bit];
            for row in plane.iter_mut().filter(|row| row[word] >> bit & 1 == 1) {
                *row = zip(row, &through, |mine, its| mine | its);
            }
        }
    }
}

/// Exchanges rows and columns, block by block.
pub fn exchange<const W: usize>(plane: &mut [Row<W>]) {
    for one in 0..W {
        for other in 0..=one {
            let exchanged = transposed(block(plane, one, other));
            if one != other {
                put_block(plane, one, other, &transposed(block(plane, other, one)));
            }
            put_block(plane, other, one, &exchanged);
        }
    }
}

/// The words at one place of the 64 rows from a multiple of 64 on; there may be fewer rows.
fn block<const W: usize>(plane: &[Row<W>], rows: usize, word: usize) -> [u64; 64] {
    let mut block = [0; 64];
    for (its, row) in block.iter_mut().zip(&plane[64 * rows..]) {
        *its = row[word];
    }
    block
}

fn put_block<const W: usize>(plane: &mut [Row<W>], rows: usize, word: usize, block: &[u64; 64]) {
    for (its, row) in block.iter().zip(&mut plane[64 * rows..]) {
        row[word] = *its;
    }
}

/// Rows and columns of 64 times 64 bits exchanged: halves first, then quarters, down to single bits.
fn transposed(mut block: [u64; 64]) -> [u64; 64] {
    let mut mask = u64::MAX;
    for width in [32, 16, 8, 4, 2, 1] {
        mask ^= mask << width;
        for part in block.chunks_exact_mut(2 * width) {
            let (low, high) = part.split_at_mut(width);
            for (low, high) in low.iter_mut().zip(high) {
                let differing = (*low >> width ^ *high) & mask;
                *low ^= differing << width;
                *high ^= differing;
            }
        }
    }
    block
}
