//! The widths of a network, and patterns and states of those widths.

use crate::{kind, Record};

/// Header, port and switch widths.
#[derive(Clone, Copy, Debug, PartialEq, Eq)]
pub struct Widths {
    pub h: u8,
    pub p: u8,
    pub w: u8,
}

impl Widths {
    /// The widths in a widths record, if they lie within the limits.
    pub fn of(record: &Record) -> Option<Widths> {
        let [kind, h, p, w, ..] = *record;
        let widths = Widths { h, p, w };
        (kind == kind::WIDTHS && widths.within_limits()).then_some(widths)
    }

    pub fn within_limits(self) -> bool {
        (1..=6).contains(&self.h)
            && (2..=4).contains(&self.p)
            && self.w <= 4
            && 1 + self.h + self.p + self.w <= 10
    }

    /// The bits of a state.
    pub fn bits(self) -> u8 {
        1 + self.h + self.p + self.w
    }

    /// How many states there are.
    pub fn states(self) -> u16 {
        1 << self.bits()
    }

    /// The number of the controller's port, the highest.
    pub fn controller(self) -> u8 {
        (1 << self.p) - 1
    }

    /// The highest header.
    pub fn last_header(self) -> u8 {
        (1 << self.h) - 1
    }

    /// The highest switch.
    pub fn last_switch(self) -> u8 {
        (1 << self.w) - 1
    }
}

/// A pattern as 0, 1 and star characters, the most significant first.
pub fn pattern(value: u8, care: u8, width: u8) -> String {
    let character = |bit: u8| match (care >> bit & 1, value >> bit & 1) {
        (0, _) => '*',
        (_, 0) => '0',
        _ => '1',
    };
    (0..width).rev().map(character).collect()
}

/// Value and care of a word: as many 0, 1 and star characters as the width, a shorter decimal number
/// without leading zeros, or one star for stars only. A number within a width above 1 is always
/// shorter than the width.
pub fn read_pattern(word: &str, width: u8) -> Option<[u8; 2]> {
    let full = (1 << width) - 1;
    if word == "*" {
        return Some([0, 0]);
    }
    if word.len() < usize::from(width) {
        let value = word.parse::<u8>().ok()?;
        return (value <= full && word == value.to_string()).then_some([value, full]);
    }
    if word.len() > usize::from(width) {
        return None;
    }
    let [mut value, mut care] = [0, 0];
    for character in word.bytes() {
        let (one, fixed) = match character {
            b'0' => (0, 1),
            b'1' => (1, 1),
            b'*' => (0, 0),
            _ => return None,
        };
        value = value << 1 | one;
        care = care << 1 | fixed;
    }
    Some([value, care])
}
