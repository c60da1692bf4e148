//! Why a call did not judge.

use std::error::Error;
use std::fmt;

/// What each row refuses, from row 1.
const ROWS: [&str; 16] = [
    "there are no records, or more than 657",
    "the store has fewer than 15,768 bytes",
    "a kind is not 1 to 5 or 9 or is below the one before, or kind 1 is not once and first",
    "a width is outside its limits",
    "a field is outside its range or width, the version is not 0, 1 or 4, an action is bad, or an \
     unnamed byte is not zero",
    "a link ends at a port that is not ordinary or at a point already linked, or both ends are the \
     same point",
    "a miss is not that of the next switch, or a switch has no miss",
    "the same rule stands twice",
    "an operand is not an earlier node, a policy is out of order, or Y is free at its end",
    "there is a 257th rule, a ninth policy or a 33rd node",
    "the work buffer is too short",
    "the command is not 24 bytes, or not a well-formed add, modify or delete",
    "256 rules are present, and the command would add a new one",
    "the start or the end is not below 2^N",
    "the list has fewer than 2^N + 1 entries",
    "a group has a faulty field, is out of order or the 17th, a bucket's group is not lower, or a \
     group is named that its switch does not have",
];

/// A call that did not judge: the row of the table that refuses it, and its place.
///
/// ```
/// let refusal = wegbaro::Refusal { row: 8, place: 5 };
/// assert_eq!(refusal.to_string(), "refused by row 8 at record 5: the same rule stands twice");
/// ```
#[derive(Clone, Copy, Debug, PartialEq, Eq, Hash)]
pub struct Refusal {
    /// The row, 1 to 16.
    pub row: usize,
    /// The record, from 0, for rows 3 to 10 (where misses are missing, the record behind them, or
    /// the count of records at the end), and for row 16 of a network; otherwise 0.
    pub place: usize,
}

impl Refusal {
    /// What the row refuses, in words.
    pub fn meaning(self) -> &'static str {
        let row = self.row.checked_sub(1).and_then(|place| ROWS.get(place));
        row.copied().unwrap_or("no row has this number")
    }

    /// Whether the place is a record; rows of a call's other arguments have none. Row 16 of a command
    /// has place 0, which is the place of the widths in a network, and those name no group.
    pub fn has_record(self) -> bool {
        (3..=10).contains(&self.row) || self.row == 16 && self.place > 0
    }
}

impl fmt::Display for Refusal {
    fn fmt(&self, f: &mut fmt::Formatter<'_>) -> fmt::Result {
        write!(f, "refused by row {}", self.row)?;
        if self.has_record() {
            write!(f, " at record {}", self.place)?;
        }
        write!(f, ": {}", self.meaning())
    }
}

impl Error for Refusal {}
