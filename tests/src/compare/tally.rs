//! How often each answer came.

use crate::gate::{Answer, Call};
use std::collections::BTreeMap;

/// Counts by the name of a call and the case of its answer.
#[derive(Clone, Debug, Default)]
pub struct Tally {
    counts: BTreeMap<(&'static str, String), usize>,
    /// The largest count that each call answered.
    most: BTreeMap<&'static str, usize>,
}

/// A case of the command call: a modify was forwarded and added a rule.
pub const ADDED_BY_MODIFY: &str = "added by modify";
/// A case of the command call: a modify was refused, for it found the table full.
pub const FULL_TO_MODIFY: &str = "full to modify";

impl Tally {
    /// How often a call was answered in a case.
    pub fn count(&self, call: &str, case: &str) -> usize {
        let is_such = |key: &(&str, String)| key.0 == call && key.1 == case;
        self.counts.iter().filter(|(key, _)| is_such(key)).map(|(_, count)| count).sum()
    }

    /// How often any call was refused by a row.
    pub fn refused(&self, number: usize) -> usize {
        let case = Answer::Refused { number, place: 0 }.case();
        self.counts.iter().filter(|(key, _)| key.1 == case).map(|(_, count)| count).sum()
    }

    /// Fails unless a call was answered in each of these cases more often than so many times.
    pub fn expect(&self, call: &str, cases: &[(&str, usize)]) {
        for (case, least) in cases {
            assert!(self.count(call, case) > *least, "{call}, {case}: {self:?}");
        }
    }

    /// Fails unless a call answered a count above this one.
    pub fn expect_count(&self, call: &str, least: usize) {
        assert!(self.most.get(call) > Some(&least), "{call}: {self:?}");
    }

    /// Fails unless each of these rows refused something.
    pub fn expect_rows(&self, numbers: &[usize]) {
        for number in numbers {
            assert!(self.refused(*number) > 0, "{number}: {self:?}");
        }
    }

    /// Counts the answer to a call on n records.
    pub fn add(&mut self, call: &Call, n: usize, answer: Answer) {
        for case in [Some(answer.case()), case_of_modify(call, n, answer)].into_iter().flatten() {
            *self.counts.entry((call.name(), case)).or_default() += 1;
        }
        let most = self.most.entry(call.name()).or_default();
        *most = answer.count().unwrap_or(0).max(*most);
    }
}

/// The case that a modify is beside that of its answer.
fn case_of_modify(call: &Call, n: usize, answer: Answer) -> Option<String> {
    let Call::Command(given) = call else { return None };
    let case = match answer {
        Answer::Forwarded { count } if count > n => ADDED_BY_MODIFY,
        Answer::Refused { number: 13, .. } => FULL_TO_MODIFY,
        _ => return None,
    };
    (given.first() == Some(&7)).then(|| case.to_string())
}
