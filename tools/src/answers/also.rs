//! The broken policies behind the lowest, which is all that the check call answers.

use super::{Answer, Standing};
use crate::json::Object;
use crate::kind;
use crate::trouble::{Status, Trouble};
use crate::Record;
use wegbaro::{Checked, Gate};

/// A policy that is broken too, and the lowest state that breaks it.
#[derive(Clone, Copy, Debug, PartialEq, Eq)]
pub struct AlsoAnswer {
    pub policy: usize,
    pub state: usize,
}

impl AlsoAnswer {
    /// What the library answers about a network that has this policy alone.
    pub fn of(records: &[Record], policy: usize) -> Option<AlsoAnswer> {
        let alone = with_one_policy(records, policy);
        match Gate::new(&alone).ok()?.check() {
            Checked::Holds => None,
            Checked::Violated { state, .. } => Some(AlsoAnswer { policy, state }),
        }
    }
}

impl Answer for AlsoAnswer {
    fn words(&self, standing: Standing) -> Result<String, Trouble> {
        Ok(format!("start: also violated: {}", standing.broken_words(self.policy, self.state)?))
    }

    fn object(&self, standing: Standing) -> Result<Object, Trouble> {
        let object = Object::new().text("subject", "start").text("answer", "violated");
        standing.broken_object(object, self.policy, self.state)
    }

    fn status(&self) -> Status {
        Status::Bad
    }
}

/// The records with one policy, as policy 0.
fn with_one_policy(records: &[Record], policy: usize) -> Vec<Record> {
    let is_kept = |record: &&Record| record[0] != kind::POLICY || usize::from(record[1]) == policy;
    let mut kept: Vec<Record> = records.iter().filter(is_kept).copied().collect();
    for node in kept.iter_mut().filter(|record| record[0] == kind::POLICY) {
        node[1] = 0;
    }
    kept
}
