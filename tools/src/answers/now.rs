//! Answers about the network as it stands in a session.

use super::start::policies;
use super::{Answer, Standing};
use crate::json::Object;
use crate::kind;
use crate::trouble::{Status, Trouble};
use wegbaro::{Checked, Gate};

/// The check call's answer about a network that commands left, which holds.
#[derive(Clone, Copy, Debug, PartialEq, Eq)]
pub struct HoldsAnswer;

impl HoldsAnswer {
    /// Asks the library.
    pub fn of(standing: Standing) -> Result<HoldsAnswer, Trouble> {
        match Gate::new(&standing.book.records).map(|gate| gate.check()) {
            Ok(Checked::Holds) => Ok(HoldsAnswer),
            _ => Err(Trouble::internal("a network that forwarded commands left does not hold")),
        }
    }
}

impl Answer for HoldsAnswer {
    fn words(&self, standing: Standing) -> Result<String, Trouble> {
        let records = standing.book.records.len();
        Ok(format!("check: the network holds, it has {records} records"))
    }

    fn object(&self, standing: Standing) -> Result<Object, Trouble> {
        let records = &standing.book.records;
        let object = Object::new().text("subject", "check").text("answer", "holds");
        Ok(object.number("records", records.len()).number("policies", policies(records)))
    }

    fn status(&self) -> Status {
        Status::Good
    }
}

/// The statements of the network, each with where it comes from.
#[derive(Clone, Copy, Debug, PartialEq, Eq)]
pub struct ShownAnswer;

impl Answer for ShownAnswer {
    fn words(&self, standing: Standing) -> Result<String, Trouble> {
        let line = |(place, words): (usize, String)| {
            format!("\n    {}: {words}", standing.book.origin(place))
        };
        let lines: String = standing.statements_now().into_iter().map(line).collect();
        Ok(format!("show: {} records{lines}", standing.book.records.len()))
    }

    fn object(&self, standing: Standing) -> Result<Object, Trouble> {
        let object = |(place, words): (usize, String)| {
            standing.origin_object(Object::new().text("words", &words), "by", place)
        };
        let statements: Vec<Object> = standing.statements_now().into_iter().map(object).collect();
        let shown = Object::new().text("subject", "show").text("answer", "shown");
        let shown = shown.number("records", standing.book.records.len());
        Ok(shown.objects("statements", &statements))
    }

    fn status(&self) -> Status {
        Status::Good
    }
}

impl Standing<'_> {
    /// The statements of the network, each with the place of its first record.
    fn statements_now(self) -> Vec<(usize, String)> {
        let records = &self.book.records;
        let first = |place: &usize| {
            let record = &records[*place];
            let goes_on = *place > 0 && records[place - 1][..2] == record[..2];
            record[0] != kind::POLICY || !goes_on
        };
        let places = (0..records.len()).filter(first);
        places.map(|place| (place, self.statement_words(place))).collect()
    }

    /// The statement of a record. A policy is told as its text says it; one of records has none, and
    /// is told by its number.
    fn statement_words(self, place: usize) -> String {
        let record = &self.book.records[place];
        if record[0] != kind::POLICY {
            return self.record_words(record);
        }
        let number = record[1];
        match self.source.policy(number.into()) {
            Some(policy) => {
                let name = policy.name.as_ref().map(|name| format!(" \"{name}\""));
                format!("policy {number}{}: {}", name.unwrap_or_default(), policy.source)
            }
            None => format!("policy {number}"),
        }
    }
}
