//! The answer that the input ends within a record, or within a line of a session.

use super::{Answer, Standing};
use crate::json::Object;
use crate::trouble::{Status, Trouble};

#[derive(Clone, Copy, Debug, PartialEq, Eq)]
pub enum ShortAnswer {
    Record,
    /// A command that may be cut is not run.
    Line,
}

impl Answer for ShortAnswer {
    fn words(&self, _: Standing) -> Result<String, Trouble> {
        let words = match self {
            ShortAnswer::Record => "end: the input ends within a record",
            ShortAnswer::Line => {
                "end: the input ends within a line, and the command that it belongs to is not run"
            }
        };
        Ok(words.to_string())
    }

    fn object(&self, _: Standing) -> Result<Object, Trouble> {
        Ok(Object::new().text("subject", "end").text("answer", "short"))
    }

    fn status(&self) -> Status {
        Status::Faulty
    }

    fn line(&self) -> Option<String> {
        Some("end short".to_string())
    }
}
