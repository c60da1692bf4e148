//! The check call's answer about the network at the start.

use super::refused::{refused_object, refused_status, refused_words};
use super::{Answer, Standing};
use crate::causes::Cause;
use crate::json::Object;
use crate::kind;
use crate::trouble::{Status, Trouble};
use crate::Record;
use wegbaro::{work_bytes, Checked, Refusal};

/// The verdict on the network.
#[derive(Clone, Copy, Debug, PartialEq, Eq)]
pub struct StartAnswer {
    pub verdict: Result<Checked, Refusal>,
    /// The bytes of work that the answering gate has, if they are not as many as are needed.
    pub work: Option<usize>,
}

impl Answer for StartAnswer {
    fn words(&self, standing: Standing) -> Result<String, Trouble> {
        Ok(match self.verdict {
            Ok(Checked::Holds) => match policies(&standing.book.records) {
                0 => "start: the network holds, as it has no policies".to_string(),
                _ => "start: the network holds, no policy is broken".to_string(),
            },
            Ok(Checked::Violated { policy, state }) => {
                format!("start: violated: {}", standing.broken_words(policy, state)?)
            }
            Err(refusal) => {
                let cause = self.cause(standing, refusal);
                let place = standing.place_words(refusal, cause.as_ref());
                format!("start: {}{place}", refused_words(refusal, cause.as_ref()))
            }
        })
    }

    fn object(&self, standing: Standing) -> Result<Object, Trouble> {
        let object = Object::new().text("subject", "start");
        Ok(match self.verdict {
            Ok(Checked::Holds) => {
                let records = &standing.book.records;
                let object = object.text("answer", "holds").number("records", records.len());
                object.number("policies", policies(records))
            }
            Ok(Checked::Violated { policy, state }) => {
                standing.broken_object(object.text("answer", "violated"), policy, state)?
            }
            Err(refusal) => {
                let cause = self.cause(standing, refusal);
                let object = refused_object(object, refusal, cause.as_ref());
                standing.place_object(object, refusal, cause.as_ref())
            }
        })
    }

    fn status(&self) -> Status {
        match self.verdict {
            Ok(Checked::Holds) => Status::Good,
            Ok(Checked::Violated { .. }) => Status::Bad,
            Err(refusal) => refused_status(refusal),
        }
    }

    fn line(&self) -> Option<String> {
        Some(match self.verdict {
            Ok(Checked::Holds) => "start holds".to_string(),
            Ok(Checked::Violated { policy, state }) => format!("start violated {policy} {state}"),
            Err(Refusal { row, place }) => format!("start refused {row} {place}"),
        })
    }
}

impl StartAnswer {
    fn cause(&self, standing: Standing, refusal: Refusal) -> Option<Cause> {
        match (refusal.row, self.work) {
            (11, Some(work)) => work_cause(standing, work).map(Cause::from),
            _ => standing.network_cause(refusal),
        }
    }
}

/// Why so many bytes of work are too few.
fn work_cause(standing: Standing, work: usize) -> Option<String> {
    let needed = work_bytes(&standing.book.records);
    let bits = standing.source.widths()?.bits();
    Some(format!(
        "with {bits} bits and its longest policy the network needs {needed} bytes of work, and \
         there are {work}; `wegbaro check` and `wegbaro run` have as many as are needed"
    ))
}

/// How many policies there are; they are numbered from 0 without gaps.
pub fn policies(records: &[Record]) -> usize {
    let last = records.iter().rfind(|record| record[0] == kind::POLICY);
    last.map_or(0, |record| usize::from(record[1]) + 1)
}
