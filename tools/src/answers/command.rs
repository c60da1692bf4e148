//! The command call's answer.

use super::refused::{refused_object, refused_words};
use super::{Answer, Standing};
use crate::book::{Book, Change, Origin};
use crate::causes::{command_cause, Cause, Telling};
use crate::json::Object;
use crate::kind;
use crate::source::Command;
use crate::trouble::{Status, Trouble};
use wegbaro::{Commanded, Refusal};

/// The verdict on a command. The network that it stands in is the one before it.
#[derive(Clone, Copy, Debug, PartialEq, Eq)]
pub struct CommandAnswer {
    /// The command's number, from 1.
    pub number: usize,
    pub command: Command,
    pub verdict: Result<Commanded, Refusal>,
}

impl Answer for CommandAnswer {
    fn words(&self, standing: Standing) -> Result<String, Trouble> {
        let verdict = match self.verdict {
            Ok(Commanded::Forwarded { count }) => {
                let records = if count == 1 { "record" } else { "records" };
                let effect = self.effect_words(standing).map(|effect| format!(" {effect};"));
                let effect = effect.unwrap_or_default();
                format!("forwarded,{effect} the network then has {count} {records}")
            }
            Ok(Commanded::Blocked { policy, state }) => {
                let left = self.left(standing.book);
                let after = Standing { book: &left, ..standing };
                format!("blocked: {}", after.broken_words(policy, state)?)
            }
            Err(refusal) => {
                let cause = self.cause(standing, refusal);
                refused_words(refusal, cause.as_ref())
            }
        };
        Ok(format!("{}: {verdict}", self.command_words(standing)))
    }

    fn object(&self, standing: Standing) -> Result<Object, Trouble> {
        let object = Object::new()
            .text("subject", "command")
            .number("number", self.number)
            .maybe(self.command.line, |object, line| object.number("line", line))
            .text("command", &standing.record_words(&self.command.record));
        Ok(match self.verdict {
            Ok(Commanded::Forwarded { count }) => {
                let object = object.text("answer", "forwarded").number("records", count);
                self.effect_object(object, standing)
            }
            Ok(Commanded::Blocked { policy, state }) => {
                let left = self.left(standing.book);
                let after = Standing { book: &left, ..standing };
                after.broken_object(object.text("answer", "blocked"), policy, state)?
            }
            Err(refusal) => {
                let cause = self.cause(standing, refusal);
                refused_object(object, refusal, cause.as_ref())
            }
        })
    }

    fn status(&self) -> Status {
        match self.verdict {
            Ok(Commanded::Forwarded { .. }) => Status::Good,
            _ => Status::Bad,
        }
    }

    fn line(&self) -> Option<String> {
        let number = self.number;
        Some(match self.verdict {
            Ok(Commanded::Forwarded { count }) => format!("{number} forwarded {count}"),
            Ok(Commanded::Blocked { policy, state }) => {
                format!("{number} blocked {policy} {state}")
            }
            Err(Refusal { row, place }) => format!("{number} refused {row} {place}"),
        })
    }
}

impl CommandAnswer {
    /// The records that the command leaves, or would leave.
    pub fn left(&self, book: &Book) -> Book {
        let origin = match self.command.line {
            Some(line) => Origin::Line(line),
            None => Origin::Command(self.number),
        };
        book.after(&self.command.record, origin)
    }

    fn cause(&self, standing: Standing, refusal: Refusal) -> Option<Cause> {
        let at = |place: usize| standing.book.origin(place).to_string();
        let telling = Telling { at: &at, names: &standing.source.names };
        command_cause(&standing.book.records, &self.command.record, refusal, telling)
    }

    /// What a forwarded command does, where it is not what its word says alone.
    fn effect_words(&self, standing: Standing) -> Option<String> {
        let book = standing.book;
        let command = &self.command.record;
        match book.change(command) {
            Change::Nothing => {
                let nearest = book.nearest(command).map(|place| {
                    let rule = standing.record_words(&book.records[place]);
                    format!("; the nearest is {} ({rule})", book.origins[place])
                });
                let nearest = nearest.unwrap_or_default();
                Some(format!("nothing changes, as there is no such rule{nearest}"))
            }
            Change::Replaces(place) if !self.changes(book) => {
                Some(format!("nothing changes, as {} is this rule", book.origins[place]))
            }
            Change::Replaces(place) if command[0] == kind::ADD => {
                Some(format!("it replaces the rule of {}", book.origins[place]))
            }
            _ => None,
        }
    }

    /// Whether the command changes a record.
    fn changes(&self, book: &Book) -> bool {
        self.left(book).records != book.records
    }

    /// The same as fields of an object: whether a record changes, and which one was there, or was
    /// nearest.
    fn effect_object(&self, object: Object, standing: Standing) -> Object {
        let book = standing.book;
        let object = object.truth("changed", self.changes(book));
        match book.change(&self.command.record) {
            Change::Replaces(place) => standing.origin_object(object, "replaced", place),
            Change::Nothing => {
                let nearest = book.nearest(&self.command.record);
                object.maybe(nearest, |object, place| {
                    standing.origin_object(object, "nearest", place)
                })
            }
            Change::Adds(_) | Change::Removes(_) => object,
        }
    }

    fn command_words(&self, standing: Standing) -> String {
        let number = self.number;
        let command = standing.record_words(&self.command.record);
        match self.command.line {
            Some(line) => format!("command {number} ({command}), line {line}"),
            None => format!("command {number} ({command})"),
        }
    }
}
