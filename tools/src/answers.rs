//! Answers, and how they are told: in words, as JSON objects, and as the program `gate` prints them.
//!
//! Each kind of answer has a file and implements [`Answer`]. What it tells of records is read from
//! [`Standing`]: the network as it stands after the commands so far.

pub mod also;
pub mod broken;
pub mod command;
pub mod instead;
pub mod now;
pub mod refused;
pub mod route;
pub mod short;
pub mod start;
pub mod taken;

use crate::book::Book;
use crate::json::Object;
use crate::print::print_record;
use crate::source::Source;
use crate::standard::{self, say};
use crate::steps::{Network, State};
use crate::trouble::{Status, Trouble};
use crate::widths::Widths;
use crate::Record;

/// How answers are written.
#[derive(Clone, Copy, Debug, Default, PartialEq, Eq)]
pub enum Format {
    #[default]
    Words,
    Json,
    /// As the program `gate` prints them.
    Gate,
}

/// An answer of the library, or about the input.
pub trait Answer {
    /// The answer in words, without a line break at the end.
    fn words(&self, standing: Standing) -> Result<String, Trouble>;

    /// The same as an object.
    fn object(&self, standing: Standing) -> Result<Object, Trouble>;

    fn status(&self) -> Status;

    /// The same as the program `gate` prints it, if it has such answers.
    fn line(&self) -> Option<String> {
        None
    }
}

/// An answer as it is written, ending with a line break.
pub fn told(answer: &dyn Answer, standing: Standing, format: Format) -> Result<String, Trouble> {
    let told = match (format, answer.line()) {
        (Format::Gate, Some(line)) => Ok(line),
        (Format::Json, _) => answer.object(standing).map(|object| object.to_string()),
        _ => answer.words(standing),
    };
    match (told, answer.line()) {
        (Ok(told), _) => Ok(told + "\n"),
        (Err(trouble), Some(line)) => Err(trouble.beside(&line)),
        (Err(trouble), None) => Err(trouble),
    }
}

/// Says something that is no fault on standard error, and as an object where objects are asked for.
pub fn note(format: Format, message: &str) -> Result<(), Trouble> {
    say(&format!("note: {message}\n"));
    match format {
        Format::Json => {
            let object = Object::new().text("answer", "note").text("message", message);
            standard::write(format!("{object}\n").as_bytes())
        }
        Format::Words | Format::Gate => Ok(()),
    }
}

/// The network that an answer is about, as it stands after the commands so far, and what its text
/// says of it.
#[derive(Clone, Copy, Debug)]
pub struct Standing<'a> {
    pub source: &'a Source,
    pub book: &'a Book,
}

impl<'a> Standing<'a> {
    /// The network, which the library did not refuse.
    pub fn network(self) -> Result<Network<'a>, Trouble> {
        let network = Network::new(&self.book.records);
        network.ok_or_else(|| Trouble::internal("a network that is not refused has no widths"))
    }

    /// A record as its statement, with the names that the source gives.
    pub fn record_words(self, record: &Record) -> String {
        print_record(self.source.widths(), &self.source.names, record)
    }

    /// The name and the line of a policy.
    pub fn policy_words(self, number: usize) -> String {
        match self.source.policy(number) {
            Some(policy) => match &policy.name {
                Some(name) => format!(" \"{name}\", line {},", policy.line),
                None => format!(", line {},", policy.line),
            },
            None => String::new(),
        }
    }

    /// Switch, port and header of a state, each by its name and number.
    pub fn field_words(self, state: State) -> [String; 3] {
        let names = &self.source.names;
        let [switch, port] = state.point;
        [
            names.switch_words(switch),
            names.port_words(switch, port),
            names.header_words(state.header),
        ]
    }

    /// A state by its fields, with their names.
    pub fn state_words(self, of: Widths, number: usize) -> String {
        let state = State::numbered(number, of);
        let [switch, port, header] = self.field_words(state);
        format!("switch {switch}, port {port}, {}, header {header}", direction(state))
    }

    /// A state by its number and its fields.
    pub fn numbered_words(self, of: Widths, number: usize) -> String {
        format!("state {number} ({})", self.state_words(of, number))
    }

    pub fn state_object(self, of: Widths, number: usize) -> Object {
        let state = State::numbered(number, of);
        let [switch, port] = state.point.map(usize::from);
        Object::new()
            .number("number", number)
            .number("switch", switch)
            .number("port", port)
            .text("direction", direction(state))
            .number("header", state.header.into())
            .text("words", &self.state_words(of, number))
    }
}

fn direction(state: State) -> &'static str {
    match state.departing {
        true => "departing",
        false => "arriving",
    }
}
