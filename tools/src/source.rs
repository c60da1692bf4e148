//! A network and commands from a file, be it a text or records.

use crate::answers::{note, Format};
use crate::fault::{whole, Fault};
use crate::json::Object;
use crate::kind;
use crate::names::Names;
use crate::parse::{parse, Parsed, PolicyText, MOST_FAULTS};
use crate::print::whole_records;
use crate::standard::{read_input, read_whole, too_much};
use crate::trouble::{Status, Trouble};
use crate::widths::Widths;
use crate::Record;
use std::ffi::{OsStr, OsString};
use std::fs::File;
use wegbaro::MOST_RECORDS;

/// What a file has, told by its content.
#[derive(Clone, Debug, PartialEq, Eq)]
pub enum Content {
    Text(String),
    Records(Vec<u8>),
    /// Neither, and why.
    Other(Vec<u8>, &'static str),
}

impl Content {
    /// Records start with their kind, a byte that no text starts with: a group's kind, which may be
    /// the tab of a text, does not come first.
    fn of(bytes: Vec<u8>) -> Content {
        if bytes.first().is_some_and(|kind| *kind <= kind::DELETE) {
            return Content::Records(bytes);
        }
        if bytes.starts_with(b"\xFF\xFE") || bytes.starts_with(b"\xFE\xFF") {
            return Content::Other(bytes, "is UTF-16, not UTF-8");
        }
        match String::from_utf8(bytes) {
            Ok(text) if text.contains('\0') => Content::Other(text.into_bytes(), "has a zero byte"),
            // Some editors put a mark before a text, which says that it is UTF-8.
            Ok(text) => Content::Text(text.trim_start_matches('\u{feff}').to_string()),
            Err(error) => Content::Other(error.into_bytes(), "is not UTF-8"),
        }
    }
}

/// Whether a file's name stands for standard input.
pub fn is_input(file: &OsStr) -> bool {
    file == "-"
}

/// A file's name in a message.
pub fn name(file: &OsStr) -> String {
    match is_input(file) {
        true => "standard input".to_string(),
        false => whole(&file.to_string_lossy()),
    }
}

/// What a file has; `-` is standard input.
pub fn content(file: &OsString) -> Result<Content, Trouble> {
    let has = format!("{} has", name(file));
    if is_input(file) {
        return Ok(Content::of(read_input(&has)?));
    }
    let read = File::open(file).and_then(read_whole);
    let read = read.map_err(|error| Trouble::failed(format!("{}: {error}", name(file))))?;
    read.map(Content::of).ok_or_else(|| too_much(&has))
}

/// The text of a file.
pub fn text(file: &OsString) -> Result<String, Trouble> {
    match content(file)? {
        Content::Text(text) => Ok(text),
        Content::Records(_) => {
            let words = "has records, and a text is expected (`wegbaro text` gives their text)";
            Err(Trouble::faulty(format!("{} {words}", name(file))))
        }
        Content::Other(_, why) => {
            Err(Trouble::faulty(format!("{} is no text: it {why}", name(file))))
        }
    }
}

/// The records of a file, whatever the bytes are, if it has no text.
pub fn records(file: &OsString) -> Result<Vec<u8>, Trouble> {
    match content(file)? {
        Content::Records(bytes) | Content::Other(bytes, _) => Ok(bytes),
        Content::Text(text) if text.is_empty() => Ok(vec![]),
        Content::Text(_) => {
            let words = "is a text, and records are expected (`wegbaro records` gives its records)";
            Err(Trouble::faulty(format!("{} {words}", name(file))))
        }
    }
}

/// What a text says, or its faults.
pub fn parsed(file: &OsStr, text: &str) -> Result<Parsed, Trouble> {
    parse(text).map_err(|faults| fault_trouble(&name(file), text, &faults))
}

/// The faults of a text.
pub fn fault_trouble(file: &str, text: &str, faults: &[Fault]) -> Trouble {
    let mut message: String = faults.iter().map(|fault| fault.show(file, text)).collect();
    if faults.len() == MOST_FAULTS {
        message += &format!("these are the first {MOST_FAULTS} faults\n");
    }
    let object = |fault: &Fault| {
        Object::new()
            .text("answer", "faulty")
            .text("file", file)
            .number("line", fault.line)
            .number("column", fault.column)
            .text("message", &fault.message)
            .maybe(fault.hint.as_deref(), |object, hint| object.text("hint", hint))
            .maybe(fault.earlier, |object, line| object.number("earlier", line))
    };
    let objects = faults.iter().map(object).collect();
    Trouble { status: Status::Faulty, message, objects }
}

/// A command and where it stands.
#[derive(Clone, Copy, Debug, PartialEq, Eq)]
pub struct Command {
    pub record: Record,
    /// Its line, if it is a text's.
    pub line: Option<usize>,
}

/// A text and the file that it is from, as messages name it.
#[derive(Clone, Debug, PartialEq, Eq)]
pub struct TextFile {
    pub file: String,
    pub text: String,
}

/// A network and commands, and what a text says about them.
#[derive(Clone, Debug, Default)]
pub struct Source {
    pub network: Vec<Record>,
    pub text: Option<TextFile>,
    /// The line of each record of the network, if it is a text's.
    pub lines: Vec<usize>,
    pub commands: Vec<Command>,
    /// Bytes behind the last whole record.
    pub rest: Vec<u8>,
    pub names: Names,
    pub policies: Vec<PolicyText>,
    pub notes: Vec<String>,
}

impl Source {
    /// The network and commands of a file that is a text or has records.
    pub fn of(file: &OsString) -> Result<Source, Trouble> {
        match content(file)? {
            Content::Text(text) => {
                let source = Source::of_text(parsed(file, &text)?);
                Ok(Source { text: Some(TextFile { file: name(file), text }), ..source })
            }
            Content::Records(bytes) => Ok(Source::of_records(&bytes)),
            Content::Other(_, why) => {
                let name = name(file);
                let words = format!("{name} is neither a text nor records: it {why}");
                Err(Trouble::faulty(format!("{words}, and does not start with a record's kind")))
            }
        }
    }

    /// The same, and what is to be said of a text though it is no fault is said.
    pub fn noted(file: &OsString, format: Format) -> Result<Source, Trouble> {
        let source = Source::of(file)?;
        source.notes.iter().try_for_each(|message| note(format, message))?;
        Ok(source)
    }

    pub fn of_text(parsed: Parsed) -> Source {
        let mut source = Source::split(&parsed.bytes, &parsed.lines);
        source.names = parsed.names;
        source.policies = parsed.policies;
        source.notes = parsed.notes;
        source
    }

    pub fn of_records(bytes: &[u8]) -> Source {
        let mut source = Source::split(bytes, &[]);
        source.names.widths = source.widths();
        source
    }

    /// The records up to the first command, and the commands.
    fn split(bytes: &[u8], lines: &[usize]) -> Source {
        let (records, rest) = whole_records(bytes);
        let is_command = |record: &Record| kind::is_command(record[0]);
        let first = records.iter().position(is_command).unwrap_or(records.len());
        let (network, commands) = records.split_at(first);
        let command = |(place, record): (usize, &Record)| Command {
            record: *record,
            line: lines.get(first + place).copied(),
        };
        Source {
            network: network.to_vec(),
            lines: lines.iter().take(first).copied().collect(),
            commands: commands.iter().enumerate().map(command).collect(),
            rest: rest.to_vec(),
            ..Source::default()
        }
    }

    pub fn widths(&self) -> Option<Widths> {
        Widths::of(self.network.first()?)
    }

    /// Whether the network's last record is cut, so that no network is there to be judged.
    pub fn is_network_cut(&self) -> bool {
        let starts_command = self.rest.first().is_some_and(|kind| kind::is_command(*kind));
        let may_go_on = self.commands.is_empty() && self.network.len() <= MOST_RECORDS;
        !self.rest.is_empty() && may_go_on && !starts_command
    }

    /// A policy of the text by its number.
    pub fn policy(&self, number: usize) -> Option<&PolicyText> {
        self.policies.iter().find(|policy| usize::from(policy.number) == number)
    }
}
