//! Sessions: commands that come in on standard input, each answered before the next is read.

use crate::answers::short::ShortAnswer;
use crate::answers::{note, Format};
use crate::arguments::Arguments;
use crate::fault::Fault;
use crate::json::Object;
use crate::judging::{tell, Judging};
use crate::parse::{parse_command, CommandText};
use crate::questions::answered;
use crate::source::{fault_trouble, Command, Source};
use crate::standard;
use crate::subcommands::RECORDS;
use crate::tokens::fault_apart;
use crate::trouble::{Status, Trouble};
use crate::{Record, RECORD};
use std::io::{self, BufRead, Read};

/// `wegbaro session`: judges a network and its commands, then commands as they come in. There is no
/// session where the network does not hold or the file is cut.
pub fn session(arguments: &Arguments) -> Result<Status, Trouble> {
    let source = Source::noted(arguments.file(), arguments.format())?;
    let mut judging = Judging::new(&source, arguments.format(), None);
    judging.all(&mut tell)?;
    if !judging.holds() || !source.rest.is_empty() {
        judging.note_unjudged()?;
        return Ok(judging.status);
    }
    let mut input = standard::input()?;
    match arguments.has(RECORDS.name) {
        true => records(&mut judging, &mut input)?,
        false => lines(&mut judging, &mut input)?,
    }
    Ok(judging.status)
}

fn read_failed(error: io::Error) -> Trouble {
    Trouble::failed(format!("standard input: {error}"))
}

/// Commands as lines of text, continued as in a file: a command is answered when the next line does
/// not continue it. What is faulty is told and passed over.
fn lines(judging: &mut Judging, input: &mut impl BufRead) -> Result<(), Trouble> {
    // The lines of the command that may be continued.
    let mut open = String::new();
    let mut bytes = vec![];
    while input.read_until(b'\n', &mut bytes).map_err(read_failed)? > 0 {
        let line = String::from_utf8_lossy(&bytes);
        let role = Role::of(&line);
        if role != Role::Continues {
            command(judging, &std::mem::take(&mut open))?;
        }
        if role != Role::Ends && !line.ends_with('\n') {
            return judging.answer(&ShortAnswer::Line, &mut tell);
        }
        match role {
            Role::Continues if open.is_empty() => apart(judging, &line)?,
            Role::Continues | Role::Starts => open += &line,
            Role::Ends => {}
        }
        bytes.clear();
    }
    command(judging, &open)
}

/// What a line is to commands.
#[derive(Clone, Copy, PartialEq, Eq)]
enum Role {
    Starts,
    Continues,
    /// It is empty or a comment, and what stands before it is not continued.
    Ends,
}

impl Role {
    /// The role of a line, with its line break. Spaces without one may be the start of more.
    fn of(line: &str) -> Role {
        match line {
            _ if line.starts_with('#') || line.trim().is_empty() && line.ends_with('\n') => {
                Role::Ends
            }
            _ if line.starts_with([' ', '\t']) => Role::Continues,
            _ => Role::Starts,
        }
    }
}

/// Answers a question or judges a command, if there is one, or tells its faults.
fn command(judging: &mut Judging, text: &str) -> Result<(), Trouble> {
    let Some(widths) = judging.source.widths().filter(|_| !text.is_empty()) else { return Ok(()) };
    // The gate answers commands alone, and a reader of its lines counts them.
    if judging.format != Format::Gate && answered(judging, text)? {
        return Ok(());
    }
    match parse_command(text, widths, &judging.source.names) {
        Ok(CommandText { record, notes }) => {
            let number = judging.answered + 1;
            let tell_note = |it: &String| note(judging.format, &format!("command {number}, {it}"));
            notes.iter().try_for_each(tell_note)?;
            judging.command(Command { record, line: None }, &mut tell)
        }
        Err(faults) => faulty(judging, text, &faults),
    }
}

/// Tells a line that continues no command, unless it is a comment.
fn apart(judging: &mut Judging, line: &str) -> Result<(), Trouble> {
    match line.trim_start().starts_with('#') {
        true => Ok(()),
        false => faulty(judging, line, &[fault_apart(line)]),
    }
}

/// Tells a command that could not be read. To a reader of the gate's lines it is one that row 12
/// refuses.
fn faulty(judging: &mut Judging, text: &str, faults: &[Fault]) -> Result<(), Trouble> {
    judging.answered += 1;
    judging.status = judging.status.max(Status::Faulty);
    let number = judging.answered;
    let trouble = fault_trouble(&format!("command {number}"), text, faults);
    match judging.format {
        Format::Words => standard::write(trouble.message.as_bytes()),
        Format::Json => {
            let command = || Object::new().text("subject", "command").number("number", number);
            let line = |object| format!("{}\n", command().and(object));
            let lines: String = trouble.objects.into_iter().map(line).collect();
            standard::write(lines.as_bytes())
        }
        Format::Gate => {
            standard::say(&trouble.message);
            standard::write(format!("{number} refused 12 0\n").as_bytes())
        }
    }
}

/// Commands as records.
fn records(judging: &mut Judging, input: &mut impl Read) -> Result<(), Trouble> {
    loop {
        let mut bytes = vec![];
        input.take(RECORD as u64).read_to_end(&mut bytes).map_err(read_failed)?;
        if bytes.is_empty() {
            return Ok(());
        }
        match Record::try_from(bytes) {
            Ok(record) => judging.command(Command { record, line: None }, &mut tell)?,
            Err(_) => return judging.answer(&ShortAnswer::Record, &mut tell),
        }
    }
}
