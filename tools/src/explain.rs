//! The answers of the program `gate` in words.

use crate::arguments::Arguments;
use crate::fault::quoted;
use crate::judging::Judging;
use crate::source::Source;
use crate::standard;
use crate::trouble::{Status, Trouble};

/// Bytes of work of the program `gate`.
const GATE_WORK: usize = 65_536;

/// `wegbaro explain`: works out what `gate` answers, and holds the answers on standard input against
/// it. Answers that are not about this file are a fault.
pub fn explain(arguments: &Arguments) -> Result<Status, Trouble> {
    let source = Source::noted(arguments.file(), arguments.format())?;
    let output = answers()?;
    let mut lines = output.lines();
    let mut number = 0;
    let mut judging = Judging::new(&source, arguments.format(), Some(GATE_WORK));
    judging.all(&mut |answer, told| {
        number += 1;
        let own = answer.line().unwrap_or_default();
        let expected = format!("the gate's answer about this file is `{own}`");
        match lines.next() {
            Some(line) if line == own => standard::write(told.as_bytes()),
            Some(line) => Err(other_answer(number, &format!("is `{}`", quoted(line)), &expected)),
            None => Err(other_answer(number, "is missing", &expected)),
        }
    })?;
    match lines.next() {
        Some(line) => {
            let found = format!("is `{}`", quoted(line));
            Err(other_answer(number + 1, &found, "the gate has no more answers about this file"))
        }
        None => Ok(judging.status),
    }
}

fn other_answer(number: usize, found: &str, expected: &str) -> Trouble {
    Trouble::faulty(format!(
        "line {number} of the answers {found}, and {expected}: these are not the answers about \
         this file"
    ))
}

/// The answers on standard input.
fn answers() -> Result<String, Trouble> {
    let bytes = standard::read_input("the answers on standard input have")?;
    String::from_utf8(bytes).map_err(|_| Trouble::faulty("the answers are not a text"))
}
