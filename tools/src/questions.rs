//! Questions of a session about the network as it stands. They are no commands and change nothing.

use crate::answers::now::{HoldsAnswer, ShownAnswer};
use crate::answers::route::RouteAnswer;
use crate::answers::{told, Answer, Format, Standing};
use crate::fault::Fault;
use crate::json::Object;
use crate::judging::Judging;
use crate::source::fault_trouble;
use crate::standard;
use crate::tokens::{statements, Statement};
use crate::trouble::{Status, Trouble};

/// What starts a question.
pub const QUESTIONS: [&str; 3] = ["route", "check", "show"];

/// Answers a text if it is a question, and tells whether it is. A faulty one is told, and counts in
/// the exit status, in which answers to questions do not.
pub fn answered(judging: &mut Judging, text: &str) -> Result<bool, Trouble> {
    let found = statements(text);
    let word = found.first().map_or("", Statement::first);
    if !QUESTIONS.contains(&word) {
        return Ok(false);
    }
    let standing = judging.standing();
    let answer = answer(standing, word, text);
    let told = answer.and_then(|answer| told(answer.as_ref(), standing, judging.format));
    match told {
        Ok(told) => standard::write(told.as_bytes())?,
        Err(trouble) if trouble.status == Status::Faulty => faulty(judging, trouble)?,
        Err(trouble) => return Err(trouble),
    }
    Ok(true)
}

/// The answer to a question that starts with a word.
fn answer(standing: Standing, word: &str, text: &str) -> Result<Box<dyn Answer>, Trouble> {
    if word == "route" {
        let states = text[word.len()..].trim();
        return Ok(Box::new(RouteAnswer::of(standing, states)?));
    }
    alone(text).map_err(|fault| fault_trouble("question", text, &[fault]))?;
    Ok(match word {
        "check" => Box::new(HoldsAnswer::of(standing)?),
        _ => Box::new(ShownAnswer),
    })
}

/// A question of one word has nothing behind it.
fn alone(text: &str) -> Result<(), Fault> {
    for statement in &mut statements(text) {
        statement.sound()?;
        statement.take();
        statement.finish()?;
    }
    Ok(())
}

/// Tells a question that could not be read.
fn faulty(judging: &mut Judging, trouble: Trouble) -> Result<(), Trouble> {
    judging.status = judging.status.max(trouble.status);
    let line = |object: Object| {
        let question = Object::new().text("subject", "question");
        format!("{}\n", question.and(object))
    };
    let told: String = match judging.format {
        Format::Json => trouble.objects.into_iter().map(line).collect(),
        Format::Words | Format::Gate => trouble.message,
    };
    standard::write(told.as_bytes())
}
