//! A network and its commands judged, and each answer told at once.

use crate::answers::also::AlsoAnswer;
use crate::answers::command::CommandAnswer;
use crate::answers::short::ShortAnswer;
use crate::answers::start::{policies, StartAnswer};
use crate::answers::{note, told, Answer, Format, Standing};
use crate::arguments::Arguments;
use crate::book::Book;
use crate::priorities::{notes_on_equals, Noted};
use crate::source::{Command, Source};
use crate::standard;
use crate::trouble::{Status, Trouble};
use wegbaro::{Checked, Gate};

/// A gate, what is known of its records, and the worst that was answered.
pub struct Judging<'a> {
    pub source: &'a Source,
    pub format: Format,
    /// The bytes of work that the gate has, if they are not as many as are needed.
    work: Option<usize>,
    gate: Option<Gate>,
    book: Book,
    pub answered: usize,
    /// What is said of rules that act together.
    noted: Noted,
    pub status: Status,
    /// Why commands are not judged, once that is known.
    unjudged: Option<&'static str>,
}

/// What is done with an answer: it is told, or held against another.
pub type Told<'t> = &'t mut dyn FnMut(&dyn Answer, &str) -> Result<(), Trouble>;

/// Tells an answer.
pub fn tell(_: &dyn Answer, told: &str) -> Result<(), Trouble> {
    standard::write(told.as_bytes())
}

/// `wegbaro check`: judges a network.
pub fn check(arguments: &Arguments) -> Result<Status, Trouble> {
    let format = arguments.format();
    let source = Source::noted(arguments.file(), format)?;
    if !source.commands.is_empty() {
        note(format, "the file's commands are not judged; `wegbaro run` judges them too")?;
    }
    let mut judging = Judging::new(&source, format, None);
    judging.start(&mut tell)?;
    judging.others(&mut tell)?;
    Ok(judging.status)
}

/// `wegbaro run`: judges a network and its commands.
pub fn run(arguments: &Arguments) -> Result<Status, Trouble> {
    let source = Source::noted(arguments.file(), arguments.format())?;
    let mut judging = Judging::new(&source, arguments.format(), None);
    judging.all(&mut tell)?;
    judging.note_unjudged()?;
    Ok(judging.status)
}

impl<'a> Judging<'a> {
    pub fn new(source: &'a Source, format: Format, work: Option<usize>) -> Judging<'a> {
        Judging {
            source,
            format,
            work,
            gate: None,
            book: Book::new(&source.network, &source.lines),
            answered: 0,
            noted: Noted::default(),
            status: Status::Good,
            unjudged: None,
        }
    }

    /// Whether the network holds, so that commands are judged.
    pub fn holds(&self) -> bool {
        self.gate.is_some()
    }

    pub fn standing(&self) -> Standing<'_> {
        Standing { source: self.source, book: &self.book }
    }

    pub fn answer(&mut self, answer: &dyn Answer, tell: Told) -> Result<(), Trouble> {
        self.status = self.status.max(answer.status());
        tell(answer, &told(answer, self.standing(), self.format)?)
    }

    /// Judges the network. The gate is kept if the network holds.
    fn start(&mut self, tell: Told) -> Result<(), Trouble> {
        if self.source.is_network_cut() {
            self.unjudged = Some("the input ends within a record");
            return self.answer(&ShortAnswer::Record, tell);
        }
        let gate = match self.work {
            Some(bytes) => Gate::with_work(&self.source.network, bytes),
            None => Gate::new(&self.source.network),
        };
        let verdict = gate.as_ref().map(Gate::check).map_err(|refusal| *refusal);
        self.gate = gate.ok().filter(|gate| gate.check() == Checked::Holds);
        self.unjudged = match verdict {
            Ok(Checked::Holds) => None,
            Ok(Checked::Violated { .. }) => Some("the network does not hold"),
            Err(_) => Some("the network is refused"),
        };
        self.answer(&StartAnswer { verdict, work: self.work }, tell)?;
        match verdict {
            Ok(verdict) => self.note_equals(verdict == Checked::Holds),
            Err(_) => Ok(()),
        }
    }

    /// Tells the broken policies behind the lowest, each judged without the others. The program `gate`
    /// has no such lines.
    fn others(&mut self, tell: Told) -> Result<(), Trouble> {
        let records = self.book.records.clone();
        let verdict = Gate::new(&records).map(|gate| gate.check());
        let Ok(Checked::Violated { policy, .. }) = verdict else { return Ok(()) };
        let others = (policy + 1..policies(&records)).filter(|_| self.format != Format::Gate);
        for other in others.collect::<Vec<usize>>() {
            if let Some(answer) = AlsoAnswer::of(&records, other) {
                self.answer(&answer, tell)?;
            }
        }
        Ok(())
    }

    /// Judges the network and the source's commands. They are not judged unless the network holds.
    pub fn all(&mut self, tell: Told) -> Result<(), Trouble> {
        self.start(tell)?;
        if !self.holds() {
            return Ok(());
        }
        for command in &self.source.commands {
            self.command(*command, tell)?;
        }
        match self.source.rest.is_empty() {
            true => Ok(()),
            false => self.answer(&ShortAnswer::Record, tell),
        }
    }

    /// Says that commands are left alone, where the network does not hold or was not judged.
    pub fn note_unjudged(&self) -> Result<(), Trouble> {
        match self.unjudged.filter(|_| !self.source.commands.is_empty()) {
            Some(why) => note(self.format, &format!("the commands are not judged, as {why}")),
            None => Ok(()),
        }
    }

    /// Judges a command, if the network holds.
    pub fn command(&mut self, command: Command, tell: Told) -> Result<(), Trouble> {
        let Some(gate) = &mut self.gate else { return Ok(()) };
        self.answered += 1;
        let verdict = gate.command(&command.record);
        let answer = CommandAnswer { number: self.answered, command, verdict };
        self.answer(&answer, tell)?;
        match answer.status() {
            Status::Good => {
                self.book = answer.left(&self.book);
                self.note_equals(true)
            }
            _ => Ok(()),
        }
    }

    /// Says which rules act together in the network, unless that is said already.
    fn note_equals(&mut self, holds: bool) -> Result<(), Trouble> {
        let standing = Standing { source: self.source, book: &self.book };
        let notes = notes_on_equals(standing, holds, &mut self.noted)?;
        notes.iter().try_for_each(|message| note(self.format, message))
    }
}
