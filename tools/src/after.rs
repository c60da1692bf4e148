//! The network after the first commands of a file.

use crate::answers::command::CommandAnswer;
use crate::answers::Answer;
use crate::arguments::{fault, Arguments};
use crate::book::Book;
use crate::source::Source;
use crate::subcommands::AFTER;
use crate::trouble::{Status, Trouble};
use wegbaro::{Checked, Gate};

/// The network that `--after` asks for, and a note on which it is. Without the option it is the one
/// before all commands.
pub fn network_after(
    arguments: &Arguments,
    source: &Source,
) -> Result<(Book, Option<String>), Trouble> {
    let start = Book::new(&source.network, &source.lines);
    let commands = source.commands.len();
    if !arguments.has(AFTER.name) {
        let note = "the route is that of the network before the file's commands; `--after` takes \
                    a later one";
        return Ok((start, (commands > 0).then(|| note.to_string())));
    }
    let count = arguments.number(AFTER.name, 0)?;
    let count = usize::try_from(count).ok().filter(|count| *count <= commands);
    let Some(count) = count else {
        return Err(fault(format!("{} is 0 to {commands}, the file's commands", AFTER.name)));
    };
    let (book, forwarded) = after(source, start, count)?;
    let note = format!(
        "the route is that of the network after {count} of the file's {commands} commands, of \
         which {forwarded} were forwarded"
    );
    Ok((book, Some(note)))
}

/// The records after so many commands, and how many of these were forwarded. The others leave the
/// network as it is. A refused network is left to the route call, which tells why.
fn after(source: &Source, mut book: Book, count: usize) -> Result<(Book, usize), Trouble> {
    let Ok(mut gate) = Gate::new(&source.network) else { return Ok((book, 0)) };
    if count > 0 && gate.check() != Checked::Holds {
        let message = "the network does not hold, so that its commands are not judged";
        return Err(Trouble::faulty(format!("{}: {message}", AFTER.name)));
    }
    let mut forwarded = 0;
    for (number, command) in (1..).zip(&source.commands[..count]) {
        let verdict = gate.command(&command.record);
        let answer = CommandAnswer { number, command: *command, verdict };
        if answer.status() == Status::Good {
            book = answer.left(&book);
            forwarded += 1;
        }
    }
    Ok((book, forwarded))
}
