//! The program `wegbaro`.

use crate::answers::Format;
use crate::arguments::{self, Asked};
use crate::manual;
use crate::standard::{self, say};
use crate::subcommands::help;
use crate::trouble::{Status, Trouble};
use std::ffi::OsString;

/// Runs the program: what went wrong is said, and the exit status tells the worst.
pub fn run(given: impl IntoIterator<Item = OsString>) -> Status {
    let given: Vec<OsString> = given.into_iter().collect();
    let (format, done) = match arguments::read(given.clone()) {
        Ok(Asked::Help) => (Format::Words, written(&help())),
        Ok(Asked::Version) => {
            let version = concat!("wegbaro ", env!("CARGO_PKG_VERSION"), "\n");
            (Format::Words, written(version))
        }
        Ok(Asked::Manual) => (Format::Words, written(&manual::page())),
        Ok(Asked::Completion) => (Format::Words, written(&manual::completion())),
        Ok(Asked::Done(subcommand, arguments)) => {
            (arguments.format(), (subcommand.run)(&arguments))
        }
        Err(trouble) => (arguments::format_of(&given), Err(trouble)),
    };
    done.unwrap_or_else(|trouble| in_trouble(format, trouble))
}

/// Says what is wrong on standard error, and as objects also where objects are asked for.
fn in_trouble(format: Format, trouble: Trouble) -> Status {
    say(&trouble.message);
    if format != Format::Json {
        return trouble.status;
    }
    let objects: String = trouble.objects.iter().map(|object| format!("{object}\n")).collect();
    match standard::write(objects.as_bytes()) {
        Err(failed) if trouble.status < failed.status => {
            say(&failed.message);
            failed.status
        }
        _ => trouble.status,
    }
}

fn written(text: &str) -> Result<Status, Trouble> {
    standard::write(text.as_bytes())?;
    Ok(Status::Good)
}
