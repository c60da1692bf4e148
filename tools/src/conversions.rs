//! Texts as records, records as texts, and texts with their policies in the raw forms.

use crate::answers::{note, Format};
use crate::arguments::Arguments;
use crate::parse::Parsed;
use crate::standard;
use crate::trouble::{Status, Trouble};
use crate::{expand, print, source};
use std::ffi::OsStr;

/// `wegbaro records`: a text as records.
pub fn records(arguments: &Arguments) -> Result<Status, Trouble> {
    let file = arguments.file();
    let parsed = noted(file, &source::text(file)?)?;
    standard::write(&parsed.bytes)?;
    Ok(Status::Good)
}

/// `wegbaro text`: records as a text.
pub fn text(arguments: &Arguments) -> Result<Status, Trouble> {
    let text = print::print(&source::records(arguments.file())?);
    standard::write(text.as_bytes())?;
    Ok(Status::Good)
}

/// `wegbaro expand`: a text with every policy as a formula of the raw forms.
pub fn expand(arguments: &Arguments) -> Result<Status, Trouble> {
    let file = arguments.file();
    let text = source::text(file)?;
    let parsed = noted(file, &text)?;
    standard::write(expand::expand(&text, &parsed).as_bytes())?;
    Ok(Status::Good)
}

/// What a text says; what is to be said of it though it is no fault is said.
fn noted(file: &OsStr, text: &str) -> Result<Parsed, Trouble> {
    let parsed = source::parsed(file, text)?;
    parsed.notes.iter().try_for_each(|message| note(Format::Words, message))?;
    Ok(parsed)
}
