//! Writes the index of the edits that the prover refuses into `docs/READING.md`.

use std::fs;
use std::process::ExitCode;
use wegbaro_tests::build::root;
use wegbaro_tests::reading::edits::{faults, index, read, with_index};

fn write() -> Result<(), String> {
    let edits = read(&root())?;
    let wrong = faults(&edits);
    if !wrong.is_empty() {
        return Err(wrong.join("\n"));
    }
    let path = root().join("docs/READING.md");
    let error = |error| format!("{}: {error}", path.display());
    let document = fs::read_to_string(&path).map_err(error)?;
    fs::write(&path, with_index(&document, &index(&edits))?).map_err(error)
}

fn main() -> ExitCode {
    match write() {
        Ok(()) => ExitCode::SUCCESS,
        Err(message) => {
            eprintln!("{message}");
            ExitCode::FAILURE
        }
    }
}
