//! The index of the edits that the prover refuses: each says on its first line which mistake it is.

use super::sources::{entries, listed};
use std::collections::BTreeSet;
use std::fs;
use std::path::Path;

/// The lines of `docs/READING.md` between which the index stands.
pub const BEGIN: &str =
    "<!-- made by: cargo run --offline --package wegbaro-tests --example edits -->";
pub const END: &str = "<!-- end of what is made -->";

/// An edit: its crate and label, and the line with which it begins.
pub struct Edit {
    pub krate: String,
    pub label: String,
    pub first: String,
}

impl Edit {
    fn mistake(&self) -> Option<&str> {
        self.first.strip_prefix("# ")
    }

    /// What is wrong with its first line by itself.
    fn fault(&self) -> Option<&'static str> {
        match self.mistake() {
            None => Some("does not begin with a comment line"),
            Some(_) if self.first.chars().count() >= 100 => Some("has 100 characters or more"),
            Some(mistake) if mistake.contains('|') => Some("would end the cell of a table"),
            Some(_) => None,
        }
    }
}

/// The edits of the project at a root: in the order of its list of crates, then by their labels.
pub fn read(root: &Path) -> Result<Vec<Edit>, String> {
    let text = |path: &Path| {
        fs::read_to_string(path).map_err(|error| format!("{}: {error}", path.display()))
    };
    let list = text(&root.join("crates.txt"))?;
    let mut edits = Vec::new();
    for (krate, _) in listed(&list) {
        let folder = root.join("crates").join(krate).join("must-fail");
        let files = if folder.is_dir() { entries(&folder)? } else { vec![] };
        for label in files.iter().filter_map(|file| file.strip_suffix(".edit")) {
            let edit = text(&folder.join(format!("{label}.edit")))?;
            let first = edit.lines().next().unwrap_or_default().to_string();
            edits.push(Edit { krate: krate.to_string(), label: label.to_string(), first });
        }
    }
    Ok(edits)
}

/// What is wrong with the first lines of edits.
pub fn faults(edits: &[Edit]) -> Vec<String> {
    let mut seen = BTreeSet::new();
    let mut wrong = Vec::new();
    for edit in edits {
        let again = !seen.insert((&edit.krate, &edit.first));
        let fault = edit.fault().or(again.then_some("is that of another edit of its crate"));
        wrong.extend(fault.map(|f| format!("{}/{}: the first line {f}", edit.krate, edit.label)));
    }
    wrong
}

/// The index: a row for each edit.
pub fn index(edits: &[Edit]) -> String {
    let rows = edits.iter().map(|edit| {
        format!("| `{}/{}` | {} |\n", edit.krate, edit.label, edit.mistake().unwrap_or_default())
    });
    format!("| edit | mistake |\n|---|---|\n{}", rows.collect::<String>())
}

/// A document with an index between its two marks, in the place of what stands there.
pub fn with_index(document: &str, index: &str) -> Result<String, String> {
    let part = |text: &str, mark: &str| -> Result<(String, String), String> {
        let parts = text.split_once(&format!("{mark}\n")).ok_or(format!("no line {mark}"))?;
        Ok((parts.0.to_string(), parts.1.to_string()))
    };
    let (before, rest) = part(document, BEGIN)?;
    let (_, after) = part(&rest, END)?;
    Ok(format!("{before}{BEGIN}\n\n{index}\n{END}\n{after}"))
}
