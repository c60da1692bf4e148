//! The tables of `docs/READING.md`.

use super::sources::Place;
use std::collections::{BTreeMap, BTreeSet};

/// The lines of each section, by its title.
pub struct Document {
    sections: BTreeMap<String, Vec<String>>,
}

/// A row of what has to be believed: its definitions, and the names of what pins them.
pub struct Pinned<'a> {
    pub definitions: Vec<Place>,
    pub by: Vec<&'a str>,
}

/// What stands in backquotes.
fn quoted(text: &str) -> Vec<&str> {
    text.split('`').skip(1).step_by(2).collect()
}

fn cell<'a>(row: &[&'a str], column: usize) -> Result<&'a str, String> {
    row.get(column).copied().ok_or(format!("no column {column}: {}", row.join("|")))
}

/// The names of a cell in the file of another one.
fn places(file: &str, names: &str) -> Result<Vec<Place>, String> {
    let names = quoted(names);
    match quoted(file)[..] {
        [] if names.is_empty() => Ok(vec![]),
        [file] => Ok(names.iter().map(|name| Place::new(file, name)).collect()),
        _ => Err(format!("not one file for {}", names.join(", "))),
    }
}

impl Document {
    pub fn parse(text: &str) -> Document {
        let mut sections: BTreeMap<String, Vec<String>> = BTreeMap::new();
        let mut title = "";
        for line in text.lines() {
            title = line.strip_prefix("## ").unwrap_or(title);
            sections.entry(title.to_string()).or_default().push(line.to_string());
        }
        Document { sections }
    }

    fn section(&self, title: &str) -> Result<&[String], String> {
        let lines = self.sections.get(title).ok_or(format!("there is no section {title}"))?;
        Ok(lines)
    }

    /// The rows of a section's tables, without their heads.
    fn rows(&self, title: &str) -> Result<Vec<Vec<&str>>, String> {
        let lines = self.section(title)?;
        let rows: Vec<Vec<&str>> = (0..lines.len())
            .filter(|&i| lines[i].starts_with('|') && !lines[i].starts_with("|-"))
            .filter(|&i| !lines.get(i + 1).is_some_and(|next| next.starts_with("|-")))
            .map(|i| lines[i].trim_matches('|').split('|').collect())
            .collect();
        if rows.is_empty() {
            return Err(format!("no table in section {title}"));
        }
        Ok(rows)
    }

    /// The definitions that have to be believed, in their order: part of a document, file, definitions.
    pub fn believed(&self) -> Result<Vec<Place>, String> {
        let rows = self.rows("What has to be believed")?;
        let lists: Result<Vec<Vec<Place>>, String> =
            rows.iter().map(|row| places(cell(row, 1)?, cell(row, 2)?)).collect();
        Ok(lists?.concat())
    }

    /// The same definitions row by row, with what pins them: the last column.
    pub fn pinned(&self) -> Result<Vec<Pinned<'_>>, String> {
        let mut pinned = Vec::new();
        for row in self.rows("What has to be believed")? {
            let definitions = places(cell(&row, 1)?, cell(&row, 2)?)?;
            pinned.push(Pinned { definitions, by: quoted(cell(&row, 3)?) });
        }
        Ok(pinned)
    }

    /// The functions whose contracts are promises: function, promise.
    pub fn promised(&self) -> Result<Vec<&str>, String> {
        let rows = self.rows("What the code promises")?;
        Ok(rows.iter().flat_map(|row| quoted(row[0])).collect())
    }

    /// What the text beside that table names, which are the functions that require nothing.
    pub fn unconditional(&self) -> Result<BTreeSet<&str>, String> {
        let text = self.section("What the code promises")?.iter().filter(|l| !l.starts_with('|'));
        Ok(text.flat_map(|line| quoted(line)).filter(|name| *name != "requires").collect())
    }

    /// The theorems of a section: what they are about, theorems, file.
    pub fn theorems(&self, title: &str) -> Result<Vec<Place>, String> {
        let rows = self.rows(title)?;
        let lists: Result<Vec<Vec<Place>>, String> =
            rows.iter().map(|row| places(cell(row, 2)?, cell(row, 1)?)).collect();
        Ok(lists?.concat())
    }

    /// The edits that are refused: `CRATE/LABEL`.
    pub fn edits(&self) -> Result<BTreeSet<&str>, String> {
        let lines = self.section("Edits that the prover refuses")?;
        let word = |part: &str| {
            part.chars().all(|c| c.is_ascii_lowercase() || c.is_ascii_digit() || c == '_')
        };
        let edit = |name: &&str| {
            name.split('/').count() == 2 && name.split('/').all(|p| !p.is_empty() && word(p))
        };
        Ok(lines.iter().flat_map(|line| quoted(line)).filter(edit).collect())
    }

    /// Each crate with what it depends on, by way of others too: crate, what it is, dependencies.
    pub fn crates(&self) -> Result<BTreeMap<&str, BTreeSet<&str>>, String> {
        let mut crates: BTreeMap<&str, BTreeSet<&str>> = BTreeMap::new();
        for row in self.rows("The crates")? {
            let direct = quoted(cell(&row, 2)?);
            let further = direct.iter().filter_map(|d| crates.get(d)).flatten();
            let all = further.chain(&direct).copied().collect();
            let [name] = quoted(row[0])[..] else {
                return Err(format!("not one crate: {}", row[0]));
            };
            crates.insert(name, all);
        }
        Ok(crates)
    }
}
