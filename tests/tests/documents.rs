//! The documents: every link leads somewhere, and prose fits on a screen.

use std::fs;
use std::path::{Path, PathBuf};
use wegbaro_tests::build::root;

/// Every document of the project: those at the root, in docs/, in docs/landings/ and in tools/.
fn documents() -> Vec<PathBuf> {
    let folders = ["", "docs", "docs/landings", "tools"].map(|folder| root().join(folder));
    let files = folders.iter().flat_map(|folder| fs::read_dir(folder).unwrap());
    let paths = files.map(|file| file.unwrap().path());
    paths.filter(|path| path.extension().is_some_and(|end| end == "md")).collect()
}

/// What the links of a document lead to.
fn links(text: &str) -> Vec<&str> {
    let behind = text.split("](").skip(1);
    behind.filter_map(|rest| rest.split_once(')')).map(|(target, _)| target).collect()
}

/// The anchor of a heading: its words in small letters, joined by hyphens.
fn anchor(heading: &str) -> String {
    let kept = |c: &char| c.is_alphanumeric() || matches!(c, ' ' | '-' | '_');
    let plain: String = heading.chars().filter(kept).collect();
    plain.trim().to_lowercase().replace(' ', "-")
}

fn has_anchor(text: &str, wanted: &str) -> bool {
    let headings = text.lines().filter(|line| line.starts_with('#'));
    headings.map(|line| anchor(line.trim_start_matches('#'))).any(|found| found == wanted)
}

/// Whether a link in a document leads to a file or a heading that is there.
fn leads(document: &Path, target: &str) -> bool {
    let (file, heading) = target.split_once('#').unwrap_or((target, ""));
    let path = match file {
        "" => document.to_owned(),
        _ => document.parent().unwrap().join(file),
    };
    let text = || fs::read_to_string(&path).unwrap_or_default();
    path.exists() && (heading.is_empty() || has_anchor(&text(), heading))
}

#[test]
fn links_lead_somewhere() {
    let mut seen = 0;
    for document in documents() {
        let text = fs::read_to_string(&document).unwrap();
        for target in links(&text).into_iter().filter(|target| !target.starts_with("http")) {
            assert!(leads(&document, target), "{}: {target}", document.display());
            seen += 1;
        }
    }
    assert!(seen > 20, "{seen} links");
}

/// Tables and code may be wider.
fn is_prose(line: &str) -> bool {
    !line.starts_with('|') && !line.starts_with("    ")
}

#[test]
fn prose_is_under_100_characters() {
    let mut wide = vec![];
    for document in documents() {
        let text = fs::read_to_string(&document).unwrap();
        for (number, line) in (1..).zip(text.lines()) {
            if is_prose(line) && line.chars().count() >= 100 {
                wide.push(format!("{}:{number}: {line}", document.display()));
            }
        }
    }
    assert!(wide.is_empty(), "{}", wide.join("\n"));
}
