//! The version number stands in the file VERSION. Whatever cannot read that file says the same.

use std::fs;
use std::path::{Path, PathBuf};
use wegbaro_tests::build::{root, version};

fn text(path: &Path) -> String {
    fs::read_to_string(path).unwrap_or_else(|error| panic!("{}: {error}", path.display()))
}

/// The folders of a folder.
fn folders(path: &Path) -> Vec<PathBuf> {
    let entries = fs::read_dir(path).into_iter().flatten();
    entries.map(|entry| entry.unwrap().path()).filter(|path| path.is_dir()).collect()
}

/// The Rust packages: each folder at the root or under bindings/ with a Cargo.toml.
fn manifests() -> Vec<PathBuf> {
    let candidates = [root(), root().join("bindings")];
    let all = candidates.iter().flat_map(|path| folders(path)).map(|path| path.join("Cargo.toml"));
    all.filter(|path| path.is_file()).collect()
}

#[test]
fn three_numbers() {
    let parts: Vec<String> = version().split('.').map(str::to_owned).collect();
    assert_eq!(parts.len(), 3, "{parts:?}");
    // In the version as one number each part has three digits.
    assert!(parts.iter().all(|part| part.parse().is_ok_and(|part: u32| part < 1_000)), "{parts:?}");
}

#[test]
fn of_the_library() {
    assert_eq!(wegbaro::library_version().to_string(), version());
}

#[test]
fn of_the_header() {
    let header = text(&root().join("include/wegbaro.h"));
    let version = version();
    let whole = format!("\"{version}\"");
    let parts: Vec<&str> = version.split('.').collect();
    let defined = [("", &*whole), ("_MAJOR", parts[0]), ("_MINOR", parts[1]), ("_PATCH", parts[2])];
    for (name, value) in defined {
        let line = format!("#define WEGBARO_VERSION{name} {value}");
        assert!(header.lines().any(|other| other == line), "no line {line}");
    }
}

/// The workspace says it once, and each package takes it from there.
#[test]
fn of_the_rust_packages() {
    assert_eq!(version_line(&root().join("Cargo.toml")), format!("version = \"{}\"", version()));
    let manifests = manifests();
    assert!(manifests.len() >= 3, "{manifests:?}");
    for manifest in manifests {
        let line = version_line(&manifest);
        assert_eq!(line, "version.workspace = true", "{}", manifest.display());
    }
}

/// The first line of a manifest that is about a version.
fn version_line(manifest: &Path) -> String {
    let text = text(manifest);
    text.lines().find(|line| line.starts_with("version")).unwrap_or_default().to_owned()
}

/// No package is from a registry, so that all have this version.
#[test]
fn of_the_lock_file() {
    let locked = text(&root().join("Cargo.lock"));
    let versions: Vec<&str> =
        locked.lines().filter_map(|line| line.strip_prefix("version = \"")).collect();
    assert!(versions.len() >= 3, "{versions:?}");
    assert!(versions.iter().all(|line| *line == format!("{}\"", version())), "{versions:?}");
}

#[test]
fn of_the_changelog() {
    let changes = text(&root().join("CHANGELOG.md"));
    let newest = changes.lines().find_map(|line| line.strip_prefix("## ")).unwrap_or_default();
    assert_eq!(newest, version());
}
