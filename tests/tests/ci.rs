//! The gate's script, with commands in place of `rt` and `cargo` that do as they are told.

use std::fs;
use std::io::{BufRead, BufReader};
use std::os::unix::fs::PermissionsExt;
use std::path::Path;
use std::process::{Command, Stdio};
use wegbaro_tests::build::{root, Folder};

/// Proves as `PROOFS` says, once the file `go` is there; 10 seconds are enough to make it.
const RT: &str = r#"#!/bin/sh
test "$1" = ci || exit 0
echo first
for _ in 1 2 3 4 5 6 7 8 9 10; do test -e go || sleep 1; done
test -e go || exit 1
echo "$PROOFS"
test "$PROOFS" != "4 passed, 1 failed"
"#;

/// Runs two test files, and fails in the part that `FAILS` names.
const CARGO: &str = r#"#!/bin/sh
test "$2" != --version || exit 0
test "$1" != "$SLOW" || sleep 5
test "$1" != "$FAILS" || exit 101
test "$1" != test || printf 'test result: ok. %s passed; 0 failed; 0 ignored\n' $TESTS
"#;

/// In place of what the tests use, so that nothing is installed.
const NOTHING: &str = "#!/bin/sh\n";

/// A folder with the script and the commands.
fn folder(name: &str) -> Folder {
    let folder = Folder::new(env!("CARGO_TARGET_TMPDIR"), name);
    fs::create_dir(folder.path().join(".ci")).unwrap();
    fs::create_dir(folder.path().join("packaging")).unwrap();
    for script in [".ci/run", ".ci/rust"] {
        fs::copy(root().join(script), folder.path().join(script)).unwrap();
    }
    let commands = [
        ("rt", RT),
        ("cargo", CARGO),
        ("pkg-config", NOTHING),
        ("c++", NOTHING),
        ("packaging/staticlib", NOTHING),
        ("packaging/program", NOTHING),
    ];
    for (name, text) in commands {
        let path = folder.path().join(name);
        fs::write(&path, text).unwrap();
        fs::set_permissions(&path, fs::Permissions::from_mode(0o755)).unwrap();
    }
    folder
}

/// The script in a folder, whose commands are found first.
fn script(folder: &Path) -> Command {
    let path = format!("{}:{}", folder.display(), std::env::var("PATH").unwrap());
    let mut script = Command::new("sh");
    script.arg(folder.join(".ci/run")).current_dir(folder).env("PATH", path);
    for (name, value) in [("PROOFS", "5 passed, 0 failed"), ("TESTS", "3 4"), ("FAILS", "none")] {
        script.env(name, value);
    }
    script.env("SLOW", "none");
    script
}

/// The last line that the script prints with these variables, if it succeeds or else as an error.
fn last_line(variables: &[(&str, &str)]) -> Result<String, String> {
    let name = variables.iter().flat_map(|(name, value)| [*name, *value]).collect::<String>();
    let folder = folder(&name.replace([' ', ',', '\n', ':', ';'], "-"));
    fs::write(folder.path().join("go"), "").unwrap();
    let ran = script(folder.path()).envs(variables.iter().copied()).output().unwrap();
    let printed = String::from_utf8(ran.stdout).unwrap();
    let last = printed.lines().last().unwrap_or_default().to_string();
    if ran.status.success() {
        Ok(last)
    } else {
        Err(last)
    }
}

#[test]
fn proofs_and_tests_are_counted() {
    assert_eq!(last_line(&[]), Ok("12 passed, 0 failed".into()));
    assert_eq!(last_line(&[("TESTS", "1")]), Ok("6 passed, 0 failed".into()));
}

#[test]
fn what_fails_is_told() {
    assert_eq!(last_line(&[("PROOFS", "4 passed, 1 failed")]), Err("4 passed, 1 failed".into()));
    let cut = last_line(&[("PROOFS", "cut")]);
    assert_eq!(cut, Err("the proofs end without 'N passed, 0 failed'".into()));
    let bad = "rt: ok; must-fail edits: 3 refused, 1 bad; the others are kept\n5 passed, 0 failed";
    let told = "an edit that the prover must refuse cannot be applied or read";
    assert_eq!(last_line(&[("PROOFS", bad)]), Err(told.into()));
    for part in ["fmt", "clippy", "test"] {
        assert_eq!(last_line(&[("FAILS", part)]), Err("5 passed, 1 failed".into()), "{part}");
    }
}

#[test]
fn that_no_test_ran_is_a_failure() {
    assert_eq!(last_line(&[("TESTS", "0")]), Err("5 passed, 1 failed".into()));
}

#[test]
fn the_rust_part_has_a_limit() {
    let slow = last_line(&[("SLOW", "test"), ("WEGBARO_RUST_LIMIT", "1")]);
    assert_eq!(slow, Err("5 passed, 1 failed".into()));
}

/// The first line comes while `rt` is still waiting.
#[test]
fn lines_are_shown_as_they_come() {
    let folder = folder("as-they-come");
    let mut running = script(folder.path()).stdout(Stdio::piped()).spawn().unwrap();
    let mut lines = BufReader::new(running.stdout.take().unwrap()).lines();
    assert_eq!(lines.next().unwrap().unwrap(), "first");
    fs::write(folder.path().join("go"), "").unwrap();
    assert_eq!(lines.last().unwrap().unwrap(), "12 passed, 0 failed");
    assert!(running.wait().unwrap().success());
}
