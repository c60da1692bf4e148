//! `make install` into a folder, and what its user does: pkg-config, a C compiler, the programs.
//!
//! The library and `gate` must be built before: installing them proves nothing anew.

use std::fs;
use std::path::{Path, PathBuf};
use std::process::Command;
use std::sync::Once;
use wegbaro_tests::build::{library, printed, printed_in_c, printed_of_k, root, run, version};
use wegbaro_tests::build::{Folder, STRICT};

fn folder(name: &str) -> Folder {
    Folder::new(env!("CARGO_TARGET_TMPDIR"), name)
}

/// `make` at the root, and what it prints; `false` in place of `rt` fails where a proof would be run
/// anew.
fn make(words: &[&str]) -> String {
    let mut make = Command::new("make");
    printed(make.arg("-C").arg(root()).arg("RT=false").args(words).env_remove("MAKEFLAGS"))
}

/// The name of the shared object by which programs ask for it: of versions 0.x each minor one has its
/// own.
fn shared_name(version: &str) -> String {
    let numbers: Vec<&str> = version.split('.').collect();
    let asked = if numbers[0] == "0" { &numbers[..2] } else { &numbers[..1] };
    format!("libwegbaro.so.{}", asked.join("."))
}

/// Builds once what `make install` takes and no proof is needed for.
fn built() {
    static BUILT: Once = Once::new();
    BUILT.call_once(|| {
        make(&["program", "shared"]);
    });
}

fn install(prefix: &Path) {
    built();
    make(&["install", &format!("PREFIX={}", prefix.display())]);
}

/// The files under a folder, sorted, as paths from there; links count as files.
fn files(under: &Path) -> Vec<String> {
    let mut found = vec![];
    let mut left = vec![under.to_owned()];
    while let Some(next) = left.pop() {
        if next.is_dir() && !next.is_symlink() {
            left.extend(fs::read_dir(next).unwrap().map(|entry| entry.unwrap().path()));
        } else {
            found.push(next.strip_prefix(under).unwrap().display().to_string());
        }
    }
    found.sort();
    found
}

/// What pkg-config prints of the library installed under a prefix, word by word.
fn pkg_config(prefix: &Path, words: &[&str]) -> Vec<String> {
    let there = Command::new("pkg-config").arg("--version").output().is_ok();
    assert!(there, "pkg-config is not installed: on Debian, apt-get install pkgconf");
    let place = prefix.join("lib/pkgconfig");
    let mut asked = Command::new("pkg-config");
    asked.env("PKG_CONFIG_PATH", place).args(words).arg("wegbaro");
    printed(&mut asked).split_whitespace().map(str::to_owned).collect()
}

/// Builds the example with the flags of pkg-config and more.
fn example(prefix: &Path, to: &Path, asked: &[&str], more: &[&str]) -> PathBuf {
    let built = to.join(format!("check{}", more.concat()));
    let mut compiler = Command::new("cc");
    compiler.args(STRICT).arg("-std=c89").arg(root().join("examples/c/check.c")).args(more);
    compiler.args(pkg_config(prefix, asked)).arg("-o").arg(&built);
    run(&mut compiler);
    built
}

/// The example built against the shared object, to be run with the installed one.
fn with_shared(example: &Path, prefix: &Path) -> Command {
    let mut command = Command::new(example);
    command.env("LD_LIBRARY_PATH", prefix.join("lib"));
    command
}

#[test]
fn in_a_staging_folder() {
    let stage = folder("stage");
    let to = format!("DESTDIR={}", stage.path().display());
    built();
    make(&["install", "PREFIX=/usr", &to]);
    let versioned = format!("usr/lib/libwegbaro.so.{}", version());
    let named = format!("usr/lib/{}", shared_name(&version()));
    let expected = [
        "usr/bin/gate",
        "usr/bin/wegbaro",
        "usr/include/wegbaro.h",
        "usr/lib/libwegbaro.a",
        "usr/lib/libwegbaro.so",
        &named,
        &versioned,
        "usr/lib/pkgconfig/wegbaro.pc",
        "usr/share/bash-completion/completions/wegbaro",
        "usr/share/doc/wegbaro/CHANGELOG.md",
        "usr/share/doc/wegbaro/FORMAT.md",
        "usr/share/doc/wegbaro/README.md",
        "usr/share/doc/wegbaro/answers.schema.json",
        "usr/share/doc/wegbaro/made-folders",
        "usr/share/man/man1/wegbaro.1",
    ];
    assert_eq!(files(stage.path()), expected);
    let description =
        fs::read_to_string(stage.path().join("usr/lib/pkgconfig/wegbaro.pc")).unwrap();
    assert!(description.starts_with("prefix=/usr\n"), "{description}");

    make(&["uninstall", "PREFIX=/usr", &to]);
    assert_eq!(fs::read_dir(stage.path()).unwrap().count(), 0);
}

/// Folders that were there stay, and so do those in which something else is now.
#[test]
fn folders_are_removed_by_whom_they_were_made() {
    let prefix = folder("folders");
    let prefix = prefix.path();
    fs::create_dir_all(prefix.join("include")).unwrap();
    for _ in 0..2 {
        install(prefix);
    }
    fs::write(prefix.join("bin/other"), "").unwrap();
    make(&["uninstall", &format!("PREFIX={}", prefix.display())]);
    let left = fs::read_dir(prefix).unwrap().map(|entry| entry.unwrap().file_name());
    let mut left: Vec<_> = left.collect();
    left.sort();
    assert_eq!(left, ["bin", "include"]);
}

/// What is installed for readers says what the program itself says, and its links lead somewhere.
#[test]
fn the_installed_documents() {
    let prefix = folder("documents");
    install(prefix.path());
    let share = prefix.path().join("share");
    let read = |name: &str| fs::read_to_string(share.join(name)).unwrap();
    let wegbaro = |word| printed(Command::new(prefix.path().join("bin/wegbaro")).arg(word));
    assert_eq!(read("man/man1/wegbaro.1"), wegbaro("--man"));
    assert_eq!(read("bash-completion/completions/wegbaro"), wegbaro("--completion"));
    let readme = read("doc/wegbaro/README.md");
    let links = readme.split("](").skip(1).filter_map(|rest| Some(rest.split_once(')')?.0));
    let links: Vec<&str> = links.filter(|link| !link.starts_with('#')).collect();
    assert!(links.contains(&"answers.schema.json"), "{links:?}");
    assert!(links.iter().all(|link| share.join("doc/wegbaro").join(link).exists()), "{links:?}");
}

/// `cargo doc` in the crate's folder writes to `target/` of the project alone.
#[test]
fn documents_of_the_crate_leave_nothing_behind() {
    let crate_folder = root().join("bindings/rust");
    let before = files(&crate_folder);
    let mut cargo = Command::new("cargo");
    run(cargo.args(["doc", "--offline", "--no-deps"]).current_dir(&crate_folder));
    assert_eq!(files(&crate_folder), before);
}

#[test]
fn with_pkg_config() {
    let (prefix, built) = (folder("prefix"), folder("built"));
    let prefix = prefix.path();
    install(prefix);
    assert_eq!(pkg_config(prefix, &["--modversion"]), [version()]);

    let shared = example(prefix, built.path(), &["--cflags", "--libs"], &[]);
    let fixed = example(prefix, built.path(), &["--cflags", "--libs", "--static"], &["-static"]);
    assert_eq!(printed(&mut with_shared(&shared, prefix)), printed_in_c());
    assert_eq!(printed(&mut Command::new(&fixed)), printed_in_c());

    // Without the installed library the one needs it, and the other does not.
    make(&["uninstall", &format!("PREFIX={}", prefix.display())]);
    assert!(!with_shared(&shared, prefix).output().unwrap().status.success());
    assert_eq!(printed(&mut Command::new(&fixed)), printed_in_c());
}

/// The library keeps its name as long as its calls stay as they are, and programs ask for that name.
#[test]
fn the_shared_name() {
    for (version, name) in [
        ("0.7.3", "libwegbaro.so.0.7"),
        ("0.12.0", "libwegbaro.so.0.12"),
        ("1.0.0", "libwegbaro.so.1"),
        ("10.4.1", "libwegbaro.so.10"),
    ] {
        assert_eq!(shared_name(version), name);
        let printed = make(&["-n", "install", "PREFIX=/usr", &format!("VERSION={version}")]);
        let link = format!("ln -sf libwegbaro.so.{version} /usr/lib/{name}");
        assert!(printed.lines().any(|line| line == link), "{link}:\n{printed}");
    }

    let (prefix, to) = (folder("name"), folder("asking"));
    install(prefix.path());
    let asking = example(prefix.path(), to.path(), &["--cflags", "--libs"], &[]);
    let needed = printed(Command::new("readelf").arg("-d").arg(&asking));
    assert!(needed.contains(&format!("[{}]", shared_name(&version()))), "{needed}");
}

/// Whether the README shows these lines, as code.
fn is_shown(lines: &str) -> bool {
    let readme = fs::read_to_string(root().join("README.md")).unwrap();
    let code: String = lines.lines().map(|line| format!("    {line}\n")).collect();
    readme.contains(&format!("\n\n{code}\n"))
}

#[test]
fn the_installed_programs() {
    let prefix = folder("programs");
    install(prefix.path());
    let input = fs::File::open(root().join("crates/gate/stdin")).unwrap();
    let mut gate = Command::new(prefix.path().join("bin/gate"));
    let answers = printed(gate.stdin(input));
    assert_eq!(answers, printed_of_k());
    assert!(is_shown(&answers), "README.md shows something else than\n{answers}");

    let wegbaro = || Command::new(prefix.path().join("bin/wegbaro"));
    let said = printed(wegbaro().arg("--version"));
    assert!(said.contains(&version()), "{said}");
    let k = root().join("examples/k/network.txt");
    let ran = wegbaro().arg("run").arg(&k).output().unwrap();
    let answers = String::from_utf8(ran.stdout).unwrap();
    assert!(is_shown(&answers), "README.md shows something else than\n{answers}");
    let states = ["0:1 in header 0", "1:2 out header 0"];
    let route = printed(wegbaro().arg("route").arg(&k).args(states));
    assert!(is_shown(&route), "README.md shows something else than\n{route}");
    let call = format!("wegbaro route examples/k/network.txt '{}' '{}'", states[0], states[1]);
    assert!(is_shown(&format!("target/rust/release/{call}")), "README.md has not {call}");
}

/// The symbols that `nm` prints, each with its letter.
fn symbols(words: &[&str], file: &Path) -> Vec<(String, String)> {
    let listed = printed(Command::new("nm").args(words).arg(file));
    let last_two = |line: &str| {
        let mut words = line.split_whitespace().rev();
        Some((words.next()?.to_owned(), words.next()?.to_owned()))
    };
    listed.lines().filter_map(last_two).collect()
}

#[test]
fn the_shared_object_exports_the_calls_and_its_version() {
    let prefix = folder("exports");
    install(prefix.path());
    let object = prefix.path().join("lib/libwegbaro.so");
    let exported = symbols(&["-D", "--defined-only"], &object);
    let names: Vec<&str> = exported.iter().map(|(name, _)| name.as_str()).collect();
    assert_eq!(names, ["wegbaro_check", "wegbaro_command", "wegbaro_route", "wegbaro_version"]);
}

/// Calls at the same time would share writable data, and a call of anything else could allocate.
#[test]
fn the_library_has_no_data_and_calls_nothing_that_has() {
    let library = library();
    let sizes = printed(Command::new("size").arg(&library));
    let parts: Vec<Vec<&str>> =
        sizes.lines().skip(1).map(|line| line.split_whitespace().collect()).collect();
    assert!(!parts.is_empty(), "{sizes}");
    assert!(parts.iter().all(|part| part[1..3] == ["0", "0"]), "data and bss:\n{sizes}");

    let called = symbols(&["--undefined-only"], &library);
    let known = |name: &str| ["memcpy", "memset", "memmove"].contains(&name);
    assert!(called.iter().all(|(name, _)| known(name)), "{called:?}");
}
