//! The library that a program with this crate is linked with: that of the folder that
//! `WEGBARO_LIB_DIR` names, and of a version that the crate is for.

use std::fs;
use std::path::{Path, PathBuf};
use std::process::{Command, Output};
use wegbaro_tests::build::{root, stub_library, version, version_number, Folder};

/// Prints the version of the library, then what each call answers without a network, or that it
/// panics.
const PROGRAM: &str = r#"
fn main() {
    println!("{}", wegbaro::library_version());
    let calls: [fn() -> String; 3] = [
        || format!("{:?}", wegbaro::check(&[], 0, &mut [])),
        || format!("{:?}", wegbaro::command(&mut [], 0, &mut [], &[])),
        || format!("{:?}", wegbaro::route(&[], 0, &mut [], 0, 0, &mut [])),
    ];
    for call in calls {
        println!("{}", std::panic::catch_unwind(call).unwrap_or("panic".to_owned()));
    }
}
"#;

/// What a stub answers, and the proved library.
const STUB: &str = "Ok(Holds)\nOk(Forwarded { count: 0 })\nOk(Found { count: 0 })\n";
const PROVED: &str = "Err(Refusal { row: 1, place: 0 })\n";

/// A package with that program, and folders with libraries.
struct User(Folder);

impl User {
    fn new(name: &str) -> User {
        let user = User(Folder::new(env!("CARGO_TARGET_TMPDIR"), name));
        let wegbaro = root().join("bindings/rust");
        let manifest = format!(
            "[package]\nname = \"user\"\nedition = \"2021\"\n\n[workspace]\n\n\
             [dependencies]\nwegbaro = {{ path = {wegbaro:?} }}\n"
        );
        fs::create_dir(user.path("src")).unwrap();
        fs::write(user.path("Cargo.toml"), manifest).unwrap();
        fs::write(user.path("src/main.rs"), PROGRAM).unwrap();
        user
    }

    fn path(&self, name: &str) -> PathBuf {
        self.0.path().join(name)
    }

    /// A folder of this name, with a library of this version in its folder `lib`.
    fn with_stub(&self, name: &str, version: u64) -> PathBuf {
        stub_library(&self.path(name).join("lib"), version);
        self.path(name)
    }

    /// Builds and runs the program.
    fn run_in(&self, folder: &Path, lib_dir: &str) -> Output {
        self.cargo_in(folder, lib_dir).output().unwrap()
    }

    /// Cargo that builds and runs the program, called in a folder as by a shell there.
    fn cargo_in(&self, folder: &Path, lib_dir: &str) -> Command {
        let mut cargo = Command::new("cargo");
        cargo.args(["run", "--quiet", "--offline", "--manifest-path"]);
        cargo.arg(self.path("Cargo.toml")).env("CARGO_TARGET_DIR", self.path("target"));
        cargo.current_dir(folder).env("PWD", folder).env("WEGBARO_LIB_DIR", lib_dir);
        cargo
    }
}

/// What the program printed, if it could be built.
fn printed(ran: &Output) -> String {
    assert!(ran.status.success(), "{}", said(ran));
    String::from_utf8(ran.stdout.clone()).unwrap()
}

/// What was said on standard error.
fn said(ran: &Output) -> String {
    String::from_utf8(ran.stderr.clone()).unwrap()
}

/// A version by its number.
fn text(number: u64) -> String {
    format!("{}.{}.{}", number / 1_000_000, number / 1_000 % 1_000, number % 1_000)
}

#[test]
fn the_folder_that_is_named() {
    let user = User::new("named");
    let this = user.with_stub("this", version_number());
    let next = user.with_stub("next", version_number() + 1);
    let told = |folder: &Path, lib_dir: &str| printed(&user.run_in(folder, lib_dir));
    let [of_this, of_next] =
        [0, 1].map(|patches| format!("{}\n{STUB}", text(version_number() + patches)));

    assert_eq!(told(&this, next.join("lib").to_str().unwrap()), of_next);
    assert_eq!(told(&this, "lib"), of_this);
    assert_eq!(told(&next, "lib"), of_next);
    assert_eq!(told(&next, "../this/lib"), of_this);
    assert_eq!(told(&this, ""), format!("{}\n{}", version(), PROVED.repeat(3)));
}

#[test]
fn a_folder_without_the_library() {
    let user = User::new("without");
    let ran = user.run_in(&user.path("src"), "lib");
    let whole = user.path("src/lib/libwegbaro.a");
    let wrong = format!("WEGBARO_LIB_DIR is `lib`, and there is no {}", whole.display());
    assert!(!ran.status.success() && said(&ran).contains(&wrong), "{}", said(&ran));

    let ran = user.cargo_in(&user.path("src"), "lib").env_remove("PWD").output().unwrap();
    let wrong = "WEGBARO_LIB_DIR must be a whole path";
    assert!(!ran.status.success() && said(&ran).contains(wrong), "{}", said(&ran));
}

/// Another minor version is another library, and an older one may lack something.
#[test]
fn versions_that_the_crate_is_not_for() {
    let user = User::new("versions");
    for other in [version_number() + 1_000, version_number() + 1_000_000, version_number() - 1] {
        let ran = user.run_in(&user.with_stub(&other.to_string(), other), "lib");
        assert_eq!(printed(&ran), format!("{}\npanic\npanic\npanic\n", text(other)));
        let wrong =
            format!("is version {}, and this crate is for version {}", text(other), version());
        assert_eq!(said(&ran).matches(&wrong).count(), 3, "{}", said(&ran));
    }
}
