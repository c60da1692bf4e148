//! Programs built and run by tests, in folders of their own.

use std::fs;
use std::path::{Path, PathBuf};
use std::process::{self, Command, Output};

/// The flags by which a C compiler accepts nothing doubtful.
pub const STRICT: [&str; 4] = ["-Wall", "-Wextra", "-Werror", "-pedantic"];

/// Builds a program of the project against a library, by a compiler and its flags.
pub fn compile(compiler: &[&str], source: &str, library: &Path, built: &Path) {
    let mut command = Command::new(compiler[0]);
    command.args(STRICT).arg("-I").arg(root().join("include")).args(&compiler[1..]);
    // The language that a flag may name is that of the source alone.
    command.arg(root().join(source)).args(["-x", "none"]).arg(library);
    run(command.arg("-o").arg(built));
}

/// The proved library.
pub fn library() -> PathBuf {
    root().join("target/staticlib/libwegbaro.a")
}

/// A library of another version in a new folder, which answers 0 to every call.
pub fn stub_library(folder: &Path, version: u64) -> PathBuf {
    fs::create_dir_all(folder).unwrap();
    let (object, library) = (folder.join("stub.o"), folder.join("libwegbaro.a"));
    let mut compiler = Command::new("cc");
    compiler.args(STRICT).args(["-std=c89", "-I"]).arg(root().join("include"));
    compiler.arg(format!("-DSTUB_VERSION={version}ul")).arg("-c");
    run(compiler.arg(root().join("tests/c/stub.c")).arg("-o").arg(&object));
    run(Command::new("ar").arg("rcs").arg(&library).arg(&object));
    library
}

/// The project's root.
pub fn root() -> PathBuf {
    Path::new(env!("CARGO_MANIFEST_DIR")).join("..").canonicalize().unwrap()
}

/// The project's version, from the file VERSION.
pub fn version() -> String {
    fs::read_to_string(root().join("VERSION")).unwrap().trim_end().to_owned()
}

/// The same as one number, as the library answers it.
pub fn version_number() -> u64 {
    let number = |part: &str| part.parse::<u64>().expect("three numbers");
    version().split('.').map(number).fold(0, |before, part| 1_000 * before + part)
}

/// What `gate` prints on network K and its two adds.
pub fn printed_of_k() -> String {
    fs::read_to_string(root().join("crates/gate/stdout")).unwrap()
}

/// What the example in C prints: the same, and a route.
pub fn printed_in_c() -> String {
    printed_of_k() + "route 2 20 10 28\n"
}

/// A new folder under the given one, removed with all that is in it when it goes out of scope.
pub struct Folder(PathBuf);

impl Folder {
    pub fn new(under: &str, name: &str) -> Folder {
        let path = Path::new(under).join(format!("{name}-{}", process::id()));
        fs::create_dir_all(&path).unwrap();
        Folder(path.canonicalize().unwrap())
    }

    pub fn path(&self) -> &Path {
        &self.0
    }
}

impl Drop for Folder {
    fn drop(&mut self) {
        // A folder that stays behind does no harm.
        let _ = fs::remove_dir_all(&self.0);
    }
}

/// Runs a command that must end well; what it wrote.
pub fn run(command: &mut Command) -> Output {
    let program = command.get_program().to_owned();
    let out = command.output().unwrap_or_else(|error| panic!("{program:?} must be there: {error}"));
    let said = String::from_utf8_lossy(&out.stderr);
    assert!(out.status.success(), "{command:?}: {}\n{said}", out.status);
    out
}

/// What a command that must end well wrote on standard output.
pub fn printed(command: &mut Command) -> String {
    String::from_utf8(run(command).stdout).unwrap()
}
