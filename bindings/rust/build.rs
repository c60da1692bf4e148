//! Finds the static library: in the folder that `WEGBARO_LIB_DIR` names, or where
//! `packaging/staticlib` writes it.

use std::env;
use std::path::{Path, PathBuf};

const LIBRARY: &str = "libwegbaro.a";

fn main() {
    println!("cargo:rerun-if-env-changed=WEGBARO_LIB_DIR");
    let folder = named_folder().unwrap_or_else(built_folder);
    println!("cargo:rerun-if-changed={}", folder.join(LIBRARY).display());
    println!("cargo:rustc-link-search=native={}", folder.display());
}

/// The folder that `WEGBARO_LIB_DIR` names, if it is set and not empty. It must have the library.
fn named_folder() -> Option<PathBuf> {
    let named = PathBuf::from(env::var_os("WEGBARO_LIB_DIR")?);
    if named.as_os_str().is_empty() {
        return None;
    }
    let folder = from_the_caller(&named);
    assert!(
        folder.join(LIBRARY).exists(),
        "WEGBARO_LIB_DIR is `{}`, and there is no {}",
        named.display(),
        folder.join(LIBRARY).display()
    );
    Some(folder)
}

/// A path as its caller means it. Cargo runs this script in the folder of the crate, so a relative
/// path goes on from `PWD`, which a shell sets to the folder where cargo was called.
fn from_the_caller(path: &Path) -> PathBuf {
    if path.is_absolute() {
        return path.to_owned();
    }
    println!("cargo:rerun-if-env-changed=PWD");
    let here = env::var_os("PWD").expect("PWD is not set: WEGBARO_LIB_DIR must be a whole path");
    Path::new(&here).join(path)
}

/// Where `packaging/staticlib` writes the library. Without it the crate can still be checked and documented.
fn built_folder() -> PathBuf {
    let crate_folder = PathBuf::from(env::var_os("CARGO_MANIFEST_DIR").expect("cargo sets it"));
    let folder = crate_folder.join("../../target/staticlib");
    if !folder.join(LIBRARY).exists() {
        println!(
            "cargo:warning={} is not there: build it with `packaging/staticlib rt wegbaro`, or name \
             the folder that has it in WEGBARO_LIB_DIR",
            folder.join(LIBRARY).display()
        );
    }
    folder
}
