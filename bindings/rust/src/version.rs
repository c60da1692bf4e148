//! The version of the linked library, and the one that this crate is for.

use std::fmt;

extern "C" {
    fn wegbaro_version() -> u64;
}

/// The version of this crate, and of the library that belongs to it.
pub const VERSION: Version = Version {
    major: number(env!("CARGO_PKG_VERSION_MAJOR")),
    minor: number(env!("CARGO_PKG_VERSION_MINOR")),
    patch: number(env!("CARGO_PKG_VERSION_PATCH")),
};

/// A version of Wegbaro.
#[derive(Clone, Copy, Debug, PartialEq, Eq, PartialOrd, Ord, Hash)]
pub struct Version {
    /// The first number.
    pub major: u64,
    /// The second number.
    pub minor: u64,
    /// The third number.
    pub patch: u64,
}

impl Version {
    /// Whether a library of this version does all that one of the other version does: from one
    /// minor version to the next, records, calls or buffers can change.
    fn serves(self, other: Version) -> bool {
        [self.major, self.minor] == [other.major, other.minor] && self.patch >= other.patch
    }
}

impl fmt::Display for Version {
    fn fmt(&self, f: &mut fmt::Formatter<'_>) -> fmt::Result {
        write!(f, "{}.{}.{}", self.major, self.minor, self.patch)
    }
}

/// The version of the library that is linked.
pub fn library_version() -> Version {
    // SAFETY: the call takes nothing and only answers a number.
    let version = unsafe { wegbaro_version() };
    Version { major: version / 1_000_000, minor: version / 1_000 % 1_000, patch: version % 1_000 }
}

/// Panics if the library that is linked is not one for this crate.
pub(crate) fn expect_library() {
    let library = library_version();
    assert!(
        library.serves(VERSION),
        "the library that is linked is version {library}, and this crate is for version \
         {VERSION}: WEGBARO_LIB_DIR must name a folder with a libwegbaro.a of version {}.{}, not \
         older than the crate",
        VERSION.major,
        VERSION.minor
    );
}

const fn number(digits: &str) -> u64 {
    match u64::from_str_radix(digits, 10) {
        Ok(number) => number,
        Err(_) => panic!("cargo gives the parts of a version as numbers"),
    }
}
