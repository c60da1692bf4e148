//! Standard input and output, and what happens if they are closed or full.

use crate::trouble::Trouble;
use std::io::{self, Read, Write};
use std::sync::atomic::{AtomicBool, Ordering};

/// Whether standard input and output were closed when the program started.
static CLOSED: [AtomicBool; 2] = [AtomicBool::new(false), AtomicBool::new(false)];

extern "C" {
    fn fcntl(file: i32, command: i32, ...) -> i32;
}

/// Before `main`, Rust opens `/dev/null` in place of what is closed; from then on an answer would
/// be lost there without an error. So this is run earlier.
extern "C" fn look() {
    const F_GETFD: i32 = 1;
    for (file, closed) in (0..).zip(&CLOSED) {
        // SAFETY: F_GETFD takes any number, changes nothing, and answers -1 if no file has it.
        closed.store(unsafe { fcntl(file, F_GETFD) } == -1, Ordering::Relaxed);
    }
}

#[used]
#[link_section = ".init_array"]
static LOOK: extern "C" fn() = look;

/// Standard input, unless it is closed.
pub fn input() -> Result<io::StdinLock<'static>, Trouble> {
    match CLOSED[0].load(Ordering::Relaxed) {
        true => Err(Trouble::failed("standard input is closed")),
        false => Ok(io::stdin().lock()),
    }
}

/// The most bytes that are read of a file or of standard input.
pub const MOST_BYTES: u64 = 64 << 20;

/// All of standard input. What it has, in words, is told if it is too much.
pub fn read_input(has: &str) -> Result<Vec<u8>, Trouble> {
    let read = read_whole(input()?);
    let read = read.map_err(|error| Trouble::failed(format!("standard input: {error}")))?;
    read.ok_or_else(|| too_much(has))
}

/// All that a reader has, unless it is too much.
pub fn read_whole(reader: impl Read) -> io::Result<Option<Vec<u8>>> {
    let mut bytes = vec![];
    reader.take(MOST_BYTES + 1).read_to_end(&mut bytes)?;
    Ok(Some(bytes).filter(|bytes| bytes.len() as u64 <= MOST_BYTES))
}

/// What has too much to be read.
pub fn too_much(has: &str) -> Trouble {
    Trouble::faulty(format!("{has} more than {} MiB", MOST_BYTES >> 20))
}

/// Writes to standard output at once.
pub fn write(bytes: &[u8]) -> Result<(), Trouble> {
    if CLOSED[1].load(Ordering::Relaxed) {
        return Err(Trouble::failed("standard output is closed"));
    }
    let mut output = io::stdout().lock();
    let written = output.write_all(bytes).and_then(|()| output.flush());
    written.map_err(|error| Trouble::failed(format!("writing to standard output: {error}")))
}

/// Writes to standard error. Where that fails, the exit status tells all that can be told.
pub fn say(message: &str) {
    let _ = io::stderr().write_all(message.as_bytes());
}
