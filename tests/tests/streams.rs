//! The program where its input pauses, is cut or closed, and where its output takes nothing.

use std::fs::{self, File, OpenOptions};
use std::io::{self, Seek, Write};
use std::os::fd::OwnedFd;
use std::os::unix::net::{UnixDatagram, UnixStream};
use std::os::unix::process::CommandExt;
use std::path::Path;
use std::process::{self, Command, Stdio};

use wegbaro_tests::gate::RECORD;
use wegbaro_tests::k;
use wegbaro_tests::library::{program, program_command};

/// What the program prints for K and its two adds, line by line.
const LINES: [&str; 3] = ["start holds\n", "1 blocked 0 3\n", "2 forwarded 21\n"];

/// How many records the network has.
const NETWORK: usize = 20;

/// All records up to the first command.
const UP_TO_FIRST_COMMAND: u64 = ((NETWORK + 1) * RECORD) as u64;

extern "C" {
    fn close(fd: i32) -> i32;
}

/// Network K and its two adds.
fn input() -> Vec<u8> {
    let mut records = k::k();
    records.extend([k::first_add(), k::second_add()]);
    records.concat()
}

/// The program with one of its descriptors closed.
fn with_closed(fd: i32) -> Command {
    let mut gate = program_command();
    // `close` may be called between fork and exec, and touches nothing of this process.
    unsafe {
        gate.pre_exec(move || match close(fd) {
            0 => Ok(()),
            _ => Err(io::Error::last_os_error()),
        });
    }
    gate
}

/// What the program prints where its input pauses after so many bytes, and a read would have to wait.
fn paused_after(bytes: usize) -> String {
    let (theirs, mut ours) = UnixStream::pair().unwrap();
    theirs.set_nonblocking(true).unwrap();
    ours.write_all(&input()[..bytes]).unwrap();
    let ran = program_command().stdin(OwnedFd::from(theirs)).output().unwrap();
    drop(ours);
    String::from_utf8(ran.stdout).unwrap()
}

/// How many bytes of K and its two adds the program reads from a file.
fn read_by(mut gate: Command, name: &str) -> u64 {
    let path = Path::new(env!("CARGO_TARGET_TMPDIR")).join(format!("{name}-{}", process::id()));
    fs::write(&path, input()).unwrap();
    let mut file = File::open(&path).unwrap();
    let ran = gate.stdin(file.try_clone().unwrap()).status().unwrap();
    fs::remove_file(&path).unwrap();
    assert!(ran.success(), "{ran}");
    file.stream_position().unwrap()
}

#[test]
fn a_pause_while_the_network_is_read() {
    for bytes in [0, 1, RECORD, 4 * RECORD, 4 * RECORD + 1, NETWORK * RECORD] {
        assert_eq!(paused_after(bytes), "", "a pause after {bytes} bytes");
    }
}

#[test]
fn a_pause_behind_a_command() {
    let first = (NETWORK + 1) * RECORD;
    for bytes in [first, first + 1, first + RECORD - 1] {
        assert_eq!(paused_after(bytes), LINES[..2].concat(), "a pause after {bytes} bytes");
    }
}

/// The same bytes, where the input ends and does not pause, are answered.
#[test]
fn an_end_is_no_pause() {
    let first = (NETWORK + 1) * RECORD;
    let ended = |bytes: usize| String::from_utf8(program(&input()[..bytes])).unwrap();
    assert_eq!(ended(0), "start refused 1 0\n");
    assert_eq!(ended(4 * RECORD + 1), "end short\n");
    assert_eq!(ended(NETWORK * RECORD), LINES[0]);
    assert_eq!(ended(first + 1), LINES[..2].concat() + "end short\n");
}

#[test]
fn a_closed_input() {
    let ran = with_closed(0).output().unwrap();
    assert!(ran.status.success(), "{}", ran.status);
    assert_eq!(String::from_utf8(ran.stdout).unwrap(), "");
}

#[test]
fn a_full_output_stops_the_program() {
    let full = OpenOptions::new().write(true).open("/dev/full").unwrap();
    let mut gate = program_command();
    gate.stdout(full);
    assert_eq!(read_by(gate, "full"), UP_TO_FIRST_COMMAND);
}

#[test]
fn a_closed_output_stops_the_program() {
    assert_eq!(read_by(with_closed(1), "closed"), UP_TO_FIRST_COMMAND);
}

/// An output that takes everything: the program reads its input to the end.
#[test]
fn an_open_output_does_not() {
    let mut gate = program_command();
    gate.stdout(Stdio::null());
    assert_eq!(read_by(gate, "open"), input().len() as u64);
}

/// A datagram socket keeps the writes apart.
#[test]
fn each_line_is_one_write() {
    let (theirs, ours) = UnixDatagram::pair().unwrap();
    let mut gate =
        program_command().stdin(Stdio::piped()).stdout(OwnedFd::from(theirs)).spawn().unwrap();
    gate.stdin.take().unwrap().write_all(&input()).unwrap();
    assert!(gate.wait().unwrap().success());
    ours.set_nonblocking(true).unwrap();
    let mut written = Vec::new();
    let mut line = [0; 128];
    while let Ok(length) = ours.recv(&mut line) {
        written.push(String::from_utf8(line[..length].to_vec()).unwrap());
    }
    assert_eq!(written, LINES);
}
