//! `wegbaro`: judges a ward's network and the commands to its switches.

use std::process::ExitCode;

fn main() -> ExitCode {
    let status = wegbaro_tools::program::run(std::env::args_os().skip(1));
    ExitCode::from(status as u8)
}
