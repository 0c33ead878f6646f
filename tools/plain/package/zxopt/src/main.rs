//! The command `zxopt`: the program that is made from the proved sources, and besides `--version`.

mod closed;
mod program;

use rattle::HostRuntime;
use std::io::{Write, stdout};
use std::process::ExitCode;

// The status where a write fails.
const WRITE_FAULT: u8 = 4;

fn main() -> ExitCode {
    if std::env::args_os().skip(1).eq(["--version"]) {
        return tell_version();
    }
    program::main(HostRuntime::with_closed(closed::at_start()))
}

// Tells the version, and the sources that this was made from.
fn tell_version() -> ExitCode {
    let version = env!("CARGO_PKG_VERSION");
    match writeln!(
        stdout(),
        "zxopt {version}, plain Rust of the sources {}",
        zxopt::SOURCES
    ) {
        Ok(()) => ExitCode::SUCCESS,
        Err(_) => ExitCode::from(WRITE_FAULT),
    }
}
