//! Optimises the circuit on standard input through the library for C, as `zxopt opt --best` does:
//!
//!     rustc -L FOLDER optimise.rs        # the folder of libzxopt.so, where that isn't the system's
//!     ./optimise < circuit.qasm

use std::fmt;
use std::io::{self, Read, Write};
use std::process::ExitCode;

/// What the C library tells besides its status: `zxopt_told` of `zxopt.h`.
#[repr(C)]
#[derive(Default)]
struct Told {
    length: usize,
    place: usize,
    fault: u8,
}

#[link(name = "zxopt")]
extern "C" {
    fn zxopt_optimise(
        best: bool,
        report: bool,
        scalar: bool,
        text: *const u8,
        text_length: usize,
        out: *mut u8,
        out_room: usize,
        told: *mut Told,
    ) -> u8;
}

const DONE: u8 = 0;
const REFUSED: u8 = 1;
const NO_ROOM: u8 = 8;

/// Why there is no circuit.
#[derive(Debug)]
enum Refusal {
    /// The number of the text's first fault, and its place in the text, from 0.
    Fault {
        number: u8,
        place: usize,
    },
    NoMemory,
}

impl fmt::Display for Refusal {
    fn fmt(&self, formatter: &mut fmt::Formatter<'_>) -> fmt::Result {
        match self {
            Refusal::Fault { number, place } => write!(formatter, "fault {number} at {place}"),
            Refusal::NoMemory => formatter.write_str("no memory"),
        }
    }
}

impl std::error::Error for Refusal {}

/// The text of a circuit with the same linear map up to a scalar, and no more T gates.
fn optimise(text: &[u8], best: bool) -> Result<Vec<u8>, Refusal> {
    let mut out = vec![0; 2 * text.len() + 4096];
    loop {
        let mut told = Told::default();
        // SAFETY: the pointers are those of three values that are apart, with their lengths, and none is null.
        let status = unsafe {
            zxopt_optimise(
                best,
                false,
                false,
                text.as_ptr(),
                text.len(),
                out.as_mut_ptr(),
                out.len(),
                &mut told,
            )
        };
        match status {
            DONE => {
                out.truncate(told.length);
                return Ok(out);
            }
            NO_ROOM => out.resize(told.length, 0),
            REFUSED => {
                return Err(Refusal::Fault {
                    number: told.fault,
                    place: told.place,
                });
            }
            _ => return Err(Refusal::NoMemory),
        }
    }
}

fn main() -> ExitCode {
    let mut text = Vec::new();
    let written = match io::stdin().read_to_end(&mut text) {
        Ok(_) => optimise(&text, true),
        Err(error) => {
            eprintln!("{error}");
            return ExitCode::FAILURE;
        }
    };
    match written {
        Ok(circuit) => match io::stdout().write_all(&circuit) {
            Ok(()) => ExitCode::SUCCESS,
            Err(_) => ExitCode::FAILURE,
        },
        Err(refusal) => {
            eprintln!("{refusal}");
            ExitCode::FAILURE
        }
    }
}
