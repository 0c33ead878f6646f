//! The calls for C, one for each command but `gen`.
//!
//! A call reads `text_length` bytes at `text`, and writes what the command writes to the `out_room` bytes at `out`, if
//! they suffice. `told` gets how many bytes that are, and the fault of a text that is refused. The status is that of the
//! program, or [`NO_ROOM`]. Nothing is kept between calls, and several threads may call at once.
//!
//! ```c
//! typedef struct { size_t length, place; uint8_t fault; } zxopt_told;
//! uint8_t zxopt_optimise(bool best, bool report, bool scalar, const uint8_t *text, size_t text_length,
//!                        uint8_t *out, size_t out_room, zxopt_told *told);
//! uint8_t zxopt_teleport(const uint8_t *text, size_t text_length, uint8_t *out, size_t out_room, zxopt_told *told);
//! uint32_t zxopt_version(void);
//! ```
//!
//! `zxopt_same`, `zxopt_compile`, `zxopt_reduce`, `zxopt_flow` and `zxopt_graph` are as `zxopt_teleport` is.

use crate::command::{Answer, answer};
use crate::refused::Refused;
use std::ptr;

const DONE: u8 = 0;
const REFUSED: u8 = 1;
const NO_MEMORY: u8 = 5;
const NO: u8 = 6;
/// The status where what is written has no room. `out` is as it was.
const NO_ROOM: u8 = 8;

/// What a call tells beside its status.
#[repr(C)]
#[derive(Default)]
pub struct Told {
    /// How many bytes the command writes, also where there was no room for them.
    length: usize,
    /// Where the fault is: a place in the text from 0, or the number of a line from 1.
    place: usize,
    /// The number of the fault, or 0.
    fault: u8,
}

/// The version of the library, 10,000 * major + 100 * minor + patch.
#[unsafe(no_mangle)]
pub extern "C" fn zxopt_version() -> u32 {
    let numbers = env!("CARGO_PKG_VERSION").split('.');
    numbers
        .filter_map(|number| number.parse::<u32>().ok())
        .fold(0, |version, number| version * 100 + number)
}

/// Optimises a circuit: `zxopt opt` with these flags.
///
/// # Safety
///
/// `text` and `out` have so many bytes, `told` is valid, and they don't overlap.
#[unsafe(no_mangle)]
pub unsafe extern "C" fn zxopt_optimise(
    best: bool,
    report: bool,
    scalar: bool,
    text: *const u8,
    text_length: usize,
    out: *mut u8,
    out_room: usize,
    told: *mut Told,
) -> u8 {
    let flags = [(best, "--best"), (report, "--report"), (scalar, "--scalar")];
    let mut words = ["opt"; 4];
    let mut count = 1;
    for (_, flag) in flags.iter().filter(|(wanted, _)| *wanted) {
        words[count] = flag;
        count += 1;
    }
    unsafe { call(&words[..count], (text, text_length), (out, out_room), told) }
}

macro_rules! command {
    ($name:ident, $word:literal, $meaning:literal) => {
        #[doc = $meaning]
        ///
        /// # Safety
        ///
        /// `text` and `out` have so many bytes, `told` is valid, and they don't overlap.
        #[unsafe(no_mangle)]
        pub unsafe extern "C" fn $name(
            text: *const u8,
            text_length: usize,
            out: *mut u8,
            out_room: usize,
            told: *mut Told,
        ) -> u8 {
            unsafe { call(&[$word], (text, text_length), (out, out_room), told) }
        }
    };
}

command!(
    zxopt_teleport,
    "teleport",
    "Changes phases alone: `zxopt teleport`."
);
command!(zxopt_same, "same", "Compares two circuits: `zxopt same`.");
command!(
    zxopt_compile,
    "compile",
    "Finds a circuit for a diagram: `zxopt compile`."
);
command!(
    zxopt_reduce,
    "reduce",
    "Simplifies a graph along its flow: `zxopt reduce`."
);
command!(
    zxopt_flow,
    "flow",
    "Tells whether a table is a flow: `zxopt flow`."
);
command!(
    zxopt_graph,
    "graph",
    "Writes the graph-like form of a diagram: `zxopt graph`."
);

// What these words write for the text, into `out` where it has room.
//
// Safety: each pointer has as many bytes behind it as are told, `told` is valid, and they don't overlap.
unsafe fn call(
    words: &[&str],
    (text, text_length): (*const u8, usize),
    (out, out_room): (*mut u8, usize),
    told: *mut Told,
) -> u8 {
    let text = match text_length {
        0 => &[],
        _ => unsafe { std::slice::from_raw_parts(text, text_length) },
    };
    let (status, written, tale) = match answer(words, text) {
        Ok(Answer::Done(bytes)) => (DONE, bytes, Told::default()),
        Ok(Answer::No(bytes)) => (NO, bytes, Told::default()),
        Err(refused) => told_of(refused),
    };
    let length = written.len();
    unsafe { told.write(Told { length, ..tale }) };
    if length > out_room {
        return NO_ROOM;
    }
    if length > 0 {
        unsafe { ptr::copy_nonoverlapping(written.as_ptr(), out, length) };
    }
    status
}

// The status of a refusal, with nothing written, and what is told of it.
fn told_of(refused: Refused) -> (u8, Vec<u8>, Told) {
    match refused {
        Refused::Fault(fault) => {
            let told = Told {
                length: 0,
                place: fault.place.unwrap_or(0),
                fault: fault.number,
            };
            (REFUSED, Vec::new(), told)
        }
        Refused::NoMemory => (NO_MEMORY, Vec::new(), Told::default()),
    }
}
