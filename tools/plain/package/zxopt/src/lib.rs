//! `zxopt` lowers the number of T gates in circuits of Clifford gates and phases of whole multiples of pi/8, written in
//! OpenQASM 2.0. It simplifies the circuit by the ZX-calculus.
//!
//! This is plain Rust, made from sources with a machine-checked proof. The proof is about those sources: this code is
//! tested against the proved program, and not proved.
//!
//! ```
//! use zxopt::{Effort, optimise};
//!
//! let text = "OPENQASM 2.0;\ninclude \"qelib1.inc\";\nqreg q[1];\nt q[0];\nt q[0];\n";
//! let better = optimise(text, Effort::Best)?;
//! assert_eq!(better.read.odd, 2);
//! assert_eq!(better.written.odd, 0);
//! assert!(better.text.ends_with("qreg q[1];\ns q[0];\n"));
//! # Ok::<(), zxopt::Refused>(())
//! ```
//!
//! Each call returns for every text. It takes memory as it needs it, and where there is none it answers
//! [`Refused::NoMemory`]; a few requests of Rust's own std for small texts abort instead. Calls keep nothing, and may be
//! made from several threads at once.

#[cfg(feature = "c")]
mod c;
mod command;
mod counts;
mod refused;

pub use counts::{GateCounts, Scalar};
pub use refused::{Fault, Refused};

use command::{Answer, answer, text_of};
use counts::{counts_in, scalar_in};
use refused::refused_of_two;

/// The sum of the sources that this was made from: SHA-256 of the sums of all their files.
pub const SOURCES: &str = "@SOURCES@";

// The line that parts two texts.
const PARTING_LINE: &str = "//// second";

/// How much is tried.
#[derive(Clone, Copy, Debug, PartialEq, Eq)]
pub enum Effort {
    /// One circuit is made, which may have more gates on two qubits than the read one.
    Plain,
    /// The best of up to five circuits is taken: the one with the fewest odd phases, then the fewest gates on two
    /// qubits, then the fewest gates.
    Best,
}

/// An optimised circuit.
#[derive(Clone, Debug, PartialEq, Eq)]
pub struct Optimised {
    /// The circuit, in OpenQASM 2.0.
    pub text: String,
    /// The gates of the read circuit.
    pub read: GateCounts,
    /// The gates of the optimised circuit.
    pub written: GateCounts,
    /// What the linear map of the read circuit is times that of the optimised one.
    pub scalar: Scalar,
}

/// What a diagram is compiled to.
#[derive(Clone, Debug, PartialEq, Eq)]
pub enum Compiled {
    /// The text of a circuit with the diagram's linear map, up to a nonzero scalar.
    Circuit(String),
    /// The diagram's graph-like form has no flow, as these vertices show.
    NoFlow(Vec<u64>),
}

/// A circuit with the same linear map up to a scalar, the same measurements behind it, and no more odd phases: T gates,
/// their square roots and their like.
///
/// # Errors
///
/// Where the text has a fault, and where memory runs out.
///
/// # Examples
///
/// ```
/// use zxopt::{Effort, Refused, optimise};
///
/// match optimise("OPENQASM 2.0;\nqreg q[1];\nreset q[0];\n", Effort::Plain) {
///     Err(Refused::Fault(fault)) => assert_eq!((fault.number, fault.place), (6, Some(25))),
///     answer => panic!("{answer:?}"),
/// }
/// ```
pub fn optimise(text: &str, effort: Effort) -> Result<Optimised, Refused> {
    let words: &[&str] = match effort {
        Effort::Plain => &["opt", "--report", "--scalar"],
        Effort::Best => &["opt", "--best", "--report", "--scalar"],
    };
    let mut text = text_of(answer(words, text.as_bytes()))?;
    let (scalar, written, read) = (
        last_line(&mut text),
        last_line(&mut text),
        last_line(&mut text),
    );
    Ok(Optimised {
        read: counts_in(&read),
        written: counts_in(&written),
        scalar: scalar_in(&scalar),
        text,
    })
}

/// The same circuit with other phases alone: those that belong together stand at the first of their gates, and all
/// other gates stay. It is lowered to the gates `h`, `x`, `cx` and phases.
///
/// # Errors
///
/// Where the text has a fault, and where memory runs out.
///
/// # Examples
///
/// ```
/// let text = "OPENQASM 2.0;\ninclude \"qelib1.inc\";\nqreg q[2];\nt q[0];\ncx q[0],q[1];\nt q[0];\n";
/// assert!(zxopt::teleport(text)?.ends_with("s q[0];\ncx q[0],q[1];\n"));
/// # Ok::<(), zxopt::Refused>(())
/// ```
pub fn teleport(text: &str) -> Result<String, Refused> {
    text_of(answer(&["teleport"], text.as_bytes()))
}

/// Whether it is shown that two circuits have one linear map up to a nonzero scalar, and the same measurements behind
/// it. `false` means that it isn't shown, and not that they differ.
///
/// # Errors
///
/// Where one of the texts has a fault, and where memory runs out.
///
/// # Examples
///
/// ```
/// let one = "OPENQASM 2.0;\ninclude \"qelib1.inc\";\nqreg q[1];\nt q[0];\nt q[0];\n";
/// let other = "OPENQASM 2.0;\ninclude \"qelib1.inc\";\nqreg q[1];\ns q[0];\n";
/// assert!(zxopt::same(one, other)?);
/// # Ok::<(), zxopt::Refused>(())
/// ```
pub fn same(one: &str, other: &str) -> Result<bool, Refused> {
    let mut text = without_parting(one)?;
    let behind = text.len();
    text.try_reserve_exact(other.len())?;
    text.push_str(other);
    match answer(&["same"], text.as_bytes()) {
        Ok(Answer::Done(_)) => Ok(true),
        Ok(Answer::No(_)) => Ok(false),
        Err(refused) => Err(refused_of_two(refused, behind)),
    }
}

/// A circuit for a diagram of Z and X spiders, in the format of `zxopt compile`.
///
/// # Errors
///
/// Where the file has a fault, and where memory runs out.
///
/// # Examples
///
/// ```
/// use zxopt::{Compiled, compile};
///
/// let phase = "zxd 2\nspider 0 Z 2\nspider 1 X 0\nedge 0 1 plain\ninput 0 plain\noutput 1 plain\nend\n";
/// assert!(matches!(compile(phase)?, Compiled::Circuit(text) if text.contains("t q[0];")));
///
/// let cut = "zxd 2\nspider 0 Z 0\nspider 1 Z 0\ninput 0 plain\noutput 1 plain\nend\n";
/// assert!(matches!(compile(cut)?, Compiled::NoFlow(_)));
/// # Ok::<(), zxopt::Refused>(())
/// ```
pub fn compile(diagram: &str) -> Result<Compiled, Refused> {
    match answer(&["compile"], diagram.as_bytes())? {
        Answer::Done(bytes) => Ok(Compiled::Circuit(command::text(bytes))),
        Answer::No(bytes) => {
            let said = command::text(bytes);
            Ok(Compiled::NoFlow(
                said.split_whitespace()
                    .filter_map(|word| word.parse().ok())
                    .collect(),
            ))
        }
    }
}

// Takes the last line off a text.
fn last_line(text: &mut String) -> String {
    let end = text
        .strip_suffix('\n')
        .unwrap_or(text)
        .rfind('\n')
        .map_or(0, |at| at + 1);
    text.split_off(end)
}

// The first of two texts with the parting line behind it. Where it has such a line itself, a comment, that is spelled
// otherwise.
fn without_parting(one: &str) -> Result<String, Refused> {
    let mut text = String::new();
    text.try_reserve_exact(one.len() + PARTING_LINE.len() + 2)?;
    for line in one.split_inclusive('\n') {
        let is_parting = line.strip_suffix('\n').unwrap_or(line) == PARTING_LINE;
        text.push_str(if is_parting { "//// Second\n" } else { line });
    }
    if !text.ends_with('\n') {
        text.push('\n');
    }
    text.push_str(PARTING_LINE);
    text.push('\n');
    Ok(text)
}
