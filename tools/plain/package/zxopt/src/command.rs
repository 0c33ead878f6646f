//! The program's commands over texts in memory.

use crate::refused::{Refused, fault_in};
use rattle::alloc::Global;
use zx_io::{ReadAdapter, WriteAdapter};
use zx_run::{Status, report};

/// What a command writes.
pub(crate) enum Answer {
    /// It did what it is for.
    Done(Vec<u8>),
    /// It says no, and why.
    No(Vec<u8>),
}

/// What the command that these words give writes for a text.
pub(crate) fn answer(words: &[&str], text: &[u8]) -> Result<Answer, Refused> {
    let mut written = rattle::Vec::new(Global);
    let status = zx_run::answer(
        Global,
        words,
        &mut ReadAdapter::new(text),
        &mut WriteAdapter::new(&mut written),
    );
    match status {
        Status::Done => Ok(Answer::Done(written.into_inner())),
        Status::No => Ok(Answer::No(written.into_inner())),
        Status::Refused(_) => Err(Refused::Fault(fault_in(&line_of(status)?))),
        // nothing else fails in memory
        Status::NoMemory | Status::WriteFault => Err(Refused::NoMemory),
        Status::Usage | Status::ReadFault => {
            unreachable!("the words are a command, and reads don't fail")
        }
    }
}

/// The text that a command writes that never says no.
pub(crate) fn text_of(answer: Result<Answer, Refused>) -> Result<String, Refused> {
    match answer? {
        Answer::Done(bytes) | Answer::No(bytes) => Ok(text(bytes)),
    }
}

/// The text of what was written, which is ASCII.
pub(crate) fn text(bytes: Vec<u8>) -> String {
    String::from_utf8(bytes).expect("all that is written is text")
}

// The line that the program would write to its error output.
fn line_of(status: Status) -> Result<String, Refused> {
    let mut line = rattle::Vec::new(Global);
    line.reserve(128)?;
    report(status, &mut WriteAdapter::new(&mut line));
    Ok(text(line.into_inner()))
}
