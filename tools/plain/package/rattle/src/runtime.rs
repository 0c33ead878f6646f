//! The handle of a program: its memory, its words and its streams.

use crate::alloc::Global;
use std::io::{self, Read, Write};

/// The handle of a program.
#[derive(Default)]
pub struct HostRuntime {
    closed: [bool; 3],
}

impl HostRuntime {
    /// The handle of a program whose streams were open when it began.
    pub fn new() -> HostRuntime {
        HostRuntime::default()
    }

    /// The handle of a program, and which of the standard streams 0, 1 and 2 were closed when it began. Rust opens
    /// `/dev/null` in their places before `main`.
    pub fn with_closed(closed: [bool; 3]) -> HostRuntime {
        HostRuntime { closed }
    }

    /// The allocator.
    pub fn alloc(&self) -> Global {
        Global
    }

    /// Standard input.
    pub fn stdin(&self) -> Stdin {
        Stdin(Stream::new(self.closed[0], io::stdin()))
    }

    /// Standard output.
    pub fn stdout(&self) -> Stdout {
        Stdout(Stream::new(self.closed[1], io::stdout()))
    }

    /// Standard error.
    pub fn stderr(&self) -> Stderr {
        Stderr(Stream::new(self.closed[2], io::stderr()))
    }
}

// A stream, if it was open when the program began.
struct Stream<S>(Option<S>);

impl<S> Stream<S> {
    fn new(closed: bool, stream: S) -> Stream<S> {
        Stream((!closed).then_some(stream))
    }

    fn get(&mut self) -> io::Result<&mut S> {
        self.0.as_mut().ok_or(io::ErrorKind::NotConnected.into())
    }
}

/// Standard input. Reads fail where it was closed when the program began.
pub struct Stdin(Stream<io::Stdin>);

impl Read for Stdin {
    fn read(&mut self, buffer: &mut [u8]) -> io::Result<usize> {
        self.0.get()?.read(buffer)
    }
}

macro_rules! output {
    ($name:ident, $meaning:literal) => {
        #[doc = $meaning]
        pub struct $name(Stream<io::$name>);

        impl Write for $name {
            fn write(&mut self, piece: &[u8]) -> io::Result<usize> {
                self.0.get()?.write(piece)
            }

            fn flush(&mut self) -> io::Result<()> {
                self.0.get()?.flush()
            }
        }
    };
}

output!(
    Stdout,
    "Standard output. Writes fail where it was closed when the program began."
);
output!(
    Stderr,
    "Standard error. Writes fail where it was closed when the program began."
);

pub mod env {
    //! The words of the command line.

    use crate::{HostRuntime, String};
    use std::io;

    /// The words of the command line. One that isn't UTF-8 is an error.
    pub fn args(_: &HostRuntime) -> io::Result<impl Iterator<Item = String>> {
        let mut words = std::vec::Vec::new();
        for word in std::env::args_os() {
            words.try_reserve(1)?;
            words.push(String(
                word.into_string().map_err(|_| io::ErrorKind::InvalidData)?,
            ));
        }
        Ok(words.into_iter())
    }
}

pub mod process {
    //! What may stop a program.

    /// What may stop the program, as a test may.
    pub trait Abort {}

    impl Abort for crate::HostRuntime {}
}
