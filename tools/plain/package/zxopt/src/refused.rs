//! Why a text is refused.

use rattle::alloc::AllocError;
use std::collections::TryReserveError;
use std::error::Error;
use std::fmt;

/// Why there is no answer.
#[derive(Clone, Debug, PartialEq, Eq)]
pub enum Refused {
    /// The text has a fault, of which this is the first.
    Fault(Fault),
    /// Memory ran out.
    NoMemory,
}

/// A fault of a text.
#[derive(Clone, Debug, PartialEq, Eq)]
pub struct Fault {
    /// Its number, from 1 to 26.
    pub number: u8,
    /// Its name, such as `Unsupported`.
    pub name: String,
    /// Where it is, in bytes from 0; in the file of a diagram the number of the line, from 1. Some faults have no place.
    pub place: Option<usize>,
    /// Of two texts, whether it is in the second. A fault without a place may be in either.
    pub in_second: bool,
}

impl fmt::Display for Refused {
    fn fmt(&self, f: &mut fmt::Formatter) -> fmt::Result {
        match self {
            Refused::Fault(fault) => fault.fmt(f),
            Refused::NoMemory => write!(f, "no memory"),
        }
    }
}

impl fmt::Display for Fault {
    fn fmt(&self, f: &mut fmt::Formatter) -> fmt::Result {
        write!(f, "fault {} {}", self.number, self.name)?;
        match self.place {
            Some(place) => write!(f, " at {place}"),
            None => Ok(()),
        }
    }
}

impl Error for Refused {}

impl From<AllocError> for Refused {
    fn from(_: AllocError) -> Refused {
        Refused::NoMemory
    }
}

impl From<TryReserveError> for Refused {
    fn from(_: TryReserveError) -> Refused {
        Refused::NoMemory
    }
}

/// The fault that the program's line tells, such as `zxopt: fault 6 Unsupported at 25`.
pub(crate) fn fault_in(line: &str) -> Fault {
    let mut words = line.split_whitespace().skip(2);
    Fault {
        number: words
            .next()
            .and_then(|word| word.parse().ok())
            .unwrap_or_default(),
        name: words.next().unwrap_or_default().to_string(),
        place: words.nth(1).and_then(|word| word.parse().ok()),
        in_second: false,
    }
}

/// The refusal of one of two texts that were read as one, of which the second begins at this place.
pub(crate) fn refused_of_two(refused: Refused, second: usize) -> Refused {
    match refused {
        Refused::Fault(fault) => match fault.place {
            Some(place) if place >= second => Refused::Fault(Fault {
                place: Some(place - second),
                in_second: true,
                ..fault
            }),
            _ => Refused::Fault(fault),
        },
        Refused::NoMemory => Refused::NoMemory,
    }
}
