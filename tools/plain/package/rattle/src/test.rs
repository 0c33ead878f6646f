//! How tests end.

use crate::alloc::AllocFailed;
use std::boxed::Box;
use std::error::Error;

/// Why a test didn't come to its end.
#[derive(Debug)]
pub struct Fail(pub Box<dyn Error>);

impl Fail {
    /// A reason in words.
    pub fn new(why: &str) -> Fail {
        Fail(why.into())
    }
}

impl<E: Into<Box<dyn Error>>> From<E> for Fail {
    fn from(error: E) -> Fail {
        Fail(error.into())
    }
}

impl<T> From<AllocFailed<T>> for Fail {
    fn from(_: AllocFailed<T>) -> Fail {
        Fail::new("no memory")
    }
}
