//! What the `std` of Rattle has and Rust's hasn't: lists and texts whose memory may run out, which is an error and no
//! abort, and the handle of a program. Beside it stand ported crates, as much of each as is used.
//!
//! What takes memory is given `Global`, as in Rattle, and answers `AllocError` where there is none.

#[cfg(not(target_pointer_width = "64"))]
compile_error!("zxopt is for systems of 64 bits alone: its proof takes usize to have 64");

pub mod alloc;
pub mod arrayvec;
mod boxed;
pub mod bumpalo;
pub mod clap;
pub mod collections;
pub mod itoa;
pub mod rand_pcg;
mod runtime;
pub mod smallvec;
mod string;
pub mod sync;
pub mod test;
mod vec;

pub use boxed::Box;
pub use runtime::{HostRuntime, Stderr, Stdin, Stdout, env, process};
pub use string::String;
pub use vec::{TryCollect, Vec, strip_prefix};

use alloc::AllocError;

/// A copy, which takes memory.
pub trait Clone: Sized {
    /// The copy.
    fn clone(&self) -> Result<Self, AllocError>;
}

impl<T: Copy> Clone for T {
    fn clone(&self) -> Result<T, AllocError> {
        Ok(*self)
    }
}

pub mod marker {
    //! Kinds of sums.

    /// A kind of its own for each sum.
    pub struct Brand;

    impl crate::sync::ledger::Ledger for Brand {}
}

/// A text of these parts.
#[macro_export]
macro_rules! format {
    ($alloc:expr; $($part:tt)*) => { $crate::String::formatted($alloc, format_args!($($part)*)) };
}

/// A list of these values, or of so many copies of one.
#[macro_export]
macro_rules! vec {
    ($alloc:expr; $($value:expr),* $(,)?) => { $crate::Vec::from_array($alloc, [$($value),*]) };
    ($alloc:expr; $value:expr; $count:expr) => { $crate::Vec::filled($alloc, $value, $count) };
}
