//! A value in an allocation of its own.

use crate::alloc::{AllocError, Global};
use std::ops::Deref;

/// A value in an allocation of its own: a list of one, since Rust's `Box` aborts where memory runs out.
#[derive(Debug)]
pub struct Box<T>(std::vec::Vec<T>);

impl<T> Box<T> {
    /// Keeps a value.
    pub fn new(_: Global, value: T) -> Result<Box<T>, AllocError> {
        let mut one = std::vec::Vec::new();
        one.try_reserve_exact(1)?;
        one.push(value);
        Ok(Box(one))
    }
}

impl<T> Deref for Box<T> {
    type Target = T;

    fn deref(&self) -> &T {
        &self.0[0]
    }
}
