//! A text whose memory may run out.

use crate::Vec;
use crate::alloc::{AllocError, Global};
use std::fmt;
use std::ops::Deref;

/// A text.
pub struct String(pub(crate) std::string::String);

impl String {
    /// The text as a slice.
    pub fn as_str(&self) -> &str {
        self
    }

    /// Its bytes.
    pub fn into_bytes(self) -> Vec<u8> {
        Vec(self.0.into_bytes())
    }

    /// The text of these arguments.
    pub fn formatted(_: Global, parts: fmt::Arguments<'_>) -> Result<String, AllocError> {
        let mut text = String(std::string::String::new());
        fmt::write(&mut text, parts).map_err(|_| AllocError)?;
        Ok(text)
    }
}

impl Deref for String {
    type Target = str;

    fn deref(&self) -> &str {
        &self.0
    }
}

impl fmt::Write for String {
    fn write_str(&mut self, more: &str) -> fmt::Result {
        self.0.try_reserve(more.len()).map_err(|_| fmt::Error)?;
        self.0.push_str(more);
        Ok(())
    }
}
