//! `bumpalo`: an arena, here of bytes alone.

use crate::alloc::{AllocError, Global};
use std::cell::RefCell;

// How many bytes a chunk has room for, at least.
const CHUNK: usize = 4096;

/// Keeps copies until it goes itself.
pub struct Bump(RefCell<std::vec::Vec<std::vec::Vec<u8>>>);

impl Bump {
    /// An arena that took no memory yet.
    pub fn new(_: Global) -> Bump {
        Bump(RefCell::new(std::vec::Vec::new()))
    }

    /// A copy of these bytes, which stays as long as the arena.
    // each call hands other bytes out
    #[allow(clippy::mut_from_ref)]
    pub fn try_alloc_slice_copy(&self, text: &[u8]) -> Result<&mut [u8], AllocError> {
        let mut chunks = self.0.borrow_mut();
        if chunks
            .last()
            .is_none_or(|last| last.capacity() - last.len() < text.len())
        {
            let mut chunk = std::vec::Vec::new();
            chunk.try_reserve_exact(text.len().max(CHUNK))?;
            chunks.try_reserve(1)?;
            chunks.push(chunk);
        }
        let last = chunks.last_mut().expect("a chunk was put there");
        let start = last.len();
        last.extend_from_slice(text);
        // Sound: the chunk had room, so its bytes never move, and nobody else is handed these.
        Ok(unsafe { std::slice::from_raw_parts_mut(last.as_mut_ptr().add(start), text.len()) })
    }
}
