//! `arrayvec`: a text of at most N bytes.

/// A text of at most N bytes.
pub struct ArrayString<const N: usize> {
    bytes: [u8; N],
    len: usize,
}

impl<const N: usize> Default for ArrayString<N> {
    fn default() -> Self {
        ArrayString {
            bytes: [0; N],
            len: 0,
        }
    }
}

impl<const N: usize> ArrayString<N> {
    /// The empty text.
    pub fn new() -> Self {
        Self::default()
    }

    /// Adds a text. It panics where there is no room for it.
    pub fn push_str(&mut self, text: &str) {
        self.bytes[self.len..self.len + text.len()].copy_from_slice(text.as_bytes());
        self.len += text.len();
    }

    /// The text.
    pub fn as_str(&self) -> &str {
        std::str::from_utf8(&self.bytes[..self.len]).expect("it is made of texts")
    }
}
