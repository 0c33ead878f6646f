//! A map whose memory may run out.

use crate::alloc::{AllocError, Global};
use std::collections::HashMap;
use std::hash::Hash;

/// A map that nobody goes over in order. It is a `HashMap`, since Rust's `BTreeMap` aborts where memory runs out.
pub struct BTreeMap<K, V>(HashMap<K, V>);

impl<K: Eq + Hash, V> BTreeMap<K, V> {
    /// The map without keys.
    pub fn new(_: Global) -> BTreeMap<K, V> {
        BTreeMap(HashMap::new())
    }

    /// The value of a key.
    pub fn get(&self, key: &K) -> Option<&V> {
        self.0.get(key)
    }

    /// Gives a key a value, and answers the one that it had.
    pub fn insert(&mut self, key: K, value: V) -> Result<Option<V>, AllocError> {
        self.0.try_reserve(1)?;
        Ok(self.0.insert(key, value))
    }
}
