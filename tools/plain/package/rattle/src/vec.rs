//! A list whose memory may run out. It lends its elements as a slice, so no call of Rust's own list that would abort
//! where memory runs out is at hand.

use crate::Clone;
use crate::alloc::{AllocError, AllocFailed, Global};
use std::ops::{Deref, DerefMut};
use std::slice::{Iter, IterMut};

/// A list.
#[derive(Debug, PartialEq, Eq)]
pub struct Vec<T>(pub(crate) std::vec::Vec<T>);

impl<T> Vec<T> {
    /// The list without elements, which takes no memory.
    pub fn new(_: Global) -> Vec<T> {
        Vec(std::vec::Vec::new())
    }

    /// The list without elements, with room for so many.
    pub fn with_capacity(_: Global, room: usize) -> Result<Vec<T>, AllocError> {
        let mut list = std::vec::Vec::new();
        list.try_reserve_exact(room)?;
        Ok(Vec(list))
    }

    /// The list of these elements.
    pub fn from_array<const N: usize>(_: Global, values: [T; N]) -> Result<Vec<T>, AllocError> {
        let mut list = Vec::with_capacity(Global, N)?;
        list.0.extend(values);
        Ok(list)
    }

    /// The same elements in Rust's own list.
    pub fn into_inner(self) -> std::vec::Vec<T> {
        self.0
    }

    /// The allocator.
    pub fn allocator(&self) -> &Global {
        &Global
    }
    /// All elements.
    pub fn as_slice(&self) -> &[T] {
        self
    }

    /// All elements, to be changed.
    pub fn as_mut_slice(&mut self) -> &mut [T] {
        self
    }

    /// For how many elements there is memory.
    pub fn capacity(&self) -> usize {
        self.0.capacity()
    }

    /// Lets all elements go, and keeps the memory.
    pub fn clear(&mut self) {
        self.0.clear()
    }

    /// Takes the last element out.
    pub fn pop(&mut self) -> Option<T> {
        self.0.pop()
    }

    /// Takes the element at a place out.
    pub fn remove(&mut self, place: usize) -> T {
        self.0.remove(place)
    }

    /// Takes the element at a place out, and puts the last one there.
    pub fn swap_remove(&mut self, place: usize) -> T {
        self.0.swap_remove(place)
    }

    /// Keeps the elements of which this holds.
    pub fn retain(&mut self, is_kept: impl FnMut(&T) -> bool) {
        self.0.retain(is_kept)
    }

    /// Keeps the first elements, so many at most.
    pub fn truncate(&mut self, count: usize) {
        self.0.truncate(count)
    }
    /// Takes the memory for so many more elements.
    pub fn reserve(&mut self, more: usize) -> Result<(), AllocError> {
        Ok(self.0.try_reserve(more)?)
    }

    /// Adds an element at the end.
    pub fn push(&mut self, value: T) -> Result<(), AllocFailed<T>> {
        if self.0.len() == self.0.capacity() && self.0.try_reserve(1).is_err() {
            return Err(AllocFailed { value });
        }
        self.0.push(value);
        Ok(())
    }

    /// Puts an element at a place, before the one that stands there.
    pub fn insert(&mut self, place: usize, value: T) -> Result<(), AllocFailed<T>> {
        if self.0.try_reserve(1).is_err() {
            return Err(AllocFailed { value });
        }
        self.0.insert(place, value);
        Ok(())
    }
}

impl<T: PartialEq> Vec<T> {
    /// Keeps the first of equal elements that stand side by side.
    pub fn dedup(&mut self) {
        self.0.dedup()
    }
}

impl<T: Copy> Vec<T> {
    /// The list of these elements.
    pub fn from_slice(_: Global, values: &[T]) -> Result<Vec<T>, AllocError> {
        let mut list = Vec::with_capacity(Global, values.len())?;
        list.0.extend_from_slice(values);
        Ok(list)
    }

    /// So many copies of one element.
    pub fn filled(_: Global, value: T, count: usize) -> Result<Vec<T>, AllocError> {
        let mut list = Vec::with_capacity(Global, count)?;
        list.0.resize(count, value);
        Ok(list)
    }

    /// Adds elements at the end.
    pub fn extend_from_slice(&mut self, values: &[T]) -> Result<(), AllocError> {
        self.0.try_reserve(values.len())?;
        self.0.extend_from_slice(values);
        Ok(())
    }

    /// Keeps so many elements, or adds copies of one at the end up to that number.
    pub fn resize(&mut self, count: usize, value: T) -> Result<(), AllocError> {
        self.0.try_reserve(count.saturating_sub(self.0.len()))?;
        self.0.resize(count, value);
        Ok(())
    }
}

impl<T: Clone> Clone for Vec<T> {
    fn clone(&self) -> Result<Vec<T>, AllocError> {
        let mut list = Vec::with_capacity(Global, self.0.len())?;
        for value in &self.0 {
            list.0.push(value.clone()?);
        }
        Ok(list)
    }
}

impl<T> Deref for Vec<T> {
    type Target = [T];

    fn deref(&self) -> &[T] {
        &self.0
    }
}

impl<T> DerefMut for Vec<T> {
    fn deref_mut(&mut self) -> &mut [T] {
        &mut self.0
    }
}

impl<T> IntoIterator for Vec<T> {
    type Item = T;
    type IntoIter = std::vec::IntoIter<T>;

    fn into_iter(self) -> Self::IntoIter {
        self.0.into_iter()
    }
}

impl<'a, T> IntoIterator for &'a Vec<T> {
    type Item = &'a T;
    type IntoIter = Iter<'a, T>;

    fn into_iter(self) -> Iter<'a, T> {
        self.0.iter()
    }
}

impl<'a, T> IntoIterator for &'a mut Vec<T> {
    type Item = &'a mut T;
    type IntoIter = IterMut<'a, T>;

    fn into_iter(self) -> IterMut<'a, T> {
        self.0.iter_mut()
    }
}

impl std::io::Write for Vec<u8> {
    fn write(&mut self, piece: &[u8]) -> std::io::Result<usize> {
        self.0.try_reserve(piece.len())?;
        self.0.write(piece)
    }

    fn flush(&mut self) -> std::io::Result<()> {
        Ok(())
    }
}

/// Lists of what an iterator gives and of what a slice holds.
pub trait TryCollect {
    /// The list of all that an iterator gives.
    fn try_collect(self, _: Global) -> Result<Vec<Self::Item>, AllocError>
    where
        Self: Iterator + Sized,
    {
        let mut list = Vec::with_capacity(Global, self.size_hint().0)?;
        for value in self {
            list.push(value)?;
        }
        Ok(list)
    }

    /// The list of the elements of a slice.
    fn try_to_vec<T: Copy>(&self, _: Global) -> Result<Vec<T>, AllocError>
    where
        Self: AsRef<[T]>,
    {
        Vec::from_slice(Global, self.as_ref())
    }
}

impl<I: ?Sized> TryCollect for I {}

/// The elements behind this prefix, if the list begins with it. Rust's own method takes no reference to a reference.
pub fn strip_prefix<'a, T: PartialEq>(list: &'a [T], prefix: &[T]) -> Option<&'a [T]> {
    list.strip_prefix(prefix)
}
