//! `smallvec`: up to N elements in the value, more in an allocation.

use crate::alloc::{AllocError, AllocFailed, Global};
use std::ops::{Deref, DerefMut};

/// A list that keeps up to N elements in itself.
#[derive(Debug)]
pub enum SmallVec<T, const N: usize> {
    /// The elements, in the first places.
    Inline { len: usize, values: [T; N] },
    /// The elements, in an allocation.
    Heap(std::vec::Vec<T>),
}

use SmallVec::{Heap, Inline};

impl<T: Copy + Default, const N: usize> SmallVec<T, N> {
    /// The list without elements, which takes no memory.
    pub fn new(_: Global) -> Self {
        Inline {
            len: 0,
            values: [T::default(); N],
        }
    }

    /// The list without elements, with room for so many.
    pub fn with_capacity(_: Global, room: usize) -> Result<Self, AllocError> {
        let mut list = Self::new(Global);
        list.reserve_exact(room)?;
        Ok(list)
    }

    /// The list of these elements.
    pub fn from_slice(_: Global, values: &[T]) -> Result<Self, AllocError> {
        let mut list = Self::with_capacity(Global, values.len())?;
        list.resize(values.len(), T::default())?;
        list.copy_from_slice(values);
        Ok(list)
    }

    /// The allocator.
    pub fn allocator(&self) -> &Global {
        &Global
    }
    /// How many elements there is memory for.
    pub fn capacity(&self) -> usize {
        match self {
            Inline { .. } => N,
            Heap(heap) => heap.capacity(),
        }
    }
    /// All elements.
    pub fn as_slice(&self) -> &[T] {
        self
    }
    /// All elements, to be changed.
    pub fn as_mut_slice(&mut self) -> &mut [T] {
        self
    }
    /// Lets all elements go, and keeps the memory.
    pub fn clear(&mut self) {
        self.truncate(0)
    }

    /// Keeps the first elements, so many at most.
    pub fn truncate(&mut self, count: usize) {
        match self {
            Inline { len, .. } => *len = count.min(*len),
            Heap(heap) => heap.truncate(count),
        }
    }

    /// Takes the memory for so many more elements, and for some beyond.
    pub fn reserve(&mut self, more: usize) -> Result<(), AllocError> {
        match self {
            Heap(heap) => Ok(heap.try_reserve(more)?),
            Inline { len, .. } if more > N - *len => self.reserve_exact(more.max(N)),
            Inline { .. } => Ok(()),
        }
    }

    /// Takes the memory for so many more elements.
    pub fn reserve_exact(&mut self, more: usize) -> Result<(), AllocError> {
        match self {
            Heap(heap) => heap.try_reserve_exact(more)?,
            Inline { len, values } if more > N - *len => {
                let mut heap = std::vec::Vec::new();
                heap.try_reserve_exact(len.checked_add(more).ok_or(AllocError)?)?;
                heap.extend_from_slice(&values[..*len]);
                *self = Heap(heap);
            }
            Inline { .. } => {}
        }
        Ok(())
    }

    /// Keeps so many elements, or adds copies of one at the end up to that number.
    pub fn resize(&mut self, count: usize, value: T) -> Result<(), AllocError> {
        self.reserve(count.saturating_sub(self.len()))?;
        match self {
            Inline { len, values } => {
                values[(*len).min(count)..count].fill(value);
                *len = count;
            }
            Heap(heap) => heap.resize(count, value),
        }
        Ok(())
    }

    /// Adds an element at the end.
    pub fn push(&mut self, value: T) -> Result<(), AllocFailed<T>> {
        self.resize(self.len() + 1, value)
            .map_err(|_| AllocFailed { value })
    }
}

impl<T, const N: usize> Deref for SmallVec<T, N> {
    type Target = [T];

    fn deref(&self) -> &[T] {
        match self {
            Inline { len, values } => &values[..*len],
            Heap(heap) => heap,
        }
    }
}

impl<T, const N: usize> DerefMut for SmallVec<T, N> {
    fn deref_mut(&mut self) -> &mut [T] {
        match self {
            Inline { len, values } => &mut values[..*len],
            Heap(heap) => heap,
        }
    }
}
