//! Stand-in for `smallvec`: a vector whose first few items need no allocation.
//!
//! Only what the published sources and this workspace use, and for `Copy` items alone, which spares every `unsafe`.

use std::fmt;
use std::ops::{Deref, DerefMut};

/// The inline room of a [`SmallVec`], written as an array type: `SmallVec<[usize; 2]>`.
pub trait Array: Copy {
    /// What the vector holds.
    type Item: Copy + Default;
    /// How many items need no allocation.
    const CAPACITY: usize;
    /// Room without meaning yet.
    fn room() -> Self;
    /// The room as a slice.
    fn items(&self) -> &[Self::Item];
    /// The room as a slice to write to.
    fn items_mut(&mut self) -> &mut [Self::Item];
}

impl<T: Copy + Default, const N: usize> Array for [T; N] {
    type Item = T;
    const CAPACITY: usize = N;

    fn room() -> Self {
        [T::default(); N]
    }

    fn items(&self) -> &[T] {
        self
    }

    fn items_mut(&mut self) -> &mut [T] {
        self
    }
}

#[derive(Clone)]
enum Items<A: Array> {
    Inline(A, usize),
    Heap(Vec<A::Item>),
}

/// A vector that allocates only beyond its inline room.
#[derive(Clone)]
pub struct SmallVec<A: Array> {
    items: Items<A>,
}

impl<A: Array> SmallVec<A> {
    /// An empty vector.
    #[must_use]
    pub fn new() -> Self {
        Self { items: Items::Inline(A::room(), 0) }
    }

    /// Append an item.
    #[inline]
    pub fn push(&mut self, item: A::Item) {
        match &mut self.items {
            Items::Inline(room, len) if *len < A::CAPACITY => {
                room.items_mut()[*len] = item;
                *len += 1;
            }
            Items::Inline(room, len) => {
                let mut heap = Vec::with_capacity(2 * A::CAPACITY + 2);
                heap.extend_from_slice(&room.items()[..*len]);
                heap.push(item);
                self.items = Items::Heap(heap);
            }
            Items::Heap(heap) => heap.push(item),
        }
    }

    /// Put an item before the one at `index`.
    pub fn insert(&mut self, index: usize, item: A::Item) {
        self.push(item);
        self[index..].rotate_right(1);
    }

    /// Take the item at `index` out.
    pub fn remove(&mut self, index: usize) -> A::Item {
        self[index..].rotate_left(1);
        match &mut self.items {
            Items::Inline(room, len) => {
                *len -= 1;
                room.items()[*len]
            }
            Items::Heap(heap) => heap.pop().expect("an index was in range"),
        }
    }
}

impl<A: Array> Default for SmallVec<A> {
    fn default() -> Self {
        Self::new()
    }
}

impl<A: Array> Deref for SmallVec<A> {
    type Target = [A::Item];

    #[inline]
    fn deref(&self) -> &[A::Item] {
        match &self.items {
            Items::Inline(room, len) => &room.items()[..*len],
            Items::Heap(heap) => heap,
        }
    }
}

impl<A: Array> DerefMut for SmallVec<A> {
    #[inline]
    fn deref_mut(&mut self) -> &mut [A::Item] {
        match &mut self.items {
            Items::Inline(room, len) => &mut room.items_mut()[..*len],
            Items::Heap(heap) => heap,
        }
    }
}

impl<A: Array> FromIterator<A::Item> for SmallVec<A> {
    fn from_iter<I: IntoIterator<Item = A::Item>>(items: I) -> Self {
        let mut all = Self::new();
        all.extend(items);
        all
    }
}

impl<A: Array> Extend<A::Item> for SmallVec<A> {
    fn extend<I: IntoIterator<Item = A::Item>>(&mut self, items: I) {
        for item in items {
            self.push(item);
        }
    }
}

impl<'a, A: Array> IntoIterator for &'a SmallVec<A> {
    type Item = &'a A::Item;
    type IntoIter = std::slice::Iter<'a, A::Item>;

    fn into_iter(self) -> Self::IntoIter {
        self.iter()
    }
}

impl<A: Array> PartialEq for SmallVec<A>
where
    A::Item: PartialEq,
{
    fn eq(&self, other: &Self) -> bool {
        **self == **other
    }
}

impl<A: Array> Eq for SmallVec<A> where A::Item: Eq {}

impl<A: Array> fmt::Debug for SmallVec<A>
where
    A::Item: fmt::Debug,
{
    fn fmt(&self, f: &mut fmt::Formatter<'_>) -> fmt::Result {
        f.debug_list().entries(self.iter()).finish()
    }
}

#[cfg(test)]
mod tests {
    use super::SmallVec;

    #[test]
    fn behaves_as_a_vector_across_its_inline_room() {
        let mut small = SmallVec::<[usize; 2]>::new();
        let mut plain = Vec::new();
        for (index, item) in [(0, 5), (0, 3), (1, 4), (3, 9), (2, 7)] {
            small.insert(index, item);
            plain.insert(index, item);
            assert_eq!(*small, *plain);
        }
        for index in [3, 0, 1, 1, 0] {
            assert_eq!(small.remove(index), plain.remove(index));
            assert_eq!(*small, *plain);
        }
    }
}
