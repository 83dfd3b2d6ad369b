//! Stores of a lent length, under the names of the growing ones that epa3.rs imports.
//!
//! A push into a full store unwinds with [`NoRoom`]. The test stands inside `push`, so it
//! comes after everything that makes the value (a refused key's `?` too) and before the write.

use alloc::collections;
use core::ops::{Deref, DerefMut};
use std::panic;

/// The stores that epa3.rs pushes into, and the one that its copy with the plain walk has besides.
#[derive(Copy, Clone, Debug, PartialEq)]
pub enum Store {
    Vertices,
    Faces,
    Edges,
    Heap,
    Pending,
}

/// What unwinds out of a push into a full store.
pub struct NoRoom(pub Store);

/// What a store is, and its room; none has a limit before it is lent one.
struct Room {
    store: Store,
    entries: usize,
}

impl Default for Room {
    fn default() -> Self {
        Self {
            store: Store::Vertices,
            entries: usize::MAX,
        }
    }
}

impl Room {
    fn test(&self, len: usize) {
        if len == self.entries {
            // Not `panic_any`: a full store is an answer, so no hook has to hear of it.
            panic::resume_unwind(Box::new(NoRoom(self.store)));
        }
    }
}

/// A list that refuses to grow above its room and remembers its greatest length.
pub struct Vec<T> {
    items: alloc::vec::Vec<T>,
    room: Room,
    most: usize,
}

impl<T> Default for Vec<T> {
    fn default() -> Self {
        Self {
            items: alloc::vec::Vec::new(),
            room: Room::default(),
            most: 0,
        }
    }
}

impl<T> Vec<T> {
    #[inline]
    pub fn push(&mut self, item: T) {
        self.room.test(self.items.len());
        self.items.push(item);
        self.most = self.most.max(self.items.len());
    }

    #[inline]
    pub fn pop(&mut self) -> Option<T> {
        self.items.pop()
    }

    #[inline]
    pub fn clear(&mut self) {
        self.items.clear();
    }

    pub fn lend(&mut self, store: Store, entries: usize) {
        self.room = Room { store, entries };
    }

    /// Starts a new run: empty, and never filled.
    pub fn restart(&mut self) {
        self.items.clear();
        self.most = 0;
    }

    /// Most entries held at once since the run started.
    pub fn most(&self) -> usize {
        self.most
    }
}

impl<T> Deref for Vec<T> {
    type Target = [T];
    #[inline]
    fn deref(&self) -> &[T] {
        &self.items
    }
}

impl<T> DerefMut for Vec<T> {
    #[inline]
    fn deref_mut(&mut self) -> &mut [T] {
        &mut self.items
    }
}

impl<'a, T> IntoIterator for &'a Vec<T> {
    type Item = &'a T;
    type IntoIter = core::slice::Iter<'a, T>;
    #[inline]
    fn into_iter(self) -> Self::IntoIter {
        self.items.iter()
    }
}

/// The toolchain's own heap with a room.
pub struct BinaryHeap<T> {
    heap: collections::BinaryHeap<T>,
    room: Room,
    most: usize,
}

impl<T: Ord> Default for BinaryHeap<T> {
    fn default() -> Self {
        Self {
            heap: collections::BinaryHeap::new(),
            room: Room::default(),
            most: 0,
        }
    }
}

impl<T: Ord> BinaryHeap<T> {
    #[inline]
    pub fn push(&mut self, item: T) {
        self.room.test(self.heap.len());
        self.heap.push(item);
        self.most = self.most.max(self.heap.len());
    }

    #[inline]
    pub fn pop(&mut self) -> Option<T> {
        self.heap.pop()
    }

    #[inline]
    pub fn peek(&self) -> Option<&T> {
        self.heap.peek()
    }

    pub fn lend(&mut self, store: Store, entries: usize) {
        self.room = Room { store, entries };
    }

    /// Starts a new run: empty, and never filled.
    pub fn restart(&mut self) {
        self.heap.clear();
        self.most = 0;
    }

    /// Most entries held at once since the run started.
    pub fn most(&self) -> usize {
        self.most
    }

    /// The entries in the heap's internal order.
    pub fn as_slice(&self) -> &[T] {
        self.heap.as_slice()
    }
}
