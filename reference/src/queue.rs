//! A queue with a fixed capacity. The trace is one of records, the teletype keeps one of bytes.

use std::collections::VecDeque;

#[derive(Clone, Debug, PartialEq, Eq)]
pub struct Queue<T> {
    items: VecDeque<T>,
    capacity: usize,
}

impl<T> Queue<T> {
    pub fn new(capacity: usize) -> Queue<T> {
        Queue {
            items: VecDeque::new(),
            capacity,
        }
    }

    pub fn capacity(&self) -> usize {
        self.capacity
    }

    pub fn len(&self) -> usize {
        self.items.len()
    }

    pub fn is_empty(&self) -> bool {
        self.items.is_empty()
    }

    /// A queue of capacity 0 is always full.
    pub fn is_full(&self) -> bool {
        self.items.len() >= self.capacity
    }

    /// Adds an item at the end. A full queue stays as it is and hands the item back.
    pub fn add(&mut self, item: T) -> Result<(), T> {
        if self.is_full() {
            return Err(item);
        }
        self.items.push_back(item);
        Ok(())
    }

    pub fn oldest(&self) -> Option<&T> {
        self.items.front()
    }

    /// Removes the oldest item.
    pub fn take(&mut self) -> Option<T> {
        self.items.pop_front()
    }

    /// The items, the oldest first.
    pub fn iter(&self) -> impl Iterator<Item = &T> {
        self.items.iter()
    }
}

impl Queue<u8> {
    /// A queue that holds just these bytes.
    pub fn of_bytes(bytes: &[u8]) -> Queue<u8> {
        Queue {
            items: bytes.iter().copied().collect(),
            capacity: bytes.len(),
        }
    }
}
