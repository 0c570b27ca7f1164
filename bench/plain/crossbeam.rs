//! The map, and a Michael-Scott queue, on crossbeam's epochs, with the orders that its own queue has.

use crate::boxed::Boxed;
use crate::table::BUCKETS;
use crossbeam_epoch::{Atomic, Guard, Owned, Shared, pin};
use crossbeam_utils::CachePadded;
use std::sync::atomic::Ordering::{AcqRel, Acquire, Relaxed, Release};

/// The map.
pub struct Map {
    roots: Vec<Atomic<Boxed>>,
}

impl Map {
    pub fn new() -> Map {
        Map {
            roots: (0..BUCKETS).map(|_| Atomic::null()).collect(),
        }
    }

    fn root(&self, key: u64) -> &Atomic<Boxed> {
        &self.roots[(key % BUCKETS as u64) as usize]
    }

    /// The bucket's version and the key's value.
    pub fn get(&self, key: u64) -> Option<(u64, u64)> {
        let guard = &pin();
        let row = self.root(key).load(Acquire, guard);
        // The box is not freed while this thread is pinned.
        unsafe { row.as_ref() }.and_then(|row| row.get(key))
    }

    /// The version of the change, or none where it was refused.
    pub fn put(&self, key: u64, value: u64) -> Option<u64> {
        let guard = &pin();
        let root = self.root(key);
        let mut taken = None;
        loop {
            let old = root.load(Acquire, guard);
            // The box is not freed while this thread is pinned.
            let row = Boxed::changed(unsafe { old.as_ref() }, key, value)?;
            let version = row.version;
            let new = boxed(taken, row);
            match root.compare_exchange(old, new, AcqRel, Acquire, guard) {
                Ok(_) => {
                    defer(old, guard);
                    return Some(version);
                }
                Err(refused) => taken = Some(refused.new),
            }
        }
    }
}

// The row in the box that a change has from a try before, or in a new one.
fn boxed(taken: Option<Owned<Boxed>>, row: Boxed) -> Owned<Boxed> {
    match taken {
        Some(mut taken) => {
            *taken = row;
            taken
        }
        None => Owned::new(row),
    }
}

fn defer(old: Shared<Boxed>, guard: &Guard) {
    if !old.is_null() {
        // The change cut the box from its root, and each box is cut once.
        unsafe { guard.defer_destroy(old) };
    }
}

struct Node {
    next: Atomic<Node>,
    number: u64,
    value: u64,
}

/// The queue.
pub struct Queue {
    head: CachePadded<Atomic<Node>>,
    tail: CachePadded<Atomic<Node>>,
}

impl Queue {
    pub fn new() -> Queue {
        let head = Atomic::new(Node {
            next: Atomic::null(),
            number: 0,
            value: 0,
        });
        Queue {
            tail: CachePadded::new(head.clone()),
            head: CachePadded::new(head),
        }
    }

    fn move_tail(&self, last: Shared<Node>, next: Shared<Node>, guard: &Guard) {
        let _ = self
            .tail
            .compare_exchange(last, next, Release, Relaxed, guard);
    }

    /// The value's number.
    pub fn enqueue(&self, value: u64) -> u64 {
        let guard = &pin();
        let mut new = Owned::new(Node {
            next: Atomic::null(),
            number: 0,
            value,
        });
        loop {
            let last = self.tail.load(Acquire, guard);
            // The node is not freed while this thread is pinned.
            let node = unsafe { last.deref() };
            let next = node.next.load(Acquire, guard);
            if !next.is_null() {
                self.move_tail(last, next, guard);
                continue;
            }
            let number = node.number + 1;
            new.number = number;
            match node
                .next
                .compare_exchange(Shared::null(), new, Release, Relaxed, guard)
            {
                Ok(linked) => {
                    self.move_tail(last, linked, guard);
                    return number;
                }
                Err(refused) => new = refused.new,
            }
        }
    }

    /// The number and value at the queue's front, or none where it is empty.
    pub fn dequeue(&self) -> Option<(u64, u64)> {
        let guard = &pin();
        loop {
            let head = self.head.load(Acquire, guard);
            // Neither node is freed while this thread is pinned.
            let next = unsafe { head.deref() }.next.load(Acquire, guard);
            let node = unsafe { next.as_ref() }?;
            if self
                .head
                .compare_exchange(head, next, Release, Relaxed, guard)
                .is_err()
            {
                continue;
            }
            if self.tail.load(Relaxed, guard) == head {
                self.move_tail(head, next, guard);
            }
            // The dequeue cut the node from the head, and neither word leads to it any more.
            unsafe { guard.defer_destroy(head) };
            return Some((node.number, node.value));
        }
    }
}
