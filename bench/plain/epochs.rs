//! A map on epochs: the same buckets, whose rows are boxes that are freed two epochs after they were
//! replaced. Reads are ordered as libraries of epochs order them.

use crate::boxed::Boxed;
use crate::table::{BUCKETS, EVERY};
use std::ptr;
use std::sync::atomic::{
    AtomicPtr, AtomicU64,
    Ordering::{AcqRel, Acquire, Relaxed, Release, SeqCst},
    fence,
};

#[repr(align(128))]
struct Pin(AtomicU64);

/// The map.
pub struct EpochMap {
    epoch: AtomicU64,
    pins: Vec<Pin>,
    roots: Vec<AtomicPtr<Boxed>>,
}

/// A thread's place.
pub struct EpochSeat {
    number: usize,
    retired: u64,
    list: Vec<(u64, *mut Boxed)>,
}

// The rows of the list are the seat's alone.
unsafe impl Send for EpochSeat {}

impl EpochSeat {
    pub fn new(number: usize) -> EpochSeat {
        EpochSeat {
            number,
            retired: 0,
            list: Vec::new(),
        }
    }
}

impl EpochMap {
    pub fn new(seats: usize) -> EpochMap {
        EpochMap {
            epoch: AtomicU64::new(1),
            pins: (0..seats).map(|_| Pin(AtomicU64::new(0))).collect(),
            roots: (0..BUCKETS)
                .map(|_| AtomicPtr::new(ptr::null_mut()))
                .collect(),
        }
    }

    fn pin(&self, seat: &EpochSeat) {
        let epoch = self.epoch.load(Relaxed);
        self.pins[seat.number].0.store(epoch, Relaxed);
        fence(SeqCst);
    }

    fn unpin(&self, seat: &EpochSeat) {
        self.pins[seat.number].0.store(0, Release);
    }

    /// The bucket's version and the key's value.
    pub fn get(&self, seat: &mut EpochSeat, key: u64) -> Option<(u64, u64)> {
        self.pin(seat);
        let row = self.roots[(key % BUCKETS as u64) as usize].load(Acquire);
        // The row is not freed while this seat is pinned.
        let found = unsafe { row.as_ref() }.and_then(|row| row.get(key));
        self.unpin(seat);
        found
    }

    pub fn put(&self, seat: &mut EpochSeat, key: u64, value: u64) -> Option<u64> {
        self.pin(seat);
        let root = &self.roots[(key % BUCKETS as u64) as usize];
        let done = loop {
            let old = root.load(Acquire);
            // The row is not freed while this seat is pinned.
            let Some(row) = Boxed::changed(unsafe { old.as_ref() }, key, value) else {
                break None;
            };
            let version = row.version;
            let new = Box::into_raw(Box::new(row));
            if root.compare_exchange(old, new, AcqRel, Acquire).is_ok() {
                break Some((version, old));
            }
            // The row was not linked, so nobody else has it.
            drop(unsafe { Box::from_raw(new) });
        };
        self.unpin(seat);
        let (version, old) = done?;
        if !old.is_null() {
            self.retire(seat, old);
        }
        Some(version)
    }

    fn retire(&self, seat: &mut EpochSeat, row: *mut Boxed) {
        seat.list.push((self.epoch.load(SeqCst), row));
        seat.retired += 1;
        if seat.retired % EVERY == 0 {
            self.collect(seat);
        }
    }

    fn collect(&self, seat: &mut EpochSeat) {
        let epoch = self.epoch.load(SeqCst);
        fence(SeqCst);
        let behind = self.pins.iter().any(|pin| {
            let pinned = pin.0.load(Relaxed);
            pinned != 0 && pinned != epoch
        });
        if !behind {
            let _ = self
                .epoch
                .compare_exchange(epoch, epoch + 1, SeqCst, SeqCst);
        }
        let now = self.epoch.load(SeqCst);
        seat.list.retain(|&(retired, row)| {
            let stays = retired + 2 > now;
            if !stays {
                // No seat that could have found the row is pinned any more.
                drop(unsafe { Box::from_raw(row) });
            }
            stays
        });
    }
}
