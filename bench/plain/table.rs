//! The words of a table, and what a seat keeps between its calls.

use std::sync::atomic::{
    AtomicU64, Ordering,
    Ordering::{AcqRel, Acquire, Release, SeqCst},
};

// The plain program has the order of the proved one, and each word beside the next. Other builds of it show what other
// choices would gain: with `--cfg weak` only what publishes an era or a link is in one order with all steps; with
// `--cfg placed` the clock, the words of seats and the queue's head and tail have a line of the cache each; and with
// `--cfg apart` each word before the rows, and each row, has two, and seats look for rows from places apart.
const LOAD: Ordering = if cfg!(weak) { Acquire } else { SeqCst };
const STORE: Ordering = if cfg!(weak) { Release } else { SeqCst };
const CHANGE: Ordering = if cfg!(weak) { AcqRel } else { SeqCst };
// From a word that seats wait for to the next, in words.
const BUSY: usize = if cfg!(apart) {
    16
} else if cfg!(placed) {
    8
} else {
    1
};
// From a root, a word of claims or a lifetime to the next, and from a row to the next.
const DENSE: usize = if cfg!(apart) { 16 } else { 1 };
const ROW: usize = if cfg!(apart) { 16 } else { PLACES };

/// Protections of a seat.
pub const INDEXES: usize = 3;
/// Rows beside the queue's dummy.
pub const SLOTS: usize = 4_096;
/// Buckets of the map.
pub const BUCKETS: usize = 64;
/// Failed tries before a reader asks for help.
pub const TRIES: u32 = 4;
/// Retirements of a seat before it moves the clock and scans.
pub const EVERY: u64 = 8;
/// Keys of a bucket.
pub const PAIRS: u64 = 6;
/// Where the clock stops.
pub const LAST_ERA: u64 = 4_294_967_295;
/// Where a bucket, or the queue, takes no more changes.
pub const LAST_VERSION: u64 = 281_474_976_710_656;

const CLAIMS: usize = SLOTS / 64 + 1;
const PLACES: usize = 3 + 2 * PAIRS as usize;

/// The words.
pub struct Table {
    words: Box<[AtomicU64]>,
    pub seats: usize,
}

impl Table {
    pub fn new(seats: usize) -> Table {
        let mut table = Table {
            words: Box::new([]),
            seats,
        };
        let count = table.row(SLOTS + 1, 0);
        table.words = (0..count).map(|_| AtomicU64::new(0)).collect();
        table.store(table.clock(), 1);
        table.store(table.head(), SLOTS as u64 + 1);
        table.store(table.tail(), SLOTS as u64 + 1);
        table.store(table.claim(SLOTS), u64::MAX << (SLOTS % 64));
        table.store(table.life(SLOTS), 1 << 32);
        table
    }

    pub fn clock(&self) -> usize {
        0
    }

    pub fn helper(&self, seat: usize) -> usize {
        BUSY * (1 + seat)
    }

    pub fn index(&self, seat: usize, index: usize) -> usize {
        BUSY * (1 + self.seats + seat * INDEXES + index)
    }

    pub fn interval(&self, seat: usize) -> usize {
        BUSY * (1 + self.seats * (1 + INDEXES) + seat)
    }

    pub fn request(&self, seat: usize) -> usize {
        BUSY * (1 + self.seats * (2 + INDEXES) + seat)
    }

    pub fn bucket(&self, bucket: usize) -> usize {
        BUSY * (1 + self.seats * (3 + INDEXES)) + DENSE * bucket
    }

    pub fn head(&self) -> usize {
        self.bucket(BUCKETS - 1) + BUSY
    }

    pub fn tail(&self) -> usize {
        self.head() + BUSY
    }

    pub fn claim(&self, slot: usize) -> usize {
        self.tail() + BUSY + DENSE * (slot / 64)
    }

    pub fn life(&self, slot: usize) -> usize {
        self.claim(0) + DENSE * (CLAIMS + slot)
    }

    pub fn row(&self, slot: usize, place: usize) -> usize {
        self.life(SLOTS + 1) + ROW * slot + place
    }

    fn word(&self, word: usize) -> &AtomicU64 {
        &self.words[word]
    }

    pub fn load(&self, word: usize) -> u64 {
        self.word(word).load(LOAD)
    }

    pub fn store(&self, word: usize, value: u64) {
        self.word(word).store(value, STORE);
    }

    /// Stores a guard that covers a row: no later load comes before it.
    pub fn publish(&self, word: usize, value: u64) {
        self.word(word).store(value, SeqCst);
    }

    /// The word before: the exchange was made where it is `old`.
    pub fn exchange(&self, word: usize, old: u64, new: u64) -> u64 {
        match self.word(word).compare_exchange(old, new, CHANGE, LOAD) {
            Ok(found) | Err(found) => found,
        }
    }

    pub fn or(&self, word: usize, bits: u64) -> u64 {
        self.word(word).fetch_or(bits, CHANGE)
    }

    pub fn and(&self, word: usize, bits: u64) -> u64 {
        self.word(word).fetch_and(bits, CHANGE)
    }
}

/// A retired row with its eras.
#[derive(Clone, Copy)]
pub struct Lifetime {
    pub slot: usize,
    pub birth: u64,
    pub retire: u64,
}

/// A thread's place in the table. It lies on its thread's stack, and so apart from the others in each build.
pub struct Seat {
    pub number: usize,
    pub cursor: usize,
    pub tags: [u64; INDEXES],
    /// The interval that is published under 2GE.
    pub span: Option<(u64, u64)>,
    pub retired: u64,
    pub list: Vec<Lifetime>,
    /// How long the list was at most.
    pub longest: usize,
    /// What the last scan read.
    pub report: Vec<(u64, u64)>,
}

impl Seat {
    pub fn new(number: usize, seats: usize) -> Seat {
        Seat {
            number,
            cursor: if cfg!(apart) {
                number * SLOTS / seats
            } else {
                0
            },
            tags: [0; INDEXES],
            span: None,
            retired: 0,
            list: Vec::with_capacity(SLOTS + 1),
            longest: 0,
            report: Vec::with_capacity(seats * (1 + INDEXES)),
        }
    }
}
