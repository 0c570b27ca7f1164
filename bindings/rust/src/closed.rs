use crate::border::Handle;
use std::iter::FusedIterator;
use std::slice;

/// A bucket of a table that is closed.
#[derive(Clone, Debug, PartialEq, Eq)]
pub struct Bucket {
    version: u64,
    pairs: Vec<(u64, u64)>,
}

/// A value that was in the queue when its table was closed.
#[derive(Clone, Copy, Debug, PartialEq, Eq)]
pub struct QueuedValue {
    /// Its number, from 1.
    pub number: u64,
    /// The value.
    pub value: u64,
}

/// What a table held when it was closed, by [`Seat::close`](crate::Seat::close): each bucket with its keys, the values in the queue, and
/// the rows in use.
///
/// ```
/// use wfe::{Scheme, Setting, Table};
///
/// let mut seat = Table::new(Setting::usual(Scheme::HazardPointers, 1, 10))?.next().expect("there is one");
/// for key in [3, 13, 4] {
///     seat.put(key, 10 * key).expect("there is room");
/// }
/// seat.enqueue(70).expect("there is room");
/// let closed = seat.close().expect("it is the only seat");
/// for bucket in closed.buckets() {
///     assert_eq!(bucket.version(), bucket.pairs().len() as u64);
/// }
/// assert_eq!(closed.pairs().map(|(_, value)| value).sum::<u64>(), 200);
/// assert_eq!(closed.queue().next().map(|it| (it.number, it.value)), Some((1, 70)));
/// // (rows of two buckets, of the value, of the queue's dummy, and those that wait to go back)
/// assert!(closed.rows().len() >= 4);
/// # Ok::<(), wfe::OpenError>(())
/// ```
#[derive(Clone, Debug, PartialEq, Eq)]
pub struct Closed {
    clock: u32,
    buckets: Vec<Bucket>,
    queue: Vec<QueuedValue>,
    rows: Vec<u32>,
}

impl Bucket {
    fn read(handle: &mut Handle, place: u32) -> Bucket {
        let row = handle.closed_bucket(place);
        let pairs = (0..row.value as u32).map(|pair| handle.closed_pair(place, pair));
        Bucket { version: row.number, pairs: pairs.map(|it| (it.number, it.value)).collect() }
    }

    /// How often the bucket was changed.
    pub fn version(&self) -> u64 {
        self.version
    }

    /// Its keys with their values, in no order of keys.
    pub fn pairs(&self) -> impl ExactSizeIterator<Item = (u64, u64)> + DoubleEndedIterator + FusedIterator + Clone + '_ {
        self.pairs.iter().copied()
    }

    /// The key's value, if it has one.
    pub fn get(&self, key: u64) -> Option<u64> {
        self.pairs.iter().find(|pair| pair.0 == key).map(|pair| pair.1)
    }
}

impl Closed {
    /// Reads all that the handle has of a closed table, and frees it there.
    pub(crate) fn read(handle: &mut Handle) -> Closed {
        let told = handle.closed();
        let buckets = (0..told.buckets as u32).map(|place| Bucket::read(handle, place)).collect();
        let queued = (0..told.queued as u32).map(|place| handle.closed_queued(place));
        let queue = queued.map(|it| QueuedValue { number: it.number, value: it.value }).collect();
        let rows = (0..told.used as u32).map(|place| handle.closed_used(place).slot).collect();
        handle.end();
        Closed { clock: told.clock, buckets, queue, rows }
    }

    /// The era clock.
    pub fn clock(&self) -> u32 {
        self.clock
    }

    /// Each bucket, in order. One that was never changed has version 0 and no keys.
    pub fn buckets(&self) -> slice::Iter<'_, Bucket> {
        self.buckets.iter()
    }

    /// All keys with their values, by bucket.
    pub fn pairs(&self) -> impl Iterator<Item = (u64, u64)> + Clone + '_ {
        self.buckets.iter().flat_map(Bucket::pairs)
    }

    /// The key's value, if it has one.
    pub fn get(&self, key: u64) -> Option<u64> {
        self.buckets[(key % self.buckets.len() as u64) as usize].get(key)
    }

    /// The values in the queue, with their numbers, those from the front first.
    pub fn queue(&self) -> impl ExactSizeIterator<Item = QueuedValue> + DoubleEndedIterator + FusedIterator + Clone + '_ {
        self.queue.iter().copied()
    }

    /// The slots of the rows in use, rising: one row for each bucket that was changed, one for each value in the queue and its dummy, and
    /// those that were retired and are not back.
    pub fn rows(&self) -> impl ExactSizeIterator<Item = u32> + DoubleEndedIterator + FusedIterator + Clone + '_ {
        self.rows.iter().copied()
    }
}
