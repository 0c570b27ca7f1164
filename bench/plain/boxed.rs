//! A bucket in a box, as maps on epochs link it.

use crate::table::PAIRS;

/// The pairs of a bucket at one version.
#[derive(Clone)]
pub struct Boxed {
    pub version: u64,
    count: usize,
    pairs: [(u64, u64); PAIRS as usize],
}

impl Boxed {
    /// The version, and the key's value.
    pub fn get(&self, key: u64) -> Option<(u64, u64)> {
        self.pairs[..self.count]
            .iter()
            .find(|pair| pair.0 == key)
            .map(|pair| (self.version, pair.1))
    }

    /// The bucket with this pair, or none where there is no room for the key.
    pub fn changed(old: Option<&Boxed>, key: u64, value: u64) -> Option<Boxed> {
        let mut row = old.cloned().unwrap_or(Boxed {
            version: 0,
            count: 0,
            pairs: [(0, 0); PAIRS as usize],
        });
        row.version += 1;
        if let Some(pair) = row.pairs[..row.count].iter_mut().find(|pair| pair.0 == key) {
            pair.1 = value;
            return Some(row);
        }
        if row.count == PAIRS as usize {
            return None;
        }
        row.pairs[row.count] = (key, value);
        row.count += 1;
        Some(row)
    }
}
