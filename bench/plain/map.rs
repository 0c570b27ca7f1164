//! The bucket map: each change links a whole new row.

use crate::reclaim::{Room, find_room, refuse, retire};
use crate::schemes::Scheme;
use crate::table::{BUCKETS, LAST_VERSION, PAIRS, Seat, Table};

fn root(table: &Table, key: u64) -> usize {
    table.bucket((key % BUCKETS as u64) as usize)
}

/// The key's value and its bucket's version.
pub fn get<S: Scheme>(table: &Table, seat: &mut Seat, key: u64) -> (u64, Option<u64>) {
    S::begin(table, seat);
    let link = S::protect(table, seat, 0, root(table, key));
    let found = if link == 0 {
        (0, None)
    } else {
        read_value(table, link as usize - 1, key)
    };
    S::clear(table, seat, 0);
    S::finish(table, seat);
    found
}

fn read_value(table: &Table, slot: usize, key: u64) -> (u64, Option<u64>) {
    let version = table.load(table.row(slot, 1));
    let count = table.load(table.row(slot, 2)) as usize;
    for place in 0..count {
        if table.load(table.row(slot, 3 + 2 * place)) == key {
            return (version, Some(table.load(table.row(slot, 4 + 2 * place))));
        }
    }
    (version, None)
}

#[derive(Default)]
struct Pairs {
    version: u64,
    count: usize,
    pairs: [(u64, u64); PAIRS as usize],
}

impl Pairs {
    fn read(table: &Table, link: u64) -> Pairs {
        let mut read = Pairs::default();
        if link != 0 {
            let slot = link as usize - 1;
            read.version = table.load(table.row(slot, 1));
            read.count = table.load(table.row(slot, 2)) as usize;
            for place in 0..read.count {
                read.pairs[place] = (
                    table.load(table.row(slot, 3 + 2 * place)),
                    table.load(table.row(slot, 4 + 2 * place)),
                );
            }
        }
        read
    }

    fn write(&self, table: &Table, slot: usize) {
        table.store(table.row(slot, 1), self.version);
        table.store(table.row(slot, 2), self.count as u64);
        for place in 0..self.count {
            let (key, value) = self.pairs[place];
            table.store(table.row(slot, 3 + 2 * place), key);
            table.store(table.row(slot, 4 + 2 * place), value);
        }
    }

    // False where there is no room for the key.
    fn set(&mut self, key: u64, value: u64) -> bool {
        self.version += 1;
        for place in 0..self.count {
            if self.pairs[place].0 == key {
                self.pairs[place].1 = value;
                return true;
            }
        }
        if self.count == PAIRS as usize {
            return false;
        }
        self.pairs[self.count] = (key, value);
        self.count += 1;
        true
    }
}

/// The version of the change, or none where it was refused.
pub fn put<S: Scheme>(table: &Table, seat: &mut Seat, key: u64, value: u64) -> Option<u64> {
    let mut taken = None;
    let mut scanned = false;
    loop {
        S::begin(table, seat);
        let link = S::protect(table, seat, 0, root(table, key));
        let mut row = Pairs::read(table, link);
        if row.version == LAST_VERSION || !row.set(key, value) {
            return refuse::<S>(table, seat, taken);
        }
        let slot = match find_room::<S>(table, seat, &mut taken, &mut scanned) {
            Room::Row(slot) => slot,
            Room::Again => continue,
            Room::Full => return refuse::<S>(table, seat, None),
        };
        row.write(table, slot);
        let found = table.exchange(root(table, key), link, slot as u64 + 1);
        S::clear(table, seat, 0);
        if found == link {
            S::finish(table, seat);
            if link != 0 {
                retire::<S>(table, seat, link as usize - 1);
            }
            return Some(row.version);
        }
    }
}
