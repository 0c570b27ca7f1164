//! The Michael-Scott queue.

use crate::reclaim::{Room, find_room, refuse, retire};
use crate::schemes::Scheme;
use crate::table::{LAST_VERSION, Seat, Table};

/// The value's number, or none where it was refused.
pub fn enqueue<S: Scheme>(table: &Table, seat: &mut Seat, value: u64) -> Option<u64> {
    let mut taken = None;
    let mut scanned = false;
    loop {
        S::begin(table, seat);
        let last = S::protect(table, seat, 0, table.tail());
        let slot = last as usize - 1;
        let number = table.load(table.row(slot, 1));
        let next = table.load(table.row(slot, 0));
        if next != 0 {
            table.exchange(table.tail(), last, next);
            S::clear(table, seat, 0);
            continue;
        }
        if number == LAST_VERSION {
            return refuse::<S>(table, seat, taken);
        }
        let new = match find_room::<S>(table, seat, &mut taken, &mut scanned) {
            Room::Row(slot) => slot,
            Room::Again => continue,
            Room::Full => return refuse::<S>(table, seat, None),
        };
        table.store(table.row(new, 0), 0);
        table.store(table.row(new, 1), number + 1);
        table.store(table.row(new, 2), value);
        if table.exchange(table.row(slot, 0), 0, new as u64 + 1) == 0 {
            table.exchange(table.tail(), last, new as u64 + 1);
            S::clear(table, seat, 0);
            S::finish(table, seat);
            return Some(number + 1);
        }
        S::clear(table, seat, 0);
    }
}

fn clear_both<S: Scheme>(table: &Table, seat: &mut Seat) {
    S::clear(table, seat, 1);
    S::clear(table, seat, 0);
}

/// The number and value at the queue's front, or none where it is empty.
pub fn dequeue<S: Scheme>(table: &Table, seat: &mut Seat) -> Option<(u64, u64)> {
    loop {
        S::begin(table, seat);
        let head = S::protect(table, seat, 0, table.head());
        let slot = head as usize - 1;
        let last = table.load(table.tail());
        let next = S::protect(table, seat, 1, table.row(slot, 0));
        if next == 0 {
            clear_both::<S>(table, seat);
            S::finish(table, seat);
            return None;
        }
        if table.load(table.head()) != head {
            clear_both::<S>(table, seat);
            continue;
        }
        if last == head {
            table.exchange(table.tail(), head, next);
            clear_both::<S>(table, seat);
            continue;
        }
        let number = table.load(table.row(next as usize - 1, 1));
        let value = table.load(table.row(next as usize - 1, 2));
        let found = table.exchange(table.head(), head, next);
        clear_both::<S>(table, seat);
        if found == head {
            S::finish(table, seat);
            retire::<S>(table, seat, slot);
            return Some((number, value));
        }
    }
}
