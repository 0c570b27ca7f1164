//! Rows: how one is taken, given back, retired, and scanned for.

use crate::schemes::Scheme;
use crate::table::{EVERY, Lifetime, SLOTS, Seat, Table};

/// A free row, which is now taken, if the walk finds one.
pub fn allocate(table: &Table, seat: &mut Seat) -> Option<usize> {
    let birth = table.load(table.clock());
    let mut slot = seat.cursor;
    let mut walked = 0;
    while walked <= SLOTS {
        let bit = 1 << (slot % 64);
        let found = table.or(table.claim(slot), bit);
        if found & bit == 0 {
            seat.cursor = if slot == SLOTS { 0 } else { slot + 1 };
            table.store(table.life(slot), birth << 32);
            return Some(slot);
        }
        // The word found shows which slots after this one are taken too.
        let taken = (found >> (slot % 64)).trailing_ones() as usize;
        let step = taken.min(SLOTS + 1 - slot);
        walked += step;
        slot = if slot + step > SLOTS { 0 } else { slot + step };
    }
    None
}

/// A taken row goes back at once.
pub fn give_up(table: &Table, slot: usize) {
    table.and(table.claim(slot), !(1 << (slot % 64)));
}

/// What a call that needs a row has come to.
pub enum Room {
    /// It has this row.
    Row(usize),
    /// It has scanned, and begins anew.
    Again,
    /// No row was free after a scan either.
    Full,
}

/// The row that the call has taken, or a free one. Where none is free for the first time in the call, its
/// round ends, the clock is moved, and the list is scanned.
pub fn find_room<S: Scheme>(
    table: &Table,
    seat: &mut Seat,
    taken: &mut Option<usize>,
    scanned: &mut bool,
) -> Room {
    *taken = taken.or_else(|| allocate(table, seat));
    if let Some(slot) = *taken {
        return Room::Row(slot);
    }
    if *scanned {
        return Room::Full;
    }
    refuse::<S>(table, seat, None);
    S::move_clock(table, seat);
    scan::<S>(table, seat);
    *scanned = true;
    Room::Again
}

/// A round ends that has changed nothing, and a row that the call has taken goes back.
pub fn refuse<S: Scheme>(table: &Table, seat: &mut Seat, taken: Option<usize>) -> Option<u64> {
    S::clear(table, seat, 0);
    S::finish(table, seat);
    if let Some(slot) = taken {
        give_up(table, slot);
    }
    None
}

/// A row that was cut goes to the seat's list. Each so many retirements the clock is moved and the list
/// scanned.
pub fn retire<S: Scheme>(table: &Table, seat: &mut Seat, slot: usize) {
    let birth = table.load(table.life(slot)) >> 32;
    let retire = table.load(table.clock());
    table.store(table.life(slot), birth << 32 | retire);
    seat.list.push(Lifetime {
        slot,
        birth,
        retire,
    });
    seat.retired += 1;
    if seat.retired % EVERY == 0 {
        S::move_clock(table, seat);
        scan::<S>(table, seat);
    }
}

/// Gives the retired rows back that no guard keeps. Retirements seldom come here, and those that don't take more
/// instructions where this is compiled into them.
#[inline(never)]
pub fn scan<S: Scheme>(table: &Table, seat: &mut Seat) {
    // Only a scan makes the list shorter, so it is longest where one begins.
    seat.longest = seat.longest.max(seat.list.len());
    S::read_guards(table, seat);
    let report = &seat.report;
    seat.list.retain(|life| {
        let kept = report.iter().any(|&found| S::keeps(found, life));
        if !kept {
            give_up(table, life.slot);
        }
        kept
    });
}
