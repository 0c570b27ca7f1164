//! How each scheme protects a link, and which guards it publishes.

use crate::table::{INDEXES, LAST_ERA, Lifetime, Seat, TRIES, Table};

const KIND: u32 = 62;
const PENDING: u64 = 1;

/// A scheme of eras or of hazard pointers.
pub trait Scheme {
    fn begin(table: &Table, seat: &mut Seat);
    /// The link in the word, whose row is protected.
    fn protect(table: &Table, seat: &mut Seat, index: usize, word: usize) -> u64;
    fn clear(table: &Table, seat: &mut Seat, index: usize);
    fn finish(table: &Table, seat: &mut Seat);
    /// The move of the clock before a scan.
    fn move_clock(table: &Table, seat: &mut Seat);
    /// Reads all guards into the seat's report, each as the eras from the first to the last, or as a link twice.
    fn read_guards(table: &Table, seat: &mut Seat);
    /// Whether a row is kept by what a guard publishes.
    fn keeps(found: (u64, u64), life: &Lifetime) -> bool {
        life.birth <= found.1 && found.0 <= life.retire
    }
}

fn reservation(era: u64, tag: u64) -> u64 {
    era << 32 | tag
}

fn step_clock(table: &Table, era: u64) {
    table.exchange(table.clock(), era, era + 1);
}

fn clear_index(table: &Table, seat: &mut Seat, index: usize) {
    table.store(
        table.index(seat.number, index),
        reservation(0, seat.tags[index]),
    );
}

fn read_era(table: &Table, report: &mut Vec<(u64, u64)>, word: usize) {
    let era = table.load(word) >> 32;
    if era != 0 {
        report.push((era, era));
    }
}

fn read_indexes(table: &Table, report: &mut Vec<(u64, u64)>) {
    for seat in 0..table.seats {
        for index in 0..INDEXES {
            read_era(table, report, table.index(seat, index));
        }
    }
}

/// Hazard Eras.
pub struct He;

impl Scheme for He {
    fn begin(_: &Table, _: &mut Seat) {}

    fn protect(table: &Table, seat: &mut Seat, index: usize, word: usize) -> u64 {
        let mut era = table.load(table.clock());
        let guard = table.index(seat.number, index);
        table.publish(guard, reservation(era, 0));
        loop {
            let link = table.load(word);
            let now = table.load(table.clock());
            if now == era {
                return link;
            }
            table.publish(guard, reservation(now, 0));
            era = now;
        }
    }

    fn clear(table: &Table, seat: &mut Seat, index: usize) {
        clear_index(table, seat, index);
    }

    fn finish(_: &Table, _: &mut Seat) {}

    fn move_clock(table: &Table, _: &mut Seat) {
        let era = table.load(table.clock());
        if era != LAST_ERA {
            step_clock(table, era);
        }
    }

    fn read_guards(table: &Table, seat: &mut Seat) {
        seat.report.clear();
        read_indexes(table, &mut seat.report);
    }
}

/// 2GE intervals.
pub struct Ibr;

impl Scheme for Ibr {
    fn begin(table: &Table, seat: &mut Seat) {
        if seat.span.is_none() {
            let era = table.load(table.clock());
            table.publish(table.interval(seat.number), era << 32 | era);
            seat.span = Some((era, era));
        }
    }

    fn protect(table: &Table, seat: &mut Seat, _: usize, word: usize) -> u64 {
        let Some((low, mut high)) = seat.span else {
            unreachable!()
        };
        loop {
            let link = table.load(word);
            let now = table.load(table.clock());
            if now == high {
                return link;
            }
            table.publish(table.interval(seat.number), low << 32 | now);
            seat.span = Some((low, now));
            high = now;
        }
    }

    fn clear(_: &Table, _: &mut Seat, _: usize) {}

    fn finish(table: &Table, seat: &mut Seat) {
        table.store(table.interval(seat.number), 0);
        seat.span = None;
    }

    fn move_clock(table: &Table, seat: &mut Seat) {
        He::move_clock(table, seat);
    }

    fn read_guards(table: &Table, seat: &mut Seat) {
        seat.report.clear();
        for number in 0..table.seats {
            let found = table.load(table.interval(number));
            if found != 0 {
                seat.report.push((found >> 32, found & 0xffff_ffff));
            }
        }
    }
}

/// Wait-Free Eras.
pub struct Wfe;

fn pending(tag: u64, index: usize, word: usize) -> u64 {
    PENDING << KIND | tag << 30 | (index as u64) << 26 | word as u64
}

fn answered(link: u64, era: u64) -> u64 {
    2 << KIND | link << 32 | era
}

fn slow_path(table: &Table, seat: &mut Seat, index: usize, word: usize) -> u64 {
    let request = table.request(seat.number);
    let helper = table.helper(seat.number);
    let asked = pending(seat.tags[index], index, word);
    table.store(request, asked);
    let (link, era) = ask(table, request, helper, word, asked);
    seat.tags[index] += 1;
    table.publish(
        table.index(seat.number, index),
        reservation(era, seat.tags[index]),
    );
    table.store(request, 0);
    table.store(helper, 0);
    link
}

fn ask(table: &Table, request: usize, helper: usize, word: usize, asked: u64) -> (u64, u64) {
    let mut era = table.load(table.clock());
    for _ in 0..2 {
        table.publish(helper, reservation(era, 0));
        let link = table.load(word);
        let now = table.load(table.clock());
        if now == era {
            let found = table.exchange(request, asked, answered(link, era));
            return if found == asked {
                (link, era)
            } else {
                (found >> 32 & 0xff_ffff, found & 0xffff_ffff)
            };
        }
        era = now;
    }
    let found = table.load(request);
    (found >> 32 & 0xff_ffff, found & 0xffff_ffff)
}

// Answers one request, if it is pending. The result is the clock's era where it has moved meanwhile.
fn help(table: &Table, own: usize, other: usize, era: u64, shown: &mut bool) -> Option<u64> {
    let asked = table.load(table.request(other));
    if asked >> KIND != PENDING {
        return None;
    }
    let (tag, index, word) = (
        asked >> 30 & 0xffff_ffff,
        (asked >> 26 & 15) as usize,
        (asked & 0x3ff_ffff) as usize,
    );
    if !*shown {
        table.publish(table.helper(own), reservation(era, 0));
        *shown = true;
    }
    let link = table.load(word);
    let now = table.load(table.clock());
    if now != era {
        return Some(now);
    }
    if table.exchange(table.request(other), asked, answered(link, era)) == asked {
        let guard = table.index(other, index);
        let found = table.load(guard);
        if found & 0xffff_ffff == tag {
            table.exchange(guard, found, reservation(era, tag + 1));
        }
    }
    None
}

impl Scheme for Wfe {
    fn begin(_: &Table, _: &mut Seat) {}

    fn protect(table: &Table, seat: &mut Seat, index: usize, word: usize) -> u64 {
        let mut era = table.load(table.clock());
        let guard = table.index(seat.number, index);
        let tag = seat.tags[index];
        table.publish(guard, reservation(era, tag));
        for _ in 0..TRIES {
            let link = table.load(word);
            let now = table.load(table.clock());
            if now == era {
                return link;
            }
            table.publish(guard, reservation(now, tag));
            era = now;
        }
        slow_path(table, seat, index, word)
    }

    fn clear(table: &Table, seat: &mut Seat, index: usize) {
        clear_index(table, seat, index);
    }

    fn finish(_: &Table, _: &mut Seat) {}

    fn move_clock(table: &Table, seat: &mut Seat) {
        let era = table.load(table.clock());
        if era == LAST_ERA {
            return;
        }
        let mut shown = false;
        let mut moved = false;
        for other in 0..table.seats {
            if help(table, seat.number, other, era, &mut shown).is_some() {
                moved = true;
                break;
            }
        }
        if shown {
            table.store(table.helper(seat.number), 0);
        }
        if !moved {
            step_clock(table, era);
        }
    }

    fn read_guards(table: &Table, seat: &mut Seat) {
        seat.report.clear();
        for number in 0..table.seats {
            read_era(table, &mut seat.report, table.helper(number));
        }
        read_indexes(table, &mut seat.report);
    }
}

/// Hazard pointers: an index word holds the link itself, and the clock is left alone.
pub struct Hp;

impl Scheme for Hp {
    fn begin(_: &Table, _: &mut Seat) {}

    fn protect(table: &Table, seat: &mut Seat, index: usize, word: usize) -> u64 {
        let guard = table.index(seat.number, index);
        let mut link = table.load(word);
        while link != 0 {
            table.publish(guard, link);
            let now = table.load(word);
            if now == link {
                return link;
            }
            link = now;
        }
        0
    }

    fn clear(table: &Table, seat: &mut Seat, index: usize) {
        table.store(table.index(seat.number, index), 0);
    }

    fn finish(_: &Table, _: &mut Seat) {}

    fn move_clock(_: &Table, _: &mut Seat) {}

    fn read_guards(table: &Table, seat: &mut Seat) {
        seat.report.clear();
        for number in 0..table.seats {
            for index in 0..INDEXES {
                let link = table.load(table.index(number, index));
                if link != 0 {
                    seat.report.push((link, link));
                }
            }
        }
    }

    fn keeps(found: (u64, u64), life: &Lifetime) -> bool {
        found.0 == life.slot as u64 + 1
    }
}
