use crate::border;

/// The scheme that says when a row may be used again.
#[repr(u32)]
#[derive(Clone, Copy, Debug, PartialEq, Eq, Hash)]
pub enum Scheme {
    /// Hazard Eras (Ramalhete and Correia 2017).
    HazardEras = 0,
    /// 2GE intervals (Wen and others 2018).
    Intervals = 1,
    /// Wait-Free Eras (Nikolaev and Ravindran 2020): gets and holds are bounded in steps.
    WaitFreeEras = 2,
    /// Hazard pointers (Michael 2004).
    HazardPointers = 3,
}

/// How a table is made. [`Setting::usual`] gives one; each number may be set anew within its range.
///
/// ```
/// use wfe::{Scheme, Setting};
///
/// let setting = Setting { slots: 65_536, ..Setting::usual(Scheme::HazardPointers, 4, 1_000) };
/// assert_eq!((setting.seats, setting.buckets), (4, 1_000));
/// ```
// It crosses to C as it is, as `wfe_setting`.
#[repr(C)]
#[derive(Clone, Copy, Debug, PartialEq, Eq, Hash)]
pub struct Setting {
    /// When a row may be used again.
    pub scheme: Scheme,
    /// 1 to 64 seats: places for threads, for the table's whole time.
    pub seats: u32,
    /// 3 to 8 rows that a seat may protect: 0 and 1 serve its calls, 2 a hold, those from 3 on copies.
    pub indexes: u32,
    /// 2 to 65,536 rows.
    pub slots: u32,
    /// 1 to 1,024 buckets; a key's bucket is its remainder.
    pub buckets: u32,
    /// 1 to 64: under Wait-Free Eras, tries before a reader asks for help.
    pub tries: u32,
    /// 1 to 65,536: after so many retired rows a seat scans.
    pub every: u32,
    /// 1 to 4,294,967,295: where the clock stops.
    pub last_era: u32,
    /// 1 to 281,474,976,710,656: after which a bucket, or the queue, takes no more changes.
    pub last_version: u64,
    /// 6 or 14 keys of a bucket, at most.
    pub pairs: u32,
}

impl Setting {
    /// A setting for so many threads, with a seat each, and for so many keys that lie evenly in the buckets. It is good for 1 to 64
    /// threads and up to 14,336 keys.
    pub fn usual(scheme: Scheme, threads: u32, keys: u32) -> Setting {
        border::usual(scheme, threads, keys)
    }
}

/// A number of a setting.
#[derive(Clone, Copy, Debug, PartialEq, Eq, Hash)]
#[allow(missing_docs)]
pub enum Field {
    Seats,
    Indexes,
    Slots,
    Buckets,
    Tries,
    Every,
    LastEra,
    LastVersion,
    Pairs,
}

impl Field {
    pub(crate) fn of(code: u32) -> Option<Field> {
        use Field::*;
        let fields = [Seats, Indexes, Slots, Buckets, Tries, Every, LastEra, LastVersion, Pairs];
        fields.get(code.checked_sub(19)? as usize).copied()
    }

    /// The range of the number, in words.
    pub fn range(self) -> &'static str {
        match self {
            Field::Seats => "seats must be 1 to 64",
            Field::Indexes => "indexes must be 3 to 8",
            Field::Slots => "slots must be 2 to 65,536",
            Field::Buckets => "buckets must be 1 to 1,024",
            Field::Tries => "tries must be 1 to 64",
            Field::Every => "every must be 1 to 65,536",
            Field::LastEra => "last_era must be 1 to 4,294,967,295",
            Field::LastVersion => "last_version must be 1 to 281,474,976,710,656",
            Field::Pairs => "pairs must be 6 or 14",
        }
    }
}
