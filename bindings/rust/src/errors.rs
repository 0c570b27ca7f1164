use crate::seat::Seat;
use crate::setting::Field;
use std::error::Error;
use std::fmt;

/// Why no table was made.
#[derive(Clone, Copy, Debug, PartialEq, Eq)]
pub enum OpenError {
    /// A number of the setting is outside its range: the first such.
    BadSetting(Field),
    /// The setting is good, and memory ran out.
    NoMemory,
}

/// Why a change of a bucket was not made: reasons of its own, each at a version of the bucket and with its words, and those of all.
macro_rules! refusals {
    ($(#[$about:meta])* $name:ident: $($(#[$why:meta])* $reason:ident, $words:literal;)*) => {
        $(#[$about])*
        #[derive(Clone, Copy, Debug, PartialEq, Eq)]
        pub enum $name {
            $(
                $(#[$why])*
                $reason {
                    /// The bucket's version.
                    version: u64,
                },
            )*
            /// No row was free, though the call has scanned.
            Full,
            /// The bucket is at the setting's last version.
            Spent {
                /// That version.
                version: u64,
            },
        }

        impl fmt::Display for $name {
            fn fmt(&self, f: &mut fmt::Formatter<'_>) -> fmt::Result {
                match *self {
                    $($name::$reason { version } => write!(f, $words, version),)*
                    $name::Full => f.write_str(FULL),
                    $name::Spent { version } => write!(f, "the bucket is at its last version, {version}"),
                }
            }
        }

        impl Error for $name {}
    };
}

refusals! {
    /// Why a put changed nothing.
    PutError:
    /// The bucket had no room for another key, at this version.
    BucketFull, "the bucket had no room for another key, at version {}";
}

refusals! {
    /// Why a put that names a version changed nothing. Where it is not stale, the bucket's version is the one named.
    PutIfError:
    /// The bucket had this version, and another one was named.
    Stale, "another version was named than the bucket's, {}";
    /// The bucket had no room for another key, at this version.
    BucketFull, "the bucket had no room for another key, at version {}";
}

refusals! {
    /// Why a remove changed nothing. (It links a row without the key, where the key has a value.)
    RemoveError:
    /// The key had no value, at this version.
    Absent, "the key had no value, at version {}";
}

/// Why nothing was queued.
#[derive(Clone, Copy, Debug, PartialEq, Eq)]
pub enum EnqueueError {
    /// No row was free, though the call has scanned.
    Full,
    /// The queue is at the setting's last version.
    Spent {
        /// That number.
        number: u64,
    },
}

/// Why no list was adopted.
#[derive(Clone, Copy, Debug, PartialEq, Eq)]
pub enum AdoptError {
    /// That seat had not left.
    NotLeft,
    /// That seat's list has been adopted.
    AdoptedBefore,
    /// The table has no such seat.
    NoSuchSeat,
}

/// Why a table was not closed.
#[derive(Debug)]
pub enum CloseError {
    /// Another seat of the table has not left. This is the seat that was to close it, as it was.
    NotLast(Seat),
    /// There was no memory to read the table into: it is gone, as where its last seat leaves.
    NoMemory,
}

impl CloseError {
    /// The seat that was to close the table, if it is there still.
    pub fn into_seat(self) -> Option<Seat> {
        match self {
            CloseError::NotLast(seat) => Some(seat),
            CloseError::NoMemory => None,
        }
    }
}

/// The table has no such index, or no row may be kept at it, or a copy does not go upwards.
#[derive(Clone, Copy, Debug, PartialEq, Eq)]
pub struct IndexError;

/// Why a cell was not changed. It hands the value back that was to go there.
pub enum CellError<T> {
    /// The cell had another version than the one named.
    Stale {
        /// The cell's version.
        version: u64,
        /// The value that was to go there.
        value: Option<Box<T>>,
    },
    /// No row was free; try again when others have ended their guards, or adopt what those left that are gone.
    Full {
        /// The value that was to go there.
        value: Option<Box<T>>,
    },
    /// The cell is at its last version.
    Spent {
        /// The value that was to go there.
        value: Option<Box<T>>,
    },
}

impl<T> CellError<T> {
    /// The value that was to go into the cell; none where the cell was to be emptied.
    pub fn into_value(self) -> Option<Box<T>> {
        match self {
            CellError::Stale { value, .. } | CellError::Full { value } | CellError::Spent { value } => value,
        }
    }
}

const FULL: &str = "no row was free";

impl fmt::Display for OpenError {
    fn fmt(&self, f: &mut fmt::Formatter<'_>) -> fmt::Result {
        match self {
            OpenError::BadSetting(field) => write!(f, "the setting's {}", field.range()),
            OpenError::NoMemory => f.write_str("memory ran out"),
        }
    }
}

impl fmt::Display for EnqueueError {
    fn fmt(&self, f: &mut fmt::Formatter<'_>) -> fmt::Result {
        match *self {
            EnqueueError::Full => f.write_str(FULL),
            EnqueueError::Spent { number } => write!(f, "the queue is at its last number, {number}"),
        }
    }
}

impl fmt::Display for AdoptError {
    fn fmt(&self, f: &mut fmt::Formatter<'_>) -> fmt::Result {
        f.write_str(match self {
            AdoptError::NotLeft => "that seat has not left",
            AdoptError::AdoptedBefore => "that seat's list has been adopted",
            AdoptError::NoSuchSeat => "the table has no such seat",
        })
    }
}

impl fmt::Display for CloseError {
    fn fmt(&self, f: &mut fmt::Formatter<'_>) -> fmt::Result {
        f.write_str(match self {
            CloseError::NotLast(_) => "another seat of the table has not left",
            CloseError::NoMemory => "memory ran out",
        })
    }
}

impl fmt::Display for IndexError {
    fn fmt(&self, f: &mut fmt::Formatter<'_>) -> fmt::Result {
        f.write_str("the table has no such index, no row may be kept at it, or the copy does not go upwards")
    }
}

impl<T> fmt::Display for CellError<T> {
    fn fmt(&self, f: &mut fmt::Formatter<'_>) -> fmt::Result {
        match self {
            CellError::Stale { version, .. } => write!(f, "another version was named than the cell's, {version}"),
            CellError::Full { .. } => f.write_str(FULL),
            CellError::Spent { .. } => f.write_str("the cell is at its last version"),
        }
    }
}

impl<T> fmt::Debug for CellError<T> {
    fn fmt(&self, f: &mut fmt::Formatter<'_>) -> fmt::Result {
        f.write_str(match self {
            CellError::Stale { .. } => "Stale",
            CellError::Full { .. } => "Full",
            CellError::Spent { .. } => "Spent",
        })
    }
}

impl<T> Error for CellError<T> {}
impl Error for OpenError {}
impl Error for EnqueueError {}
impl Error for AdoptError {}
impl Error for CloseError {}
impl Error for IndexError {}
