//! A table that threads share: a map of buckets and a queue, without locks, whose rows are reclaimed by Hazard Eras, 2GE intervals,
//! Wait-Free Eras or hazard pointers. The machine code underneath comes from a proof; this crate is a safe wrapper of it, which is
//! tested.
//!
//! A [`Table`] is made of a [`Setting`], and hands out its [`Seat`]s. A seat makes one call at a time (`&mut self`), may go to another
//! thread, and leaves the table when it is dropped; the table's memory goes with its last seat, which may close the table in place of
//! leaving ([`Seat::close`]) and gets all that it held.
//!
//! ```
//! use wfe::{Scheme, Setting, Table};
//!
//! let table = Table::new(Setting::usual(Scheme::WaitFreeEras, 2, 100))?;
//! std::thread::scope(|scope| {
//!     for mut seat in table {
//!         scope.spawn(move || loop {
//!             let got = seat.get(7);
//!             let next = got.value.unwrap_or(0) + 1;
//!             if seat.put_if(7, next, got.version).is_ok() {
//!                 break;
//!             }
//!         });
//!     }
//! });
//! # Ok::<(), wfe::OpenError>(())
//! ```
//!
//! [`Cells`] keeps values of any type in an array of cells, which threads read in place while others replace them; a value is dropped
//! once nobody reads it.
//!
//! No call of a seat takes a lock, waits or takes memory. Under Wait-Free Eras a [`Seat::get`] takes a bounded number of steps,
//! whatever the other threads do.
//!
//! A seat makes one call at a time, so it can't be shared:
//!
//! ```compile_fail
//! fn shared_by_threads<T: Sync>() {}
//! shared_by_threads::<wfe::Seat>();
//! ```
//!
//! and one that has left makes none:
//!
//! ```compile_fail
//! # use wfe::{Scheme, Setting, Table};
//! let mut seat = Table::new(Setting::usual(Scheme::HazardEras, 1, 1)).unwrap().next().unwrap();
//! seat.leave();
//! seat.get(7);
//! ```
#![warn(missing_docs)]
#![deny(unsafe_code)]

#[allow(unsafe_code)]
mod border;
mod closed;
mod errors;
mod seat;
mod setting;
mod table;

pub use border::{Cells, Guard};
pub use closed::{Bucket, Closed, QueuedValue};
pub use errors::{AdoptError, CellError, CloseError, EnqueueError, IndexError, OpenError, PutError, PutIfError, RemoveError};
pub use seat::{ClockMove, Done, Got, Looked, Notes, Queued, Scanned, Seat, Taken};
pub use setting::{Field, Scheme, Setting};
pub use table::Table;
