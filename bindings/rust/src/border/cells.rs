//! Cells with a value each, which threads read in place while others replace it.

use crate::errors::{CellError, OpenError, PutIfError};
use crate::seat::Seat;
use crate::setting::{Scheme, Setting};
use crate::table::Table;
use std::fmt;
use std::marker::PhantomData;
use std::mem;
use std::ops::Deref;
use std::ptr::NonNull;
use std::sync::{Arc, Mutex, MutexGuard, PoisonError};

/// By slot: the value of a row that was retired, until the row goes back.
type Retired<T> = Vec<Option<NonNull<T>>>;

/// What the handles of one array have in common: how many there are, and what those left that are gone.
struct Common<T> {
    handles: usize,
    left: Vec<(u32, Retired<T>)>,
}

/// One thread's handle of an array of cells, each of which has a value or none, and a version, which each change raises.
///
/// [`Cells::load`] reads a cell's value in place, without a copy and without a lock, while other threads replace it. A value that was
/// replaced is dropped once no handle reads it: when its row went back, which is found in a later call of the handle that replaced it.
/// What is still there when the last handle is dropped is dropped then.
///
/// ```
/// use wfe::{Cells, Scheme};
///
/// let mut handles = Cells::<String>::new(Scheme::HazardPointers, 8, 2)?;
/// let (mut mine, mut other) = (handles.remove(0), handles.remove(0));
/// mine.swap(3, Box::new("three".into())).expect("there is room");
/// let thread = std::thread::spawn(move || {
///     let version = other.load(3).expect("it has a value").version();
///     other.compare_swap(3, version, Box::new("drei".into())).expect("nobody else writes")
/// });
/// thread.join().unwrap();
/// assert_eq!(mine.load(3).as_deref().map(String::as_str), Some("drei"));
/// # Ok::<(), wfe::OpenError>(())
/// ```
///
/// A value that is read keeps its handle borrowed, so that the handle can neither be dropped nor read another cell:
///
/// ```compile_fail
/// # let mut cells = wfe::Cells::<String>::new(wfe::Scheme::HazardPointers, 8, 1).unwrap().remove(0);
/// let value = cells.load(3);
/// drop(cells);
/// println!("{:?}", value.as_deref());
/// ```
///
/// Values are read by many threads and dropped in any, so they are to be `Send` and `Sync`:
///
/// ```compile_fail
/// let cells = wfe::Cells::<std::cell::Cell<u8>>::new(wfe::Scheme::HazardPointers, 8, 1).unwrap().remove(0);
/// std::thread::spawn(move || drop(cells));
/// ```
pub struct Cells<T> {
    seat: Seat,
    cells: usize,
    retired: Retired<T>,
    room: Vec<u32>,
    common: Arc<Mutex<Common<T>>>,
    values: PhantomData<T>,
}

// SAFETY: a handle owns its seat, which is `Send`, and pointers to values that others read by `&T` and that any handle may drop: so it
// may go to another thread where `T` is `Send` and `Sync`.
unsafe impl<T: Send + Sync> Send for Cells<T> {}

/// A value that is read: no thread drops it while this is there.
pub struct Guard<'a, T> {
    cells: &'a mut Cells<T>,
    at: NonNull<T>,
    version: u64,
}

/// Takes the value as a number, which a cell has; 0 is no value.
fn number_of<T>(value: Option<Box<T>>) -> u64 {
    value.map_or(0, |value| Box::into_raw(value) as usize as u64)
}

fn pointer_of<T>(number: u64) -> Option<NonNull<T>> {
    NonNull::new(number as usize as *mut T)
}

fn locked<T>(common: &Mutex<Common<T>>) -> MutexGuard<'_, Common<T>> {
    common.lock().unwrap_or_else(PoisonError::into_inner)
}

/// Drops the value, if there is one.
///
/// # Safety
///
/// The pointer came from a `Box`, nobody reads the value, and nobody else drops it.
unsafe fn drop_value<T>(at: Option<NonNull<T>>) {
    if let Some(at) = at {
        // SAFETY: the caller's.
        drop(unsafe { Box::from_raw(at.as_ptr()) });
    }
}

impl<T> Cells<T> {
    /// An array of 1 to 1,024 cells without values, as so many handles of it, 1 to 64, one for each thread.
    pub fn new(scheme: Scheme, cells: u32, threads: u32) -> Result<Vec<Cells<T>>, OpenError> {
        Cells::with_setting(Setting { buckets: cells, pairs: 6, ..Setting::usual(scheme, threads, 1) })
    }

    /// The same by a setting: its buckets are the cells, and its seats the handles.
    pub fn with_setting(setting: Setting) -> Result<Vec<Cells<T>>, OpenError> {
        let table = Table::new(setting)?;
        let common = Arc::new(Mutex::new(Common { handles: table.len(), left: Vec::new() }));
        let rows = setting.slots as usize + 1;
        let handle = |seat| Cells {
            seat,
            cells: setting.buckets as usize,
            retired: (0..rows).map(|_| None).collect(),
            room: vec![0; 2 * rows],
            common: Arc::clone(&common),
            values: PhantomData,
        };
        Ok(table.map(handle).collect())
    }

    /// How many cells there are.
    pub fn len(&self) -> usize {
        self.cells
    }

    /// Whether there is no cell, which is never so.
    pub fn is_empty(&self) -> bool {
        self.cells == 0
    }

    /// A cell's key: each bucket has one.
    fn key_of(&self, cell: usize) -> u64 {
        assert!(cell < self.cells, "there are {} cells, and no cell {cell}", self.cells);
        cell as u64
    }

    /// The cell's value, to be read in place, or none where it has none. Under Wait-Free Eras it takes a bounded number of steps.
    ///
    /// # Panics
    ///
    /// Where there is no such cell.
    pub fn load(&mut self, cell: usize) -> Option<Guard<'_, T>> {
        let key = self.key_of(cell);
        let (version, number, _) = self.look(key);
        match pointer_of(number) {
            Some(at) => Some(Guard { cells: self, at, version }),
            None => {
                self.seat.release();
                None
            }
        }
    }

    /// The cell's version: how many changes it has seen.
    ///
    /// # Panics
    ///
    /// Where there is no such cell.
    pub fn version(&mut self, cell: usize) -> u64 {
        let key = self.key_of(cell);
        self.seat.get(key).version
    }

    /// Holds the cell's row, and gives the version and the number that it has, and its slot.
    fn look(&mut self, key: u64) -> (u64, u64, Option<u32>) {
        let held = self.seat.hold(key);
        match self.seat.look(2, key) {
            Ok(Some(row)) if held.is_some() => (row.version, row.value.unwrap_or(0), held),
            _ => (0, 0, None),
        }
    }

    /// Gives the cell this value, whatever it had, which is dropped once nobody reads it. It makes the version that it gives.
    ///
    /// # Panics
    ///
    /// Where there is no such cell.
    pub fn swap(&mut self, cell: usize, value: Box<T>) -> Result<u64, CellError<T>> {
        self.change(cell, None, Some(value))
    }

    /// Gives the cell this value where it is at this version, as [`Guard::version`] or [`Cells::version`] gave it. It makes the next
    /// version.
    ///
    /// # Panics
    ///
    /// Where there is no such cell.
    pub fn compare_swap(&mut self, cell: usize, version: u64, value: Box<T>) -> Result<u64, CellError<T>> {
        self.change(cell, Some(version), Some(value))
    }

    /// Takes the cell's value away.
    ///
    /// # Panics
    ///
    /// Where there is no such cell.
    pub fn clear(&mut self, cell: usize) -> Result<u64, CellError<T>> {
        self.change(cell, None, None)
    }

    fn change(&mut self, cell: usize, wanted: Option<u64>, value: Option<Box<T>>) -> Result<u64, CellError<T>> {
        let key = self.key_of(cell);
        let number = number_of(value);
        let why = loop {
            let (version, old, held) = self.look(key);
            // (only what is looked at may be replaced: it is known which value goes with it)
            if wanted.is_some_and(|wanted| wanted != version) {
                self.seat.release();
                break PutIfError::Stale { version };
            }
            let end = self.seat.put_if(key, number, version);
            self.settle(held, old);
            self.seat.release();
            match end {
                Ok(done) => return Ok(done.version),
                Err(PutIfError::Stale { .. }) if wanted.is_none() => {}
                Err(why) => break why,
            }
        };
        // SAFETY: the number is that of the box above, which did not go into the table, so nobody else has it.
        let value = pointer_of(number).map(|at| unsafe { Box::from_raw(at.as_ptr()) });
        Err(match why {
            PutIfError::Stale { version } => CellError::Stale { version, value },
            PutIfError::Spent { .. } => CellError::Spent { value },
            PutIfError::Full | PutIfError::BucketFull { .. } => CellError::Full { value },
        })
    }

    /// After a change: drops the values of rows that went back, and keeps that of the row that it has retired, which was held.
    fn settle(&mut self, held: Option<u32>, old: u64) {
        let notes = self.seat.notes();
        let count = self.seat.backs(&mut self.room).1.min(self.room.len());
        let early = (notes.early as usize).min(count);
        self.drop_backs(0, early);
        if let (Some(slot), true) = (notes.retired, notes.retired == held) {
            self.retired[slot as usize] = pointer_of(old);
        }
        self.drop_backs(early, count);
    }

    fn drop_backs(&mut self, from: usize, to: usize) {
        for place in from..to {
            let at = self.retired[self.room[place] as usize].take();
            // SAFETY: the row of this slot was retired by this handle, or by one whose list it has adopted, and went back when it stood
            // at no index of any seat (clause `back` of `notes` in `wfe_table`): so no guard reads its value, and none will, since it is
            // linked no more. It goes back once (`no_reuse` of the laws), and is taken out of the list here, so it is dropped once.
            unsafe { drop_value(at) };
        }
    }

    /// Drops the values of this handle's rows that nobody reads: how many values wait still.
    pub fn scan(&mut self) -> usize {
        self.seat.scan();
        self.settle(None, 0);
        self.retired.iter().flatten().count()
    }

    /// Takes over what those handles left that are gone, so that their values are dropped by this one once nobody reads them: how many
    /// values there are. It takes a lock, as the drop of a handle does.
    pub fn adopt_left(&mut self) -> usize {
        let common = Arc::clone(&self.common);
        let mut common = locked(&common);
        let mut count = 0;
        for (place, retired) in mem::take(&mut common.left) {
            if self.seat.adopt(place).is_err() {
                common.left.push((place, retired));
                continue;
            }
            for (slot, at) in retired.into_iter().enumerate().filter(|(_, at)| at.is_some()) {
                self.retired[slot] = at;
                count += 1;
            }
        }
        count
    }
}

impl<T> Drop for Cells<T> {
    fn drop(&mut self) {
        let common = Arc::clone(&self.common);
        let mut common = locked(&common);
        common.handles -= 1;
        let retired = mem::take(&mut self.retired);
        if common.handles > 0 {
            let place = self.seat.number();
            self.seat.handle().leave();
            common.left.push((place, retired));
            return;
        }
        let all: Vec<Retired<T>> = mem::take(&mut common.left).into_iter().map(|(_, retired)| retired).collect();
        for at in all.into_iter().flatten().chain(retired) {
            // SAFETY: this is the last handle, and it is borrowed by no guard: nobody reads a value. Each row that is retired and not
            // back is on one list, and what is in cells is on none.
            unsafe { drop_value(at) };
        }
        for key in 0..self.cells as u64 {
            let number = self.seat.get(key).value.unwrap_or(0);
            // SAFETY: as above; the table goes with this handle, so nobody finds the value there again.
            unsafe { drop_value(pointer_of::<T>(number)) };
        }
    }
}

impl<T> fmt::Debug for Cells<T> {
    fn fmt(&self, f: &mut fmt::Formatter<'_>) -> fmt::Result {
        f.debug_struct("Cells").field("cells", &self.cells).finish_non_exhaustive()
    }
}

impl<T> Guard<'_, T> {
    /// The cell's version at which it had this value.
    pub fn version(&self) -> u64 {
        self.version
    }
}

impl<T> Deref for Guard<'_, T> {
    type Target = T;

    fn deref(&self) -> &T {
        // SAFETY: the row stands at index 2 of the seat until the handle's next call, and the handle is borrowed: so the row has not gone
        // back (it would have stood at no index), and its value is not dropped. Values are written before they are put, and read after
        // they are looked at: all steps of the table are sequentially consistent.
        unsafe { self.at.as_ref() }
    }
}

impl<T> Drop for Guard<'_, T> {
    fn drop(&mut self) {
        self.cells.seat.release();
    }
}

impl<T: fmt::Debug> fmt::Debug for Guard<'_, T> {
    fn fmt(&self, f: &mut fmt::Formatter<'_>) -> fmt::Result {
        fmt::Debug::fmt(&**self, f)
    }
}
