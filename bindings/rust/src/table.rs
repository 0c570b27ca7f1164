use crate::border;
use crate::errors::OpenError;
use crate::seat::Seat;
use crate::setting::{Field, Setting};
use std::iter::FusedIterator;
use std::vec;

/// A new table, as the seats that nobody has taken yet: an iterator of them, by number.
///
/// A seat keeps the table, so a `Table` that is dropped takes the seats along that are still in it, and no other.
///
/// ```
/// use wfe::{Scheme, Setting, Table};
///
/// let mut table = Table::new(Setting::usual(Scheme::HazardPointers, 3, 10))?;
/// let mut seat = table.next().expect("there are three");
/// drop(table);
/// assert_eq!(seat.put(1, 10).map(|done| done.version), Ok(1));
/// # Ok::<(), wfe::OpenError>(())
/// ```
#[derive(Debug)]
pub struct Table {
    setting: Setting,
    seats: vec::IntoIter<Seat>,
}

impl Table {
    /// Makes a table. All memory that it will ever need is taken here.
    pub fn new(setting: Setting) -> Result<Table, OpenError> {
        match border::open(&setting) {
            Ok(handles) => {
                let seats: Vec<Seat> = handles.into_iter().map(|handle| Seat::new(handle, setting)).collect();
                Ok(Table { setting, seats: seats.into_iter() })
            }
            Err(code) => Err(Field::of(code).map_or(OpenError::NoMemory, OpenError::BadSetting)),
        }
    }

    /// How the table was made.
    pub fn setting(&self) -> Setting {
        self.setting
    }
}

impl Iterator for Table {
    type Item = Seat;

    fn next(&mut self) -> Option<Seat> {
        self.seats.next()
    }

    fn size_hint(&self) -> (usize, Option<usize>) {
        self.seats.size_hint()
    }
}

impl ExactSizeIterator for Table {}

impl FusedIterator for Table {}
