use crate::border::{Answer, Handle};
use crate::closed::Closed;
use crate::errors::{AdoptError, CloseError, EnqueueError, IndexError, PutError, PutIfError, RemoveError};
use crate::setting::Setting;
use std::fmt;

const OK: u32 = 0;
const BAD_INDEX: u32 = 4;
const FULL: u32 = 5;
const BUCKET_FULL: u32 = 6;
const SPENT: u32 = 7;
const STALE: u32 = 8;
const ABSENT: u32 = 9;
const NOT_LEFT: u32 = 12;
const ADOPTED_BEFORE: u32 = 13;
const NOT_LAST: u32 = 28;
const NO_SLOT: u32 = u32::MAX;

/// A key's value, or that it has none, at a version of its bucket. Version 0 is that of a bucket that was never changed.
#[derive(Clone, Copy, Debug, PartialEq, Eq)]
pub struct Got {
    /// A version that the bucket had during the call.
    pub version: u64,
    /// The key's value at it.
    pub value: Option<u64>,
}

/// What came of the clock.
#[derive(Clone, Copy, Debug, PartialEq, Eq)]
pub enum ClockMove {
    /// No move was due.
    Still,
    /// This call moved the clock to this era.
    Moved(u32),
    /// Another call moved it: it was seen at this era.
    Other(u32),
    /// It stands at the setting's last era.
    Spent(u32),
}

/// A change was made.
#[derive(Clone, Copy, Debug, PartialEq, Eq)]
pub struct Done {
    /// The bucket's version that this change made.
    pub version: u64,
    /// What came of the clock in this call.
    pub clock: ClockMove,
}

/// A value was queued.
#[derive(Clone, Copy, Debug, PartialEq, Eq)]
pub struct Queued {
    /// Its number, from 1.
    pub number: u64,
}

/// The value that was at the queue's front.
#[derive(Clone, Copy, Debug, PartialEq, Eq)]
pub struct Taken {
    /// Its number, from 1.
    pub number: u64,
    /// The value.
    pub value: u64,
    /// What came of the clock in this call.
    pub clock: ClockMove,
}

/// What a row that stands at an index shows of a key.
#[derive(Clone, Copy, Debug, PartialEq, Eq)]
pub struct Looked {
    /// The row's slot.
    pub slot: u32,
    /// The version of its bucket that the row was.
    pub version: u64,
    /// The key's value at that version.
    pub value: Option<u64>,
}

/// What came of a scan.
#[derive(Clone, Copy, Debug, PartialEq, Eq)]
pub struct Scanned {
    /// How many rows stay on the seat's list.
    pub kept: u64,
    /// How many went back.
    pub back: u64,
}

/// What the last call of a seat did.
#[derive(Clone, Copy, Debug, PartialEq, Eq)]
pub struct Notes {
    /// Its atomic steps.
    pub steps: u64,
    /// The slot of the row that it was given.
    pub given: Option<u32>,
    /// Whether that row was given up again.
    pub unused: bool,
    /// The slot of the row that it retired.
    pub retired: Option<u32>,
    /// How many slots went back.
    pub backs: u64,
    /// How many of them did so before the call was given a row.
    pub early: u32,
}

/// A seat of a table: one thread's place. It leaves when it is dropped.
///
/// ```
/// use wfe::{PutIfError, Scheme, Setting, Table};
///
/// let mut seat = Table::new(Setting::usual(Scheme::WaitFreeEras, 1, 10))?.next().expect("there is one");
/// assert_eq!(seat.get(3).value, None);
/// let put = seat.put(3, 30).expect("there is room");
/// assert_eq!(seat.get(3).value, Some(30));
/// assert_eq!(seat.put_if(3, 31, 0), Err(PutIfError::Stale { version: put.version }));
/// assert_eq!(seat.dequeue(), None);
/// # Ok::<(), wfe::OpenError>(())
/// ```
pub struct Seat {
    handle: Handle,
    setting: Setting,
}

impl fmt::Debug for Seat {
    fn fmt(&self, f: &mut fmt::Formatter<'_>) -> fmt::Result {
        f.debug_struct("Seat").field("setting", &self.setting).finish_non_exhaustive()
    }
}

fn clock_of(clock: u32, era: u32) -> ClockMove {
    match clock {
        1 => ClockMove::Moved(era),
        2 => ClockMove::Other(era),
        3 => ClockMove::Spent(era),
        _ => ClockMove::Still,
    }
}

fn done(answer: &Answer) -> Done {
    Done { version: answer.number, clock: clock_of(answer.clock, answer.era) }
}

fn slot_of(slot: u32) -> Option<u32> {
    (slot != NO_SLOT).then_some(slot)
}

impl Seat {
    pub(crate) fn new(handle: Handle, setting: Setting) -> Seat {
        Seat { handle, setting }
    }

    pub(crate) fn handle(&mut self) -> &mut Handle {
        &mut self.handle
    }

    /// The setting of the seat's table.
    pub fn setting(&self) -> Setting {
        self.setting
    }

    /// The key's value, at a version that its bucket had during the call. Under Wait-Free Eras it takes at most
    /// `3 * tries + 18 + pairs` steps.
    #[inline]
    pub fn get(&mut self, key: u64) -> Got {
        let (told, version) = self.handle.get(key);
        Got { version, value: (told.code == OK).then_some(told.word) }
    }

    /// Gives the key this value.
    #[inline]
    pub fn put(&mut self, key: u64, value: u64) -> Result<Done, PutError> {
        let answer = self.handle.put(key, value);
        match answer.code {
            OK => Ok(done(&answer)),
            FULL => Err(PutError::Full),
            BUCKET_FULL => Err(PutError::BucketFull { version: answer.number }),
            SPENT => Err(PutError::Spent { version: answer.number }),
            code => unreachable!("code {code} of a put"),
        }
    }

    /// Gives the key this value where its bucket is at this version, and makes the next one.
    #[inline]
    pub fn put_if(&mut self, key: u64, value: u64, version: u64) -> Result<Done, PutIfError> {
        let answer = self.handle.put_if(key, value, version);
        match answer.code {
            OK => Ok(done(&answer)),
            STALE => Err(PutIfError::Stale { version: answer.number }),
            FULL => Err(PutIfError::Full),
            BUCKET_FULL => Err(PutIfError::BucketFull { version: answer.number }),
            SPENT => Err(PutIfError::Spent { version: answer.number }),
            code => unreachable!("code {code} of a put at a version"),
        }
    }

    /// Takes the key's value away.
    #[inline]
    pub fn remove(&mut self, key: u64) -> Result<Done, RemoveError> {
        let answer = self.handle.remove(key);
        match answer.code {
            OK => Ok(done(&answer)),
            ABSENT => Err(RemoveError::Absent { version: answer.number }),
            FULL => Err(RemoveError::Full),
            SPENT => Err(RemoveError::Spent { version: answer.number }),
            code => unreachable!("code {code} of a remove"),
        }
    }

    /// Puts a value at the queue's end.
    #[inline]
    pub fn enqueue(&mut self, value: u64) -> Result<Queued, EnqueueError> {
        let told = self.handle.enqueue(value);
        match told.code {
            OK => Ok(Queued { number: told.word }),
            FULL => Err(EnqueueError::Full),
            SPENT => Err(EnqueueError::Spent { number: told.word }),
            code => unreachable!("code {code} of an enqueue"),
        }
    }

    /// Takes the value at the queue's front, or none where it was empty.
    #[inline]
    pub fn dequeue(&mut self) -> Option<Taken> {
        let (code, told) = self.handle.dequeue();
        (code == OK).then(|| Taken { number: told.number, value: told.value, clock: clock_of(told.clock, told.era) })
    }

    /// Takes values from the queue's front until it was empty.
    ///
    /// ```
    /// # use wfe::{Scheme, Setting, Table};
    /// # let mut seat = Table::new(Setting::usual(Scheme::WaitFreeEras, 1, 10))?.next().unwrap();
    /// for value in [70, 71, 72] {
    ///     seat.enqueue(value).expect("there is room");
    /// }
    /// assert_eq!(seat.drain().map(|taken| taken.value).collect::<Vec<_>>(), [70, 71, 72]);
    /// # Ok::<(), wfe::OpenError>(())
    /// ```
    pub fn drain(&mut self) -> impl Iterator<Item = Taken> + '_ {
        std::iter::from_fn(|| self.dequeue())
    }

    /// Lets the row of the key's bucket stand at index 2, where it stays as it is until the next hold or release: its slot, or none
    /// where the bucket was never changed. Under Wait-Free Eras it takes at most `3 * tries + 16` steps.
    #[inline]
    pub fn hold(&mut self, key: u64) -> Option<u32> {
        let answer = self.handle.hold(key);
        (answer.code == OK).then_some(answer.slot)
    }

    /// Lets go of what stands at index 2.
    #[inline]
    pub fn release(&mut self) {
        self.handle.release();
    }

    /// Lets the row that stands at one index, from 2 on, stand at a higher one too: its slot, or none where nothing stands there.
    #[inline]
    pub fn copy(&mut self, from: u32, index: u32) -> Result<Option<u32>, IndexError> {
        let answer = self.handle.copy(from, index);
        match answer.code {
            BAD_INDEX => Err(IndexError),
            code => Ok((code == OK).then_some(answer.slot)),
        }
    }

    /// What the row that stands at an index, from 2 on, shows of the key; or none where nothing stands there.
    #[inline]
    pub fn look(&mut self, index: u32, key: u64) -> Result<Option<Looked>, IndexError> {
        let answer = self.handle.look(index, key);
        let looked = |value| Looked { slot: answer.slot, version: answer.number, value };
        match answer.code {
            OK => Ok(Some(looked(Some(answer.value)))),
            ABSENT => Ok(Some(looked(None))),
            BAD_INDEX => Err(IndexError),
            _ => Ok(None),
        }
    }

    /// Lets go of what stands at an index, from 2 on.
    #[inline]
    pub fn drop_index(&mut self, index: u32) -> Result<(), IndexError> {
        match self.handle.drop_index(index).code {
            BAD_INDEX => Err(IndexError),
            _ => Ok(()),
        }
    }

    /// Tries once to move the clock.
    pub fn advance(&mut self) -> ClockMove {
        let answer = self.handle.advance();
        clock_of(answer.clock, answer.era)
    }

    /// Reads all guards, and gives back the rows of the seat's list that none of them covers.
    pub fn scan(&mut self) -> Scanned {
        let answer = self.handle.scan();
        Scanned { kept: answer.number, back: answer.value }
    }

    /// Takes over the list that the seat of this number has left: so many rows, which go back from here on through this seat.
    ///
    /// ```
    /// # use wfe::{AdoptError, Scheme, Setting, Table};
    /// let mut seats: Vec<_> = Table::new(Setting::usual(Scheme::HazardPointers, 2, 10))?.collect();
    /// let mut gone = seats.pop().expect("there are two");
    /// for value in 0..5 {
    ///     gone.put(1, value).expect("there is room");
    /// }
    /// let place = gone.number();
    /// assert_eq!(seats[0].adopt(place), Err(AdoptError::NotLeft));
    /// let left = gone.leave();
    /// assert_eq!(seats[0].adopt(place), Ok(left));
    /// # Ok::<(), wfe::OpenError>(())
    /// ```
    pub fn adopt(&mut self, place: u32) -> Result<u64, AdoptError> {
        let answer = self.handle.adopt(place);
        match answer.code {
            OK => Ok(answer.number),
            NOT_LEFT => Err(AdoptError::NotLeft),
            ADOPTED_BEFORE => Err(AdoptError::AdoptedBefore),
            _ => Err(AdoptError::NoSuchSeat),
        }
    }

    /// Leaves the table, as a seat that is dropped does: how many rows were on its list, which another seat may adopt.
    pub fn leave(mut self) -> u64 {
        self.handle.leave().number
    }

    /// Closes the table, if each other seat of it has left: all that the table held. Where one has not, it hands the seat back.
    ///
    /// ```
    /// use wfe::{CloseError, Scheme, Setting, Table};
    ///
    /// let mut seats: Vec<_> = Table::new(Setting::usual(Scheme::WaitFreeEras, 2, 10))?.collect();
    /// let (mut other, mut seat) = (seats.pop().expect("there are two"), seats.pop().expect("there are two"));
    /// seat.put(7, 70).expect("there is room");
    /// other.enqueue(71).expect("there is room");
    ///
    /// let seat = match seat.close() {
    ///     Err(CloseError::NotLast(seat)) => seat,
    ///     _ => panic!("the other seat has not left"),
    /// };
    /// other.leave();
    /// let closed = seat.close().expect("it is the last one");
    /// assert_eq!(closed.pairs().collect::<Vec<_>>(), [(7, 70)]);
    /// assert_eq!(closed.queue().map(|it| it.value).collect::<Vec<_>>(), [71]);
    /// # Ok::<(), wfe::OpenError>(())
    /// ```
    pub fn close(mut self) -> Result<Closed, CloseError> {
        match self.handle.close() {
            OK => Ok(Closed::read(&mut self.handle)),
            NOT_LAST => Err(CloseError::NotLast(self)),
            _ => Err(CloseError::NoMemory),
        }
    }

    /// What the seat's last call did. This, and the methods below, are no calls in its sense.
    pub fn notes(&mut self) -> Notes {
        let told = self.handle.notes();
        Notes {
            steps: told.steps,
            given: slot_of(told.given),
            unused: told.unused != 0,
            retired: slot_of(told.retired),
            backs: told.backs,
            early: told.early,
        }
    }

    /// Writes the slots that went back in the seat's last call, in order, as many as there is room for; gives those, and how many
    /// there were.
    pub fn backs<'a>(&mut self, room: &'a mut [u32]) -> (&'a [u32], usize) {
        let count = self.handle.backs(room);
        let told = count.min(room.len());
        (&room[..told], count)
    }

    /// The seat's number, from 0: its place, for [`Seat::adopt`].
    pub fn number(&mut self) -> u32 {
        self.handle.about().number
    }

    /// How many rows are on the seat's list: retired or adopted by it, and not back.
    pub fn listed(&mut self) -> u64 {
        self.handle.about().listed
    }

    /// The greatest version that a call of this seat, but no look, told of the bucket; none where the table has no such bucket.
    pub fn seen(&mut self, bucket: u32) -> Option<u64> {
        let answer = self.handle.seen(bucket);
        (answer.code == OK).then_some(answer.number)
    }
}

impl Drop for Seat {
    fn drop(&mut self) {
        // (one that has left answers so, and nothing is done)
        self.handle.leave();
    }
}
