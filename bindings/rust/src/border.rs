//! The border to the library: all of this crate that is `unsafe`.
//!
//! What the library owes by its proof is said by the contracts of the crate `wfe_c` (`crates/wfe_c/src`); what it is owed, by five
//! sentences of `bindings/c/wfe.h`. Each block below names which of them it keeps.

mod cells;

pub use cells::{Cells, Guard};

use crate::setting::{Scheme, Setting};
use std::mem::{offset_of, size_of, MaybeUninit};

/// The code of a number of seats that is out of range, the first number that is judged.
const BAD_SEATS: u32 = 19;

/// An answer, as `wfe_answer` of C.
#[repr(C)]
#[derive(Clone, Copy, Debug)]
pub(crate) struct Answer {
    pub code: u32,
    pub clock: u32,
    pub era: u32,
    pub slot: u32,
    pub number: u64,
    pub value: u64,
}

/// `wfe_coded`.
#[repr(C)]
pub(crate) struct Coded {
    pub code: u32,
    pub word: u64,
}

/// `wfe_taken`.
#[repr(C)]
pub(crate) struct TakenTold {
    pub number: u64,
    pub value: u64,
    pub clock: u32,
    pub era: u32,
}

/// `wfe_notes_told`.
#[repr(C)]
#[derive(Clone, Copy, Debug)]
pub(crate) struct NotesTold {
    pub code: u32,
    pub given: u32,
    pub retired: u32,
    pub unused: u32,
    pub early: u32,
    pub backs: u64,
    pub steps: u64,
}

/// `wfe_about_told`.
#[repr(C)]
#[derive(Clone, Copy, Debug)]
pub(crate) struct AboutTold {
    pub code: u32,
    pub number: u32,
    pub listed: u64,
    pub setting: Setting,
}

/// `wfe_closed_told`.
#[repr(C)]
#[derive(Clone, Copy, Debug)]
pub(crate) struct ClosedTold {
    pub code: u32,
    pub clock: u32,
    pub buckets: u64,
    pub queued: u64,
    pub used: u64,
}

/// `wfe_seat`. It is neither `Copy` nor `Clone`: the library wants one handle for a seat. What lies before and after the words keeps
/// them off the lines of the cache that hold something else.
#[repr(C)]
pub(crate) struct Handle {
    before: [u64; 7],
    state: u32,
    at: *mut u8,
    after: [u64; 7],
}

impl Handle {
    /// All zeros: no seat.
    const NONE: Handle = Handle { before: [0; 7], state: 0, at: std::ptr::null_mut(), after: [0; 7] };
}

// The exports of the crate `wfe_c`. No pointer is null. A setting's scheme is one of the four: the one asked for (the clause of
// `wfe_c_usual`), a table's, or 0 (`setting_of` and `zeros` in the crate's `specs/Setting.antt`).
extern "C" {
    fn wfe_c_usual(scheme: Scheme, threads: u32, keys: u32) -> Setting;
    fn wfe_c_open(setting: Setting, seats: *mut Handle, count: usize) -> u32;
    fn wfe_c_leave(seat: *mut Handle) -> Answer;
    fn wfe_c_adopt(seat: *mut Handle, place: u32) -> Answer;
    fn wfe_c_get(seat: *mut Handle, key: u64, number: *mut u64) -> Coded;
    fn wfe_c_put(seat: *mut Handle, key: u64, value: u64) -> Answer;
    fn wfe_c_put_if(seat: *mut Handle, key: u64, value: u64, version: u64) -> Answer;
    fn wfe_c_remove(seat: *mut Handle, key: u64) -> Answer;
    fn wfe_c_enqueue(seat: *mut Handle, value: u64) -> Coded;
    fn wfe_c_dequeue(seat: *mut Handle, taken: *mut TakenTold) -> u32;
    fn wfe_c_hold(seat: *mut Handle, key: u64) -> Answer;
    fn wfe_c_release(seat: *mut Handle) -> Answer;
    fn wfe_c_copy(seat: *mut Handle, from: u32, index: u32) -> Answer;
    fn wfe_c_look(seat: *mut Handle, index: u32, key: u64) -> Answer;
    fn wfe_c_drop_index(seat: *mut Handle, index: u32) -> Answer;
    fn wfe_c_advance(seat: *mut Handle) -> Answer;
    fn wfe_c_scan(seat: *mut Handle) -> Answer;
    fn wfe_c_notes(seat: *mut Handle) -> NotesTold;
    fn wfe_c_backs(seat: *mut Handle, slots: *mut u32, room: usize) -> Answer;
    fn wfe_c_about(seat: *mut Handle) -> AboutTold;
    fn wfe_c_seen(seat: *mut Handle, bucket: u32) -> Answer;
    fn wfe_c_close(seat: *mut Handle) -> u32;
    fn wfe_c_closed(seat: *mut Handle) -> ClosedTold;
    fn wfe_c_closed_bucket(seat: *mut Handle, bucket: u32) -> Answer;
    fn wfe_c_closed_pair(seat: *mut Handle, bucket: u32, pair: u32) -> Answer;
    fn wfe_c_closed_queued(seat: *mut Handle, place: u32) -> Answer;
    fn wfe_c_closed_used(seat: *mut Handle, place: u32) -> Answer;
    fn wfe_c_end(seat: *mut Handle) -> u32;
}

// SAFETY: `Send` is proved of the handle's type in the crate `wfe_c` (`proofs/place/Place/TheSendSync`), and a handle that goes to
// another thread in safe Rust is ordered by what takes it there. It is not `Sync`: nothing is to make two calls at once.
unsafe impl Send for Handle {}

pub(crate) fn usual(scheme: Scheme, threads: u32, keys: u32) -> Setting {
    // SAFETY: numbers alone are passed, and the export requires nothing of them; the scheme comes back as it is.
    unsafe { wfe_c_usual(scheme, threads, keys) }
}

/// The handles of a new table's seats, or the code of why there is none.
pub(crate) fn open(setting: &Setting) -> Result<Vec<Handle>, u32> {
    if !(1..=64).contains(&setting.seats) {
        return Err(BAD_SEATS);
    }
    let mut handles: Vec<Handle> = (0..setting.seats).map(|_| Handle::NONE).collect();
    // SAFETY: so many handles are at the pointer, and each is all zeros.
    match unsafe { wfe_c_open(*setting, handles.as_mut_ptr(), handles.len()) } {
        0 => Ok(handles),
        code => Err(code),
    }
}

macro_rules! calls {
    ($($export:ident $name:ident($($argument:ident: $kind:ty),*) -> $answer:ty;)*) => {
        impl Handle {
            $(
                #[inline]
                pub(crate) fn $name(&mut self, $($argument: $kind),*) -> $answer {
                    // SAFETY: the handle is what `open`, or a call, left in it, borrowed by this call alone, so that one call at a time
                    // is made with it.
                    unsafe { $export(self, $($argument),*) }
                }
            )*
        }
    };
}

calls! {
    wfe_c_leave leave() -> Answer;
    wfe_c_adopt adopt(place: u32) -> Answer;
    wfe_c_put put(key: u64, value: u64) -> Answer;
    wfe_c_put_if put_if(key: u64, value: u64, version: u64) -> Answer;
    wfe_c_remove remove(key: u64) -> Answer;
    wfe_c_enqueue enqueue(value: u64) -> Coded;
    wfe_c_hold hold(key: u64) -> Answer;
    wfe_c_release release() -> Answer;
    wfe_c_copy copy(from: u32, index: u32) -> Answer;
    wfe_c_look look(index: u32, key: u64) -> Answer;
    wfe_c_drop_index drop_index(index: u32) -> Answer;
    wfe_c_advance advance() -> Answer;
    wfe_c_scan scan() -> Answer;
    wfe_c_notes notes() -> NotesTold;
    wfe_c_about about() -> AboutTold;
    wfe_c_seen seen(bucket: u32) -> Answer;
    wfe_c_close close() -> u32;
    wfe_c_closed closed() -> ClosedTold;
    wfe_c_closed_bucket closed_bucket(bucket: u32) -> Answer;
    wfe_c_closed_pair closed_pair(bucket: u32, pair: u32) -> Answer;
    wfe_c_closed_queued closed_queued(place: u32) -> Answer;
    wfe_c_closed_used closed_used(place: u32) -> Answer;
    wfe_c_end end() -> u32;
}

macro_rules! told_calls {
    ($($export:ident $name:ident($($argument:ident: $kind:ty),*) -> $code:ty, $told:ty;)*) => {
        impl Handle {
            $(
                #[inline]
                pub(crate) fn $name(&mut self, $($argument: $kind),*) -> ($code, $told) {
                    let mut told = MaybeUninit::<$told>::uninit();
                    // SAFETY: as of the calls above, and there is room at the pointer, which this call alone uses. The export writes all
                    // of it, whatever it answers.
                    unsafe { ($export(self, $($argument,)* told.as_mut_ptr()), told.assume_init()) }
                }
            )*
        }
    };
}

told_calls! {
    wfe_c_get get(key: u64) -> Coded, u64;
    wfe_c_dequeue dequeue() -> u32, TakenTold;
}

impl Handle {
    /// Writes the slots that went back in the last call, as many as there is room for, and gives how many there were.
    pub(crate) fn backs(&mut self, slots: &mut [u32]) -> usize {
        // SAFETY: as of the calls above; and the slice is as long as is said, and borrowed by this call alone.
        let answer = unsafe { wfe_c_backs(self, slots.as_mut_ptr(), slots.len()) };
        answer.number as usize
    }
}

const _: () = {
    assert!(size_of::<Handle>() == 128 && offset_of!(Handle, state) == 56 && offset_of!(Handle, at) == 64);
    assert!(size_of::<Answer>() == 32 && size_of::<NotesTold>() == 40 && size_of::<Coded>() == 16 && size_of::<TakenTold>() == 24);
    assert!(size_of::<Setting>() == 48 && size_of::<AboutTold>() == 64 && size_of::<ClosedTold>() == 32);
};
