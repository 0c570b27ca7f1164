//! Values in cells: none is dropped while it is read, and each is dropped once.
use std::sync::atomic::{AtomicUsize, Ordering::SeqCst};
use std::thread;
use wfe::{CellError, Cells, Scheme, Setting};

const SCHEMES: [Scheme; 4] = [Scheme::HazardEras, Scheme::Intervals, Scheme::WaitFreeEras, Scheme::HazardPointers];

/// A value that counts itself, and says whether it is there.
struct Counted<'a> {
    there: &'a AtomicUsize,
    words: [u64; 8],
}

impl<'a> Counted<'a> {
    fn boxed(there: &'a AtomicUsize, word: u64) -> Box<Counted<'a>> {
        there.fetch_add(1, SeqCst);
        Box::new(Counted { there, words: [word; 8] })
    }

    fn whole(&self) -> u64 {
        assert!(self.words.iter().all(|word| *word == self.words[0] && *word != u64::MAX), "it was dropped while it was read");
        self.words[0]
    }
}

impl Drop for Counted<'_> {
    fn drop(&mut self) {
        self.whole();
        self.words = [u64::MAX; 8];
        self.there.fetch_sub(1, SeqCst);
    }
}

fn setting(scheme: Scheme, cells: u32, threads: u32) -> Setting {
    Setting { slots: 512, every: 4, buckets: cells, pairs: 6, ..Setting::usual(scheme, threads, 1) }
}

fn put<'a>(cells: &mut Cells<Counted<'a>>, cell: usize, mut value: Box<Counted<'a>>) {
    loop {
        value = match cells.swap(cell, value) {
            Ok(_) => return,
            Err(CellError::Full { value }) => value.unwrap(),
            Err(why) => panic!("{why}"),
        };
        cells.scan();
        thread::yield_now();
    }
}

#[test]
fn values_are_read_while_others_replace_them() {
    for scheme in SCHEMES {
        let there = AtomicUsize::new(0);
        let handles = Cells::with_setting(setting(scheme, 8, 4)).unwrap();
        thread::scope(|scope| {
            for (number, mut cells) in handles.into_iter().enumerate() {
                let there = &there;
                scope.spawn(move || {
                    let mut draw = number as u64 + 1;
                    for turn in 0..4_000 {
                        draw = draw.wrapping_mul(6364136223846793005).wrapping_add(1442695040888963407);
                        let cell = (draw >> 40) as usize % cells.len();
                        match draw >> 60 {
                            0..=5 => put(&mut cells, cell, Counted::boxed(there, cell as u64 + 100)),
                            6 => drop(cells.clear(cell)),
                            _ => {
                                if let Some(value) = cells.load(cell) {
                                    assert_eq!(value.whole(), cell as u64 + 100);
                                    assert_eq!(value.whole(), cell as u64 + 100);
                                }
                            }
                        }
                        if turn == 3_000 {
                            cells.adopt_left();
                        }
                    }
                });
            }
        });
        assert_eq!(there.load(SeqCst), 0, "each value was dropped");
    }
}

#[test]
fn a_value_stays_while_it_is_read() {
    let there = AtomicUsize::new(0);
    let mut handles = Cells::with_setting(setting(Scheme::HazardPointers, 1, 2)).unwrap();
    let (mut reader, mut writer) = (handles.remove(0), handles.remove(0));
    assert!(reader.load(0).is_none());
    put(&mut writer, 0, Counted::boxed(&there, 1));
    let value = reader.load(0).unwrap();
    for word in 2..20 {
        put(&mut writer, 0, Counted::boxed(&there, word));
    }
    assert_eq!(writer.scan(), 1);
    assert_eq!((value.whole(), value.version(), there.load(SeqCst)), (1, 1, 2));
    drop(value);
    assert_eq!((writer.scan(), there.load(SeqCst)), (0, 1));
    assert_eq!(reader.load(0).unwrap().whole(), 19);
    writer.clear(0).unwrap();
    assert!(reader.load(0).is_none());
    assert_eq!((writer.scan(), there.load(SeqCst)), (0, 0));
}

#[test]
fn a_swap_at_a_version_is_refused_at_another() {
    let there = AtomicUsize::new(0);
    let mut cells = Cells::with_setting(setting(Scheme::WaitFreeEras, 2, 1)).unwrap().remove(0);
    assert_eq!(cells.compare_swap(1, 0, Counted::boxed(&there, 1)).unwrap(), 1);
    for wrong in [0, 2, u64::MAX] {
        match cells.compare_swap(1, wrong, Counted::boxed(&there, 2)) {
            Err(CellError::Stale { version: 1, value: Some(value) }) => assert_eq!(value.whole(), 2),
            _ => panic!("it was not refused"),
        }
    }
    let version = cells.load(1).unwrap().version();
    assert_eq!(cells.compare_swap(1, version, Counted::boxed(&there, 3)).unwrap(), 2);
    assert_eq!(cells.load(1).unwrap().whole(), 3);
    assert_eq!((cells.version(1), cells.version(0)), (2, 0));
    drop(cells);
    assert_eq!(there.load(SeqCst), 0);
}

#[test]
fn what_a_handle_leaves_is_adopted() {
    let there = AtomicUsize::new(0);
    let mut handles = Cells::with_setting(setting(Scheme::HazardPointers, 1, 3)).unwrap();
    let (mut reader, mut writer, mut heir) = (handles.remove(0), handles.remove(0), handles.remove(0));
    put(&mut writer, 0, Counted::boxed(&there, 1));
    let value = reader.load(0).unwrap();
    put(&mut writer, 0, Counted::boxed(&there, 2));
    drop(writer);
    assert_eq!(heir.adopt_left(), 1);
    assert_eq!((heir.scan(), there.load(SeqCst), value.whole()), (1, 2, 1));
    drop(value);
    assert_eq!((heir.scan(), there.load(SeqCst)), (0, 1));
    drop(reader);
    drop(heir);
    assert_eq!(there.load(SeqCst), 0);
}

#[test]
fn a_handle_that_is_leaked_leaks_its_values_alone() {
    let there = AtomicUsize::new(0);
    let mut handles = Cells::with_setting(setting(Scheme::WaitFreeEras, 1, 2)).unwrap();
    put(&mut handles[0], 0, Counted::boxed(&there, 1));
    std::mem::forget(handles.pop());
    put(&mut handles[0], 0, Counted::boxed(&there, 2));
    assert_eq!(handles[0].load(0).unwrap().whole(), 2);
}

#[test]
#[should_panic(expected = "there are 2 cells, and no cell 2")]
fn a_cell_out_of_range_panics() {
    let mut cells = Cells::<u64>::new(Scheme::HazardPointers, 2, 1).unwrap().remove(0);
    cells.load(2);
}
