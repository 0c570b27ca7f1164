//! Who makes the calls: seats of the table, and threads on epochs.

#[cfg(feature = "crossbeam")]
use crate::crossbeam;
use crate::epochs::{EpochMap, EpochSeat};
use crate::schemes::{He, Hp, Ibr, Scheme, Wfe};
use crate::table::{Seat, Table};
use crate::work::{Caller, Done, Work, run_callers};
use crate::{map, queue};

// The sum of a version, or a number, and a value.
fn both(told: (u64, u64)) -> u64 {
    told.0.wrapping_add(told.1)
}

struct TableCaller<'a, S> {
    table: &'a Table,
    seat: Seat,
    scheme: std::marker::PhantomData<S>,
}

impl<S: Scheme + Send> Caller for TableCaller<'_, S> {
    fn get(&mut self, key: u64) -> Option<u64> {
        let (version, value) = map::get::<S>(self.table, &mut self.seat, key);
        Some(version.wrapping_add(value?))
    }

    fn put(&mut self, key: u64, value: u64) -> Option<u64> {
        map::put::<S>(self.table, &mut self.seat, key, value)
    }

    fn enqueue(&mut self, value: u64) -> Option<u64> {
        queue::enqueue::<S>(self.table, &mut self.seat, value)
    }

    fn dequeue(&mut self) -> Option<u64> {
        queue::dequeue::<S>(self.table, &mut self.seat).map(both)
    }

    fn longest(&self) -> Option<usize> {
        Some(self.seat.longest.max(self.seat.list.len()))
    }
}

fn run_table<S: Scheme + Send>(work: Work, threads: usize, calls: u64) -> Done {
    let table = Table::new(threads);
    let callers = (0..threads)
        .map(|number| TableCaller::<S> {
            table: &table,
            seat: Seat::new(number, threads),
            scheme: std::marker::PhantomData,
        })
        .collect();
    run_callers(callers, work, calls)
}

struct EpochCaller<'a> {
    map: &'a EpochMap,
    seat: EpochSeat,
}

impl Caller for EpochCaller<'_> {
    fn get(&mut self, key: u64) -> Option<u64> {
        self.map.get(&mut self.seat, key).map(both)
    }

    fn put(&mut self, key: u64, value: u64) -> Option<u64> {
        self.map.put(&mut self.seat, key, value)
    }

    fn enqueue(&mut self, _: u64) -> Option<u64> {
        None
    }

    fn dequeue(&mut self) -> Option<u64> {
        None
    }
}

fn run_epochs(work: Work, threads: usize, calls: u64) -> Done {
    let map = EpochMap::new(threads);
    let callers = (0..threads)
        .map(|number| EpochCaller {
            map: &map,
            seat: EpochSeat::new(number),
        })
        .collect();
    run_callers(callers, work, calls)
}

#[cfg(feature = "crossbeam")]
struct CrossbeamCaller<'a> {
    map: &'a crossbeam::Map,
    queue: &'a crossbeam::Queue,
}

#[cfg(feature = "crossbeam")]
impl Caller for CrossbeamCaller<'_> {
    fn get(&mut self, key: u64) -> Option<u64> {
        self.map.get(key).map(both)
    }

    fn put(&mut self, key: u64, value: u64) -> Option<u64> {
        self.map.put(key, value)
    }

    fn enqueue(&mut self, value: u64) -> Option<u64> {
        Some(self.queue.enqueue(value))
    }

    fn dequeue(&mut self) -> Option<u64> {
        self.queue.dequeue().map(both)
    }
}

#[cfg(feature = "crossbeam")]
fn run_crossbeam(work: Work, threads: usize, calls: u64) -> Done {
    let (map, queue) = (crossbeam::Map::new(), crossbeam::Queue::new());
    let callers = (0..threads)
        .map(|_| CrossbeamCaller {
            map: &map,
            queue: &queue,
        })
        .collect();
    run_callers(callers, work, calls)
}

/// Runs the work. A scheme that there is not is none.
pub fn run(scheme: &str, work: Work, threads: usize, calls: u64) -> Option<Done> {
    match scheme {
        "he" => Some(run_table::<He>(work, threads, calls)),
        "ibr" => Some(run_table::<Ibr>(work, threads, calls)),
        "wfe" => Some(run_table::<Wfe>(work, threads, calls)),
        "hp" => Some(run_table::<Hp>(work, threads, calls)),
        "epochs" => Some(run_epochs(work, threads, calls)),
        #[cfg(feature = "crossbeam")]
        "crossbeam" => Some(run_crossbeam(work, threads, calls)),
        _ => None,
    }
}
