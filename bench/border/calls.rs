//! The calls of `wfe_bench` through the crate for Rust: the same keys in the same order on the same table.
//!
//!     calls SCHEME WORK THREADS CALLS
//!
//! SCHEME is `he`, `ibr`, `wfe` or `hp`, and WORK is `reads`, `mixed`, `puts` or `pairs`. Each thread makes CALLS calls, and adds up what
//! they answer as `wfe_bench` does.
use std::process::ExitCode;
use std::thread;
use wfe::{Scheme, Seat, Setting, Table};

const KEYS: u64 = 128;

#[derive(Clone, Copy)]
enum Work {
    Reads,
    Mixed,
    Puts,
    Pairs,
}

fn scheme_named(name: &str) -> Option<Scheme> {
    Some(match name {
        "he" => Scheme::HazardEras,
        "ibr" => Scheme::Intervals,
        "wfe" => Scheme::WaitFreeEras,
        "hp" => Scheme::HazardPointers,
        _ => return None,
    })
}

fn work_named(name: &str) -> Option<Work> {
    Some(match name {
        "reads" => Work::Reads,
        "mixed" => Work::Mixed,
        "puts" => Work::Puts,
        "pairs" => Work::Pairs,
        _ => return None,
    })
}

fn get(seat: &mut Seat, key: u64) -> Option<u64> {
    let got = seat.get(key);
    Some(got.version.wrapping_add(got.value?))
}

fn put(seat: &mut Seat, key: u64, value: u64) -> Option<u64> {
    Some(seat.put(key, value).ok()?.version)
}

fn enqueue(seat: &mut Seat, value: u64) -> Option<u64> {
    Some(seat.enqueue(value).ok()?.number)
}

fn dequeue(seat: &mut Seat) -> Option<u64> {
    let taken = seat.dequeue()?;
    Some(taken.number.wrapping_add(taken.value))
}

// One call: the sum of what it answered, or none where it was refused.
fn call(seat: &mut Seat, work: Work, turn: u64, key: u64) -> Option<u64> {
    match work {
        Work::Reads => get(seat, key),
        Work::Mixed if turn % 10 == 0 => put(seat, key, turn),
        Work::Mixed => get(seat, key),
        Work::Puts => put(seat, key, turn),
        Work::Pairs if turn % 2 == 0 => enqueue(seat, turn),
        Work::Pairs => dequeue(seat),
    }
}

// How many calls were refused, and the sum of what the others answered.
fn work(seat: &mut Seat, work: Work, calls: u64) -> (u64, u64) {
    let (mut refused, mut sum) = (0, 0u64);
    let mut random = u64::from(seat.number()) + 1;
    for turn in 0..calls {
        random = random.wrapping_mul(6_364_136_223_846_793_005).wrapping_add(1_442_695_040_888_963_407);
        match call(seat, work, turn, (random >> 33) % KEYS) {
            Some(told) => sum = sum.wrapping_add(told),
            None => refused += 1,
        }
    }
    (refused, sum)
}

fn run(words: &[String]) -> Option<(u64, u64, u64)> {
    let [scheme, kind, threads, calls] = words else {
        return None;
    };
    let (scheme, kind) = (scheme_named(scheme)?, work_named(kind)?);
    let (threads, calls) = (threads.parse::<u32>().ok()?, calls.parse::<u64>().ok()?);
    let setting = Setting { slots: 4_096, buckets: 64, tries: 4, every: 8, ..Setting::usual(scheme, threads, 64) };
    let mut seats: Vec<Seat> = Table::new(setting).ok()?.collect();
    for key in 0..KEYS {
        put(&mut seats[0], key, key);
    }
    let (refused, sum) = thread::scope(|scope| {
        let mut rest = seats.iter_mut();
        let first = rest.next()?;
        let others: Vec<_> = rest.map(|seat| scope.spawn(move || work(seat, kind, calls))).collect();
        let mut all = work(first, kind, calls);
        for it in others {
            let (refused, sum) = it.join().ok()?;
            all = (all.0 + refused, all.1.wrapping_add(sum));
        }
        Some(all)
    })?;
    Some((u64::from(threads) * calls, refused, sum))
}

fn main() -> ExitCode {
    let words: Vec<String> = std::env::args().skip(1).collect();
    match run(&words) {
        Some((calls, refused, sum)) => {
            println!("{calls} calls, {refused} refused, sum {sum}");
            ExitCode::SUCCESS
        }
        None => {
            eprintln!("usage: calls he|ibr|wfe|hp reads|mixed|puts|pairs THREADS CALLS");
            ExitCode::FAILURE
        }
    }
}
