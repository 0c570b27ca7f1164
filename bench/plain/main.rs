//! The map and the queue of the shared table in plain Rust, to measure against: the same words, the same
//! atomic steps in the same order, all sequentially consistent, and nothing proved. Beside them a map on
//! epochs, whose rows are boxes, and with `--cfg feature="crossbeam"` the map and a queue on crossbeam's epochs.
//!
//!     plain SCHEME WORK THREADS CALLS
//!
//! SCHEME is `he`, `ibr`, `wfe`, `hp`, `epochs` (no queue) or `crossbeam`; WORK is `reads`, `mixed`, `puts` or
//! `pairs`. Each thread makes CALLS calls.

mod boxed;
mod callers;
#[cfg(feature = "crossbeam")]
mod crossbeam;
mod epochs;
mod map;
mod queue;
mod reclaim;
mod schemes;
mod table;
mod work;

use std::process::ExitCode;

fn main() -> ExitCode {
    let words: Vec<String> = std::env::args().skip(1).collect();
    let [scheme, work, threads, calls] = words.as_slice() else {
        return usage();
    };
    let (Ok(threads), Ok(calls)) = (threads.parse(), calls.parse()) else {
        return usage();
    };
    let Some(work) = work::Work::named(work) else {
        return usage();
    };
    let Some(done) = callers::run(scheme, work, threads, calls) else {
        return usage();
    };
    print!(
        "{} calls, {} refused, sum {}",
        threads as u64 * calls,
        done.refused,
        done.sum
    );
    match done.longest {
        Some(rows) => println!(", {rows} rows in the longest retire list"),
        None => println!(),
    }
    ExitCode::SUCCESS
}

fn usage() -> ExitCode {
    eprintln!("usage: plain he|ibr|wfe|hp|epochs|crossbeam reads|mixed|puts|pairs THREADS CALLS");
    ExitCode::FAILURE
}
