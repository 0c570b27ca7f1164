//! What is measured: the calls of each thread.

/// Keys of the map, which are all there from the start.
const KEYS: u64 = 128;

/// Which calls are made.
#[derive(Clone, Copy)]
pub enum Work {
    /// Gets alone.
    Reads,
    /// Nine gets and a put.
    Mixed,
    /// Puts alone.
    Puts,
    /// An enqueue and a dequeue by turns.
    Pairs,
}

impl Work {
    pub fn named(name: &str) -> Option<Work> {
        match name {
            "reads" => Some(Work::Reads),
            "mixed" => Some(Work::Mixed),
            "puts" => Some(Work::Puts),
            "pairs" => Some(Work::Pairs),
            _ => None,
        }
    }
}

/// The calls of one thread. Each gives the sum of what it answered, or none where it was refused.
pub trait Caller: Send {
    fn get(&mut self, key: u64) -> Option<u64>;
    fn put(&mut self, key: u64, value: u64) -> Option<u64>;
    fn enqueue(&mut self, value: u64) -> Option<u64>;
    fn dequeue(&mut self) -> Option<u64>;
    /// How many rows the thread's retire list had at most, where it has one of its own.
    fn longest(&self) -> Option<usize> {
        None
    }
}

/// What came of the calls.
pub struct Done {
    pub refused: u64,
    /// Of what the others answered.
    pub sum: u64,
    /// The longest retire list of a thread.
    pub longest: Option<usize>,
}

// So many calls of one thread.
fn call<C: Caller>(caller: &mut C, work: Work, number: u64, calls: u64) -> Done {
    let mut refused = 0;
    let mut sum = 0u64;
    let mut random = number + 1;
    for turn in 0..calls {
        random = random
            .wrapping_mul(6_364_136_223_846_793_005)
            .wrapping_add(1_442_695_040_888_963_407);
        let key = (random >> 33) % KEYS;
        let told = match work {
            Work::Reads => caller.get(key),
            Work::Mixed if turn % 10 != 0 => caller.get(key),
            Work::Mixed | Work::Puts => caller.put(key, turn),
            Work::Pairs if turn % 2 == 0 => caller.enqueue(turn),
            Work::Pairs => caller.dequeue(),
        };
        match told {
            Some(told) => sum = sum.wrapping_add(told),
            None => refused += 1,
        }
    }
    Done {
        refused,
        sum,
        longest: caller.longest(),
    }
}

/// Puts each key once, and then has each caller make so many calls on a thread of its own.
pub fn run_callers<C: Caller>(mut callers: Vec<C>, work: Work, calls: u64) -> Done {
    if let Some(first) = callers.first_mut() {
        for key in 0..KEYS {
            first.put(key, key);
        }
    }
    std::thread::scope(|scope| {
        let threads: Vec<_> = callers
            .into_iter()
            .enumerate()
            .map(|(number, mut caller)| {
                scope.spawn(move || call(&mut caller, work, number as u64, calls))
            })
            .collect();
        let mut done = Done {
            refused: 0,
            sum: 0,
            longest: None,
        };
        for thread in threads {
            match thread.join() {
                Ok(one) => {
                    done.refused += one.refused;
                    done.sum = done.sum.wrapping_add(one.sum);
                    done.longest = done.longest.max(one.longest);
                }
                Err(_) => done.refused += calls,
            }
        }
        done
    })
}
