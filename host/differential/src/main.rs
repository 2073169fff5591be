//! Compares the static library with the reference on many random calls.
//!
//!     differential [SEED]         all histories of a seed
//!     differential SEED HISTORY   one of them
//!
//! On a difference the sheets and the call are written below `target/difference`.

mod addition;
mod call;
mod desk;
mod examiner;
mod forms;
mod history;
mod lent;
mod names;
mod report;
mod searcher;
mod searches;
mod sites;
mod stock;
mod tally;
#[cfg(test)]
mod worked;

use std::panic::{catch_unwind, AssertUnwindSafe};
use std::process::ExitCode;
use std::sync::atomic::{AtomicU64, Ordering};
use std::time::Instant;
use std::{env, thread};

use examiner::Examiner;
use history::{Experts, History};
use searcher::Searcher;
use stock::Stock;
use tally::Tally;

const SEED: u64 = 1;
const HISTORIES: u64 = 100_000;

/// The histories from one on up to another, all of one seed.
struct Work {
    seed: u64,
    next: AtomicU64,
    end: u64,
    stock: Stock,
}

fn main() -> ExitCode {
    let words: Option<Vec<u64>> = env::args().skip(1).map(|word| word.parse().ok()).collect();
    let (seed, first, end) = match words.as_deref() {
        Some([]) => (SEED, 0, HISTORIES),
        Some([seed]) => (*seed, 0, HISTORIES),
        Some([seed, history]) => (*seed, *history, history + 1),
        _ => {
            eprintln!("usage: differential [SEED [HISTORY]]");
            return ExitCode::FAILURE;
        }
    };
    let work = Work {
        seed,
        next: AtomicU64::new(first),
        end,
        stock: Stock::new(),
    };
    // Known even if the library takes the program down.
    println!("seed {seed}, histories {first} to {}\n", end - 1);
    let start = Instant::now();
    let Some(tally) = work.share_out() else {
        return ExitCode::FAILURE;
    };
    println!("{tally}");
    let seconds = start.elapsed().as_secs();
    println!("seed {seed}: no difference in {seconds} seconds");
    if end - first == HISTORIES {
        return require_enough(&tally);
    }
    ExitCode::SUCCESS
}

fn require_enough(tally: &Tally) -> ExitCode {
    let short = tally.shortfalls();
    for line in &short {
        eprintln!("too few {line}");
    }
    if short.is_empty() {
        ExitCode::SUCCESS
    } else {
        ExitCode::FAILURE
    }
}

impl Work {
    /// Runs all histories, on every processor; nothing if one shows a difference.
    fn share_out(&self) -> Option<Tally> {
        let threads = thread::available_parallelism().map_or(1, usize::from);
        thread::scope(|scope| {
            let workers: Vec<_> = (0..threads).map(|_| scope.spawn(|| self.take())).collect();
            let mut total = Some(Tally::new());
            for worker in workers {
                match (worker.join().ok().flatten(), &mut total) {
                    (Some(tally), Some(total)) => total.add(&tally),
                    _ => total = None,
                }
            }
            total
        })
    }

    /// Runs one history after the other until none is left.
    fn take(&self) -> Option<Tally> {
        let mut tally = Tally::new();
        let mut experts = Experts {
            examiner: Examiner::new(&self.stock),
            searcher: Searcher::new(&self.stock),
        };
        loop {
            let number = self.next.fetch_add(1, Ordering::Relaxed);
            if number >= self.end {
                return Some(tally);
            }
            if !self.run(number, &mut experts, &mut tally) {
                self.next.store(self.end, Ordering::Relaxed);
                return None;
            }
        }
    }

    fn run(&self, number: u64, experts: &mut Experts, tally: &mut Tally) -> bool {
        let history = || History::new(self.seed, number, &self.stock).run(experts, tally);
        match catch_unwind(AssertUnwindSafe(history)) {
            Ok(Ok(())) => true,
            Ok(Err(difference)) => {
                report::report(self.seed, number, &difference);
                false
            }
            Err(_) => {
                eprintln!("a call failed: seed {}, history {number}", self.seed);
                false
            }
        }
    }
}
