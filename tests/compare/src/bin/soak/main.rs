//! Serves random histories by the proved library and by the second program for
//! some seconds, on all cores, and compares every answer, every word of the state
//! after every batch, and audits of damaged states. Each history is fixed by its
//! seed; the seeds are a first one and those that follow. The first seed with a
//! difference ends it, and what shows the difference is kept in a folder.
//!
//!     soak FOLDER SECONDS [SEED]

#![deny(warnings)]

mod history;
mod keep;

use std::panic::{catch_unwind, AssertUnwindSafe};
use std::path::Path;
use std::process::ExitCode;
use std::sync::atomic::{AtomicU64, Ordering};
use std::sync::{Mutex, MutexGuard};
use std::time::{Duration, Instant, SystemTime, UNIX_EPOCH};
use std::{env, thread};

use history::{Compared, Difference, Shown};

/// More than the audit's largest marks need (`host/ivleague.h`).
const STACK: usize = 8 << 20;

/// What the threads share.
struct Soak {
    next: AtomicU64,
    until: Instant,
    found: Mutex<Option<Difference>>,
}

impl Soak {
    fn found(&self) -> MutexGuard<'_, Option<Difference>> {
        self.found.lock().expect("no thread panics while it writes")
    }

    /// Is the time over, or does the history of a lower seed differ?
    fn ended(&self, seed: u64) -> bool {
        let lower = |found: &Difference| found.seed < seed;
        Instant::now() >= self.until || self.found().as_ref().is_some_and(lower)
    }

    /// Serves history after history; what was compared.
    fn serve(&self) -> Compared {
        let mut compared = Compared::default();
        loop {
            let seed = self.next.fetch_add(1, Ordering::Relaxed);
            if self.ended(seed) {
                return compared;
            }
            let served = || history::serve(seed, &mut compared, || self.ended(seed));
            let served = catch_unwind(AssertUnwindSafe(served));
            if let Err(difference) = served.unwrap_or_else(|_| Err(panicked(seed))) {
                self.keep_lower(difference);
            }
        }
    }

    fn keep_lower(&self, difference: Difference) {
        let mut found = self.found();
        let lower = |found: &Difference| found.seed < difference.seed;
        if !found.as_ref().is_some_and(lower) {
            *found = Some(difference);
        }
    }

    /// On so many threads; what all of them compared.
    fn serve_on(&self, threads: usize) -> Compared {
        thread::scope(|scope| {
            let start = || {
                let builder = thread::Builder::new().stack_size(STACK);
                builder.spawn_scoped(scope, || self.serve())
            };
            let threads: Vec<_> = (0..threads).map(|_| start().expect("a thread")).collect();
            let mut all = Compared::default();
            for thread in threads {
                let Compared { totals, tiers } = thread.join().expect("panics are caught");
                all.totals.add(&totals);
                all.tiers
                    .iter_mut()
                    .zip(tiers)
                    .for_each(|(sum, n)| *sum += n);
            }
            all
        })
    }
}

fn panicked(seed: u64) -> Difference {
    Difference {
        seed,
        why: "panicked".to_string(),
        shown_by: Shown::Nothing,
    }
}

fn main() -> ExitCode {
    let arguments: Vec<String> = env::args().skip(1).collect();
    let arguments: Vec<&str> = arguments.iter().map(String::as_str).collect();
    let (folder, seconds, seed) = match arguments[..] {
        [folder, seconds] => (folder, seconds.parse(), Ok(new_seed())),
        [folder, seconds, seed] => (folder, seconds.parse(), seed.parse()),
        _ => ("", Ok(0), Ok(0)),
    };
    match (seconds, seed) {
        (Ok(seconds @ 1..), Ok(seed)) => soak(Path::new(folder), seconds, seed),
        _ => {
            eprintln!("usage: soak FOLDER SECONDS [SEED]");
            ExitCode::from(2)
        }
    }
}

/// From the clock, so far apart that runs do not meet.
fn new_seed() -> u64 {
    let since = SystemTime::now().duration_since(UNIX_EPOCH);
    since.map_or(1, |since| since.as_secs()) * 1_000_000
}

fn soak(folder: &Path, seconds: u32, seed: u64) -> ExitCode {
    let threads = thread::available_parallelism().map_or(1, usize::from);
    println!("soak: seed {seed}, {seconds} s, threads: {threads}");
    let soak = Soak {
        next: AtomicU64::new(seed),
        until: Instant::now() + Duration::from_secs(seconds.into()),
        found: Mutex::new(None),
    };
    print(&soak.serve_on(threads), seed);
    let Some(difference) = soak.found().take() else {
        println!("no difference");
        return ExitCode::SUCCESS;
    };
    eprintln!("soak: seed {}: {}", difference.seed, difference.why);
    match keep::keep(&difference, folder) {
        Ok(shown_again) => eprintln!("shown again by: {shown_again}"),
        Err(error) => eprintln!("soak: {}: {error}", folder.display()),
    }
    ExitCode::FAILURE
}

fn print(Compared { totals, tiers }: &Compared, seed: u64) {
    let histories: u64 = tiers.iter().sum();
    let last = seed.wrapping_add(histories).wrapping_sub(1);
    println!("histories {histories}, seeds {seed} to {last}, by size of marks {tiers:?}");
    print_counts("requests", &totals.answers);
    print_counts("batches", &totals.batches);
    print_counts("audits of damaged states", &totals.audits);
}

fn print_counts(what: &str, counts: &[u64]) {
    let sum: u64 = counts.iter().sum();
    let given = counts.iter().enumerate().filter(|(_, &count)| count > 0);
    let given: Vec<_> = given
        .map(|(number, count)| format!("{number}: {count}"))
        .collect();
    println!("{what} {sum} by number {}", given.join(", "));
}
