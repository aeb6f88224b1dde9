//! Samples taken in turns: the best of each, or the median of differences.

use std::time::{Duration, Instant};

use second::rng::Rng;

/// At least so many rounds, then more while there is time.
const ROUNDS: usize = 15;

/// The best of each of N samples in seconds.
pub fn best_of<const N: usize>(
    limit: Duration,
    mut sample: impl FnMut(usize) -> Duration,
) -> [f64; N] {
    let mut best = [Duration::MAX; N];
    in_turns::<N>(limit, |which| {
        best[which] = best[which].min(sample(which));
    });
    best.map(|time| time.as_secs_f64())
}

/// How much more a long sample takes than a short one, for each of N, in seconds: the median.
pub fn median_more<const N: usize>(
    limit: Duration,
    mut sample: impl FnMut(usize, bool) -> Duration,
) -> [f64; N] {
    let mut more = [const { Vec::new() }; N];
    in_turns::<N>(limit, |which| {
        let short = sample(which, false).as_secs_f64();
        more[which].push(sample(which, true).as_secs_f64() - short);
    });
    more.map(|mut more| {
        more.sort_by(f64::total_cmp);
        more[more.len() / 2]
    })
}

/// A round takes all samples, in any order, so that none is always met by the same other work.
fn in_turns<const N: usize>(limit: Duration, mut take: impl FnMut(usize)) {
    let mut rng = Rng::new(N as u64);
    let mut order: [usize; N] = std::array::from_fn(|which| which);
    let start = Instant::now();
    let mut round = 0;
    while round < ROUNDS || start.elapsed() < limit {
        rng.shuffle(&mut order);
        order.iter().for_each(|&which| take(which));
        round += 1;
    }
}

#[derive(Clone, Copy)]
pub enum Clock {
    /// The time that passes.
    Wall,
    /// The time that this thread has the processor, without that of other work. A few times of
    /// some million come out too small, so that the best of many is not to be trusted.
    Thread,
}

pub fn time(clock: Clock, call: impl FnOnce()) -> Duration {
    match clock {
        Clock::Wall => {
            let start = Instant::now();
            call();
            start.elapsed()
        }
        Clock::Thread => {
            let start = thread_time();
            call();
            thread_time().saturating_sub(start)
        }
    }
}

/// Linux's thread clock, which the standard library does not offer.
fn thread_time() -> Duration {
    #[repr(C)]
    struct Time {
        seconds: i64,
        nanoseconds: i64,
    }
    extern "C" {
        fn clock_gettime(clock: i32, time: *mut Time) -> i32;
    }
    const CLOCK_THREAD_CPUTIME_ID: i32 = 3;
    let mut time = Time {
        seconds: 0,
        nanoseconds: 0,
    };
    // SAFETY: `Time` is laid out as C's timespec on this target and is lent for the call.
    let status = unsafe { clock_gettime(CLOCK_THREAD_CPUTIME_ID, &mut time) };
    assert_eq!(status, 0, "no thread clock");
    Duration::new(time.seconds as u64, time.nanoseconds as u32)
}
