//! The times of audits and of batches.

use std::hint::black_box;
use std::time::Duration;

use compare::ivleague;

use crate::states::Request;
use crate::timing::{best_of, median_more, time, Clock};

/// About how many words are read before the clock is.
const WORDS_A_SAMPLE: usize = 1_000_000;

/// More words than a cache holds, and than any state has.
const READ_BEFORE: usize = 1 << 24;

const LIMIT: Duration = Duration::from_millis(1_500);

type Audit = fn(&[u64]) -> u64;
type Serve = fn(&mut [u64], &[u64], &mut [u64]) -> u64;

const SERVES: [Serve; 2] = [ivleague::serve, baseline::serve];

/// Seconds of the proved library and of the baseline.
pub type Pair = [f64; 2];

fn sum(words: &[u64]) -> u64 {
    words.iter().fold(0, |sum, word| sum.wrapping_add(*word))
}

/// Seconds of an audit, and of a plain read of the same words.
pub fn audit(words: &[u64]) -> (Pair, f64) {
    const FUNCTIONS: [Audit; 3] = [ivleague::audit, baseline::audit, sum];
    let calls = (WORDS_A_SAMPLE / words.len()).max(1);
    // A round of the largest state takes a tenth of a second.
    let limit = if calls == 1 { 3 * LIMIT } else { LIMIT };
    let times: [f64; 3] = best_of(limit, |which| {
        time(Clock::Wall, || {
            for _ in 0..calls {
                black_box(FUNCTIONS[which](black_box(words)));
            }
        })
    });
    let [proved, plain, read] = times.map(|time| time / calls as f64);
    ([proved, plain], read)
}

/// Seconds of an empty batch of a small state.
pub fn empty_batch(state: &[u64]) -> Pair {
    const BATCHES: usize = 1_000;
    let mut words = state.to_vec();
    let times: Pair = best_of(LIMIT, |which| {
        time(Clock::Wall, || {
            for _ in 0..BATCHES {
                black_box(SERVES[which](black_box(&mut words), &[], &mut []));
            }
        })
    });
    times.map(|time| time / BATCHES as f64)
}

/// A batch of requests that are all done, served again and again from the same state.
struct Repeated<'a> {
    state: &'a [u64],
    requests: &'a [Request],
    /// The requests change none of the words after these.
    changed: usize,
    /// Read before each sample, so that nothing of the batch is in the cache.
    other: Vec<u64>,
    words: Vec<u64>,
    answers: Vec<u64>,
}

impl<'a> Repeated<'a> {
    fn new(state: &'a [u64], requests: &'a [Request]) -> Repeated<'a> {
        Repeated {
            state,
            requests,
            changed: state.len(),
            other: Vec::new(),
            words: state.to_vec(),
            answers: vec![0; 8 * requests.len()],
        }
    }

    /// The time of the first `count` requests.
    fn serve(&mut self, clock: Clock, serve: Serve, count: usize) -> Duration {
        let changed = ..self.changed;
        self.words[changed].copy_from_slice(&self.state[changed]);
        let requests = self.requests[..count].as_flattened();
        let answers = &mut self.answers[..8 * count];
        let mut number = 0;
        black_box(sum(&self.other));
        let taken = time(clock, || number = serve(&mut self.words, requests, answers));
        assert_eq!(number, 0);
        assert!(answers.chunks(8).all(|answer| answer[0] == 0));
        taken
    }
}

/// Seconds of a whole batch.
pub fn batch(state: &[u64], requests: &[Request]) -> Pair {
    let mut batch = Repeated::new(state, requests);
    best_of(LIMIT, |which| {
        batch.serve(Clock::Wall, SERVES[which], requests.len())
    })
}

/// Seconds of a batch less those of an empty one of the same state.
pub fn audit_apart(state: &[u64], requests: &[Request]) -> Pair {
    let mut batch = Repeated::new(state, requests);
    let [proved, plain, proved_empty, plain_empty] = best_of(LIMIT, |which| {
        let count = if which < 2 { requests.len() } else { 0 };
        batch.serve(Clock::Wall, SERVES[which % 2], count)
    });
    [proved - proved_empty, plain - plain_empty]
}

/// The same in a small and in a large state of the same T and D, whose audit takes most of the
/// time: the medians of many differences, taken in turns. The requests change no frame that only
/// the large state has. Requests and answers come from memory, as they do after a large audit:
/// before each sample as many words are read, of other memory and by the audit, for both states.
pub fn audits_apart(states: [&[u64]; 2], requests: &[Request]) -> [Pair; 2] {
    let mut batches = states.map(|state| {
        let mut batch = Repeated::new(state, requests);
        batch.changed = states[0].len();
        batch.other = vec![1; READ_BEFORE - state.len()];
        batch
    });
    let [small_proved, small_plain, large_proved, large_plain] =
        median_more(10 * LIMIT, |which, long| {
            let count = if long { requests.len() } else { 0 };
            batches[which / 2].serve(Clock::Thread, SERVES[which % 2], count)
        });
    [[small_proved, small_plain], [large_proved, large_plain]]
}

/// Seconds of a trim of domain 0, without the audit.
pub fn trim(state: &[u64]) -> Pair {
    audit_apart(state, &[[8, 0, 0, 0]])
}
