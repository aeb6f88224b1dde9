//! Serves seeded random histories through the proved controller and through
//! the second one, which audits the words before every batch too, and compares
//! every answer and every word of the state after every batch. The same seed
//! gives the same histories everywhere.
//!
//!     batches [SEED]

#![deny(warnings)]

use std::env;
use std::process::exit;

use compare::beside::{self, Served, Totals};
use second::generate::{self, LogOptions};
use second::rng::Rng;

const HISTORIES: u64 = 400;

fn main() {
    let seed: u64 = env::args()
        .nth(1)
        .map_or(1, |word| word.parse().expect("a number"));
    let mut totals = Totals::default();
    for number in seed..seed + HISTORIES {
        if let Err(why) = history(number, &mut totals) {
            eprintln!("history {number}, {why}");
            exit(1);
        }
    }
    let Totals {
        batches, answers, ..
    } = totals;
    println!(
        "{HISTORIES} histories agree: batches by number {batches:?}, answers by number {answers:?}"
    );
}

/// The history of this number; before some of its batches one that is refused.
fn history(number: u64, totals: &mut Totals) -> Result<(), String> {
    let mut rng = Rng::new(number);
    let options = LogOptions {
        requests: 100 + rng.below(500),
        batch: 1 + rng.below(80),
        ..LogOptions::default()
    };
    let history = generate::history(number, options);
    let mut state = beside::new_state(history.board)?;
    for (k, batch) in history.batches.iter().enumerate() {
        let words = batch.as_flattened();
        let refused = beside::refused(words, &mut rng);
        for (words, room) in refused.into_iter().chain([(words, 2 * words.len())]) {
            let served = Served::new(&state, words, room);
            beside::serve(&mut state, words, &served)
                .map_err(|why| format!("batch {}, {why}", k + 1))?;
            totals.batch(&served);
        }
    }
    Ok(())
}
