//! Long request lists, served and printed. The proved program `random_lists`
//! makes the same lists by code of its own; `README.md` describes them.

use std::io::{self, Write};

use crate::controller::{Controller, Request};
use crate::layout::{Board, Sizes};
use crate::log::join;

/// The last batch of a list.
const LAST: u64 = 9;

/// T, D and P of each list, and its holes, each a first frame and a length.
const LISTS: [([u64; 3], &[[u64; 2]]); 5] = [
    ([1, 1, 4_200], &[]),
    ([2, 1, 8_300], &[]),
    (
        [3, 4, 9_000],
        &[[0, 45], [100, 1], [3_000, 60], [8_970, 30]],
    ),
    ([2, 2, 5_000], &[[2_047, 1], [4_900, 100]]),
    (
        [1, 2, 600],
        &[
            [0, 1],
            [1, 1],
            [60, 60],
            [120, 60],
            [299, 2],
            [301, 59],
            [540, 30],
            [599, 1],
        ],
    ),
];

/// A new state for a list.
fn new_state(([t, d, p], holes): ([u64; 3], &[[u64; 2]])) -> Controller {
    let sizes = Sizes::new(t, d, p).expect("a list's sizes are allowed");
    let board = Board::new(sizes, holes.as_flattened()).expect("its holes are allowed");
    Controller::new(board)
}

/// The batches of the list that begins with x = seed.
fn batches(seed: u64, sizes: Sizes) -> impl Iterator<Item = Vec<Request>> {
    let mut draws = Draws(seed);
    (0..=LAST).map(move |number| match number {
        0 => draws.first_batch(sizes),
        LAST => draws.last_batch(sizes),
        _ => draws.batch(sizes, number),
    })
}

/// x -> (1103515245 x + 12345) mod 2^31.
struct Draws(u64);

impl Draws {
    /// The next x without its low 16 bits, modulo `limit`.
    fn below(&mut self, limit: usize) -> u64 {
        self.0 = (self.0 * 1_103_515_245 + 12_345) % (1 << 31);
        (self.0 >> 16) % limit as u64
    }

    /// Opens every domain, then maps the frames in runs of 60.
    fn first_batch(&mut self, sizes: Sizes) -> Vec<Request> {
        let domains = sizes.domains();
        let opened = (0..domains as u64).map(|domain| [1, domain, 0, 0]);
        let runs = (0..sizes.frames() as u64 / 60).map(|k| [6, self.below(domains), 60 * k, 60]);
        opened.chain(runs).collect()
    }

    fn batch(&mut self, sizes: Sizes, number: u64) -> Vec<Request> {
        let requests = 250 + self.below(200);
        (0..requests).map(|_| self.request(sizes, number)).collect()
    }

    fn request(&mut self, sizes: Sizes, batch: u64) -> Request {
        let call = call(self.below(1024), batch);
        let domain = self.below(sizes.domains());
        let frame = self.below(sizes.frames());
        let power = self.below(9);
        let count = 1 + self.below(1 << power);
        let mut request = match call {
            1 | 2 | 8 | 11 => [call, domain, 0, 0],
            3..=5 => [call, domain, frame, 0],
            _ => [call, domain, frame / 60 * 60, count],
        };
        // Most draws spoil no word.
        let spoilt = self.below(64) as usize;
        if let Some(word) = request.get_mut(spoilt) {
            *word = u64::MAX;
        }
        request
    }

    /// Closes and opens every domain again, then has runs around the longest.
    fn last_batch(&mut self, sizes: Sizes) -> Vec<Request> {
        let domains = 0..sizes.domains() as u64;
        let opened = domains.flat_map(|domain| [[2, domain, 0, 0], [1, domain, 0, 0]]);
        let runs = (0..200).map(|_| self.long_run(sizes));
        opened.chain(runs).collect()
    }

    /// A run of 2,047 to 2,049 frames, a single call where one may lie, or a trim.
    fn long_run(&mut self, sizes: Sizes) -> Request {
        let draw = self.below(16);
        let domain = self.below(sizes.domains());
        let start = 2_049 * self.below(sizes.frames() / 2_049 + 1);
        let count = 2_047 + self.below(3);
        let frame = start + self.below(2_049);
        match draw {
            0..=6 => [6, domain, start, count],
            7 => [8, domain, 0, 0],
            8..=13 => [7, domain, start, count],
            14 => [3, domain, frame, 0],
            _ => [4, domain, frame, 0],
        }
    }
}

/// The call that a draw below 1024 stands for: batches 1 to 4 unmap more than
/// they map, the later ones map more and close.
fn call(draw: u64, batch: u64) -> u64 {
    let call = match draw {
        0..=15 => 1,
        16..=19 => 2,
        20..=579 => 3,
        580..=639 => 4,
        640..=649 => 5,
        650..=659 => 8,
        660..=679 => 11,
        680..=929 => 6,
        _ => 7,
    };
    match (batch, call) {
        (5.., _) | (_, 1 | 5 | 8 | 11) => call,
        (_, 2) => 5,
        (_, 3) => 4,
        (_, 4) => 3,
        (_, 6) => 7,
        _ => 6,
    }
}

/// h -> (48271 h + the word's two halves) mod (2^31 - 1), word by word from 0.
fn digest(words: &[u64]) -> u64 {
    words.iter().fold(0, |h, word| {
        (48_271 * h + word / (1 << 32) + word % (1 << 32)) % ((1 << 31) - 1)
    })
}

/// Serves every list from a new state. Prints each answer and, after each
/// batch, the digest of the state's words.
pub fn print(out: &mut impl Write) -> io::Result<()> {
    for (seed, list) in (1..).zip(LISTS) {
        let mut controller = new_state(list);
        for requests in batches(seed, controller.sizes()) {
            print_batch(&mut controller, &requests, out)?;
        }
    }
    Ok(())
}

fn print_batch(
    controller: &mut Controller,
    requests: &[Request],
    out: &mut impl Write,
) -> io::Result<()> {
    for &request in requests {
        writeln!(out, "{}", join(&controller.answer(request)))?;
    }
    writeln!(out, "{}", digest(&controller.render()))
}

#[cfg(test)]
mod tests {
    use super::*;
    use crate::pool::Owner;

    /// The first numbers of the generator and of the digest, by hand.
    #[test]
    fn draws_and_digest_by_hand() {
        let mut draws = Draws(1);
        assert_eq!([draws.below(1024), draws.below(1024)], [454, 638]);
        assert_eq!(digest(&[1, 2, 1 << 32]), 182_702_337);
    }

    /// The TreeLings that a request takes: all, former ones, and those of them
    /// that were not the first unowned one from the hand.
    fn taken(controller: &mut Controller, request: Request) -> [usize; 3] {
        let id = request[1] as usize;
        let before = controller.domain(id).map_or(0, |d| d.treelings.len());
        let mut pool = controller.pool().clone();
        controller.answer(request);
        let mut taken = [0; 3];
        for rank in before..controller.domain(id).map_or(0, |d| d.treelings.len()) {
            let first = pool.unowned().next();
            let former = pool.unowned().find(|&t| pool.former(t) == Some(id));
            taken[0] += 1;
            taken[1] += usize::from(former.is_some());
            taken[2] += usize::from(former.is_some() && former != first);
            pool.take(Owner { domain: id, rank });
        }
        assert_eq!(pool.hand(), controller.pool().hand());
        taken
    }

    #[test]
    fn former_treelings_are_taken() {
        let counts = (1..).zip(LISTS).map(|(seed, list)| {
            let mut controller = new_state(list);
            let requests = batches(seed, controller.sizes()).flatten();
            let counts = requests.map(|request| taken(&mut controller, request));
            counts.fold([0; 3], |sum, more| [0, 1, 2].map(|k| sum[k] + more[k]))
        });
        let expected = [[6, 5, 0], [9, 7, 0], [10, 4, 2], [7, 5, 1], [4, 0, 0]];
        assert!(counts.eq(expected));
    }
}
