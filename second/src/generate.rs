//! Seeded logs and states for comparisons. The same seed gives the same
//! output on every machine.

mod author;
mod damage;

use std::fmt;

use crate::batch::MOST_REQUEST_WORDS;
use crate::controller::{Controller, Request};
use crate::geometry::SLOTS;
use crate::holes::{Holes, MOST_HOLES};
use crate::layout::{Board, Sizes};
use crate::rng::Rng;

pub use author::{malformed, Author};
pub use damage::damage;

/// How long a log is, and what it is about.
#[derive(Clone, Copy, Debug)]
pub struct LogOptions {
    /// Chosen by the seed if none.
    pub board: Option<Board>,
    pub requests: usize,
    /// The longest batch, in requests.
    pub batch: usize,
    /// Puts in one batch of 65,537 requests, which is refused by 5.
    pub oversize: bool,
}

impl Default for LogOptions {
    fn default() -> LogOptions {
        LogOptions {
            board: None,
            requests: 2_000,
            batch: 50,
            oversize: false,
        }
    }
}

/// A board and a list of batches.
#[derive(Clone, Debug, PartialEq, Eq)]
pub struct History {
    pub board: Board,
    pub batches: Vec<Vec<Request>>,
}

/// The text of a log.
impl fmt::Display for History {
    fn fmt(&self, f: &mut fmt::Formatter<'_>) -> fmt::Result {
        let sizes = self.board.sizes();
        let [t, d, p] = [sizes.treelings(), sizes.domains(), sizes.frames()];
        write!(f, "sizes {t} {d} {p}")?;
        for hole in self.board.holes().iter() {
            write!(f, " {} {}", hole.first, hole.length)?;
        }
        writeln!(f)?;
        for batch in &self.batches {
            for [call, domain, frame, count] in batch {
                writeln!(f, "{call} {domain} {frame} {count}")?;
            }
            writeln!(f, "batch")?;
        }
        Ok(())
    }
}

/// A history of requests, done and refused, malformed ones among them. It has
/// fills and trims.
pub fn history(seed: u64, options: LogOptions) -> History {
    let mut rng = Rng::new(seed);
    let board = options.board.unwrap_or_else(|| board(&mut rng));
    let mut author = Author::new(rng.word(), board);
    let mut batches = Vec::new();
    let mut left = options.requests;
    while left > 0 {
        let length = batch_length(&mut rng, options.batch).min(left);
        batches.push((0..length).map(|_| author.next_request()).collect());
        left -= length;
    }
    if options.oversize {
        let at = rng.below(batches.len() + 1);
        batches.insert(at, oversize_batch(&mut rng, board.sizes()));
    }
    History { board, batches }
}

/// Mostly up to `most`, sometimes 0 or 1.
pub fn batch_length(rng: &mut Rng, most: usize) -> usize {
    match rng.below(12) {
        0 => 0,
        1 => 1,
        _ => rng.between(1, most),
    }
}

/// A batch of one request too many.
pub fn oversize_batch(rng: &mut Rng, sizes: Sizes) -> Vec<Request> {
    let domain = rng.below(sizes.domains()) as u64;
    (0..MOST_REQUEST_WORDS / 4 + 1)
        .map(|_| [1, domain, 0, 0])
        .collect()
}

/// A history as the text of a log, with its seed.
pub fn log(seed: u64, options: LogOptions) -> String {
    format!("# seed {seed}\n{}", history(seed, options))
}

/// Sizes of many shapes: tiny ones, more frames than slots, more domains than
/// TreeLings; by draws of their own a few large ones.
pub fn sizes(rng: &mut Rng) -> Sizes {
    let large = large_sizes(rng, 8, [3, 5]);
    let treelings = rng.between(1, 8);
    let domains = rng.between(1, 6);
    let frames = match rng.below(10) {
        0 => rng.between(1, 20),
        1 => rng.between(20, 300),
        2 | 3 => rng.between(4_080, 4_112),
        4 | 5 => rng.between(1, 3) * 4_096 + rng.below(17),
        6 => {
            let more = rng.pick(&[8, 3_000]);
            4_096 * treelings.min(3) + rng.between(1, more)
        }
        7 => rng.between(500, 2_000),
        _ => rng.between(2_000, 12_300),
    };
    large.unwrap_or_else(|| allowed(treelings, domains, frames))
}

/// With a chance in percent, as many frames as so many TreeLings have slots, or a
/// few more. The draws are apart: where it is none, `rng` goes on as it would.
fn large_sizes(rng: &Rng, percent: usize, [least, most]: [usize; 2]) -> Option<Sizes> {
    let mut apart = Rng::new(rng.clone().word() ^ 0x1A26E);
    if !apart.percent(percent) {
        return None;
    }
    let treelings = apart.between(4, 8);
    let domains = apart.between(1, 4);
    let slots = SLOTS * apart.between(least, most);
    let more = apart.pick(&[0, 1, 9, 700]);
    Some(allowed(treelings, domains, slots + more))
}

/// Sizes, and holes by draws of their own: a board without holes leaves the
/// draws as they are.
pub fn board(rng: &mut Rng) -> Board {
    let sizes = sizes(rng);
    with_holes(sizes, rng)
}

fn with_holes(sizes: Sizes, rng: &Rng) -> Board {
    let mut apart = Rng::new(rng.clone().word() ^ 0x401E5);
    let holes = holes(&mut apart, sizes.frames());
    Board::new(sizes, &holes.words()).expect("holes below P")
}

/// Holes below so many frames, none in four draws of ten: at frame 0, at the
/// end, side by side, of one frame, up to eight.
pub fn holes(rng: &mut Rng, frames: usize) -> Holes {
    let wanted = rng.pick(&[0, 0, 0, 0, 1, 2, 3, 5, MOST_HOLES, MOST_HOLES]);
    let most = (frames / (3 * wanted.max(1))).max(1);
    let mut pairs: Vec<[usize; 2]> = Vec::new();
    let mut end = 0;
    for _ in 0..wanted {
        let gaps = [0, 0, 1, rng.between(1, most), rng.between(1, 2 * most)];
        let first = end + rng.pick(&gaps);
        let lengths = [1, 1, 2, rng.between(1, 70).min(most), rng.between(1, most)];
        end = first + rng.pick(&lengths);
        if end > frames {
            break;
        }
        pairs.push([first, end - first]);
    }
    if let (Some([first, length]), true) = (pairs.last_mut(), rng.percent(35)) {
        *first = frames - *length;
    }
    let words: Vec<u64> = pairs.iter().flatten().map(|&word| word as u64).collect();
    Holes::new(&words, frames).expect("ascending, disjoint, not empty and below P")
}

/// Smaller sizes, for lists of states.
fn state_sizes(rng: &mut Rng) -> Sizes {
    let large = large_sizes(rng, 6, [2, 3]);
    let treelings = rng.between(1, 4);
    let domains = rng.between(1, 5);
    let frames = match rng.below(8) {
        0 => rng.between(1, 20),
        1 => rng.between(4_090, 4_110),
        2 => rng.between(8_190, 8_400),
        _ => rng.between(20, 1_200),
    };
    large.unwrap_or_else(|| allowed(treelings, domains, frames))
}

fn allowed(treelings: usize, domains: usize, frames: usize) -> Sizes {
    Sizes::new(treelings as u64, domains as u64, frames as u64).expect("sizes within their ranges")
}

/// A sound state that a random list of requests reached.
pub fn sound_state(seed: u64) -> Controller {
    let mut rng = Rng::new(seed ^ 0x5EED);
    let board = with_holes(state_sizes(&mut rng), &rng);
    let requests = rng.pick(&[0, 3, 20, 100, 300, 700]);
    let mut author = Author::new(rng.word(), board);
    for _ in 0..requests {
        author.next_request();
    }
    author.into_controller()
}

/// A state with 0 to 3 damages.
pub fn state(seed: u64) -> Vec<u64> {
    state_with(seed, 3)
}

/// A state with 0 to `most` damages; it may be sound nevertheless.
pub fn state_with(seed: u64, most: usize) -> Vec<u64> {
    let controller = sound_state(seed);
    let mut rng = Rng::new(seed ^ 0xDA11A6E);
    let mut words = controller.render();
    for _ in 0..rng.between(0, most) {
        damage(&mut words, controller.sizes(), &mut rng);
    }
    words
}
