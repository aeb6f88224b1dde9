//! The growth of audits, of batches and of trims with size.

use crate::measure::{self, Pair};
use crate::states::{self, Empty, Pages, Request};

/// T = D, and P = 2,048 T.
const SIZES: [usize; 7] = [1, 4, 16, 64, 256, 1_024, 4_096];

/// The maps of the batch that is measured at each size.
const MAPS: usize = 512;

/// TreeLings of the domain that is trimmed.
const TRIMMED: [usize; 3] = [8, 64, 512];

/// An audit beside a plain read.
pub type Audit = (Pair, f64);

/// Seconds by words of the state, by requests of the batch, or by TreeLings of the domain.
pub struct Point<T> {
    pub size: usize,
    pub seconds: T,
}

pub struct Growth {
    pub in_order: Vec<Point<Audit>>,
    pub shuffled: Vec<Point<Audit>>,
    /// A batch of 512 maps.
    pub batch: Vec<Point<Pair>>,
    /// Maps in one batch, T = 16, P = 65,536.
    pub requests: Vec<Point<Pair>>,
    /// A trim of a domain with every second TreeLing empty, the audit apart.
    pub trims: Vec<Point<Pair>>,
    /// The audits of the largest size.
    pub largest: Vec<(Pages, Audit)>,
}

impl Growth {
    pub fn measure() -> Growth {
        let mut growth = Growth {
            in_order: Vec::new(),
            shuffled: Vec::new(),
            batch: Vec::new(),
            requests: requests(),
            trims: trims(),
            largest: Vec::new(),
        };
        let new = states::of_size(4_096, Pages::New);
        growth.largest.push((Pages::New, measure::audit(&new)));
        for size in SIZES {
            growth.measure_size(size);
        }
        growth
    }

    fn measure_size(&mut self, size: usize) {
        for pages in [Pages::InOrder, Pages::Shuffled] {
            let words = states::of_size(size, pages);
            let seconds = measure::audit(&words);
            let size_in_words = words.len();
            if size == 4_096 {
                self.largest.push((pages, seconds));
            }
            let point = Point {
                size: size_in_words,
                seconds,
            };
            if pages == Pages::Shuffled {
                self.shuffled.push(point);
                continue;
            }
            self.in_order.push(point);
            self.batch.push(Point {
                size: size_in_words,
                seconds: measure::batch(&words, &maps(&words)),
            });
        }
    }
}

/// Maps of the last frames, which are unmapped, by a domain that has TreeLings.
fn maps(words: &[u64]) -> Vec<Request> {
    let frames = words[2];
    let domains = words[25..].chunks(6);
    let owner = domains.take(words[1] as usize).position(|d| d[1] != 0);
    let owner = owner.expect("a domain with TreeLings") as u64;
    let last = frames - MAPS as u64..frames;
    last.map(|frame| [3, owner, frame, 0]).collect()
}

fn requests() -> Vec<Point<Pair>> {
    let (opened, _) = states::opened_and_full(65_536);
    let sizes = [1, 8, 64, 512, 4_096, 65_536];
    let point = |size| {
        let maps: Vec<Request> = (0..size as u64).map(|frame| [3, 0, frame, 0]).collect();
        Point {
            size,
            seconds: measure::batch(&opened, &maps),
        }
    };
    sizes.map(point).into()
}

fn trims() -> Vec<Point<Pair>> {
    let point = |size| Point {
        size,
        seconds: measure::trim(&states::shrunk(size as u64, Empty::Half)),
    };
    TRIMMED.map(point).into()
}
