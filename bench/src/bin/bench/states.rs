//! The states that are measured.

use std::ops::Range;

use baseline::LONGEST_RUN;
use compare::ivleague;
use compare::used::{Plan, Used};
use second::rng::Rng;

pub type Request = [u64; 4];

/// Frames, and requests of the longest batch.
pub const MANY: u64 = 65_536;

/// Domains that each take a TreeLing of the largest pool.
pub const TAKERS: u64 = 512;

/// Where the TreeLings lie that the takers have owned before.
#[derive(Clone, Copy)]
pub enum Former {
    Nowhere,
    Far,
    AtHand,
}

/// Which TreeLings of a domain have no page.
#[derive(Clone, Copy)]
pub enum Empty {
    None,
    One,
    Half,
    All,
}

impl Empty {
    pub fn name(self) -> &'static str {
        match self {
            Empty::None => "none",
            Empty::One => "one",
            Empty::Half => "every second one",
            Empty::All => "all",
        }
    }

    fn has(self, rank: u64, treelings: u64) -> bool {
        match self {
            Empty::None => false,
            Empty::One => rank == treelings / 2,
            Empty::Half => rank % 2 == 1,
            Empty::All => true,
        }
    }
}

/// How the pages of a state lie in its leaf map.
#[derive(Clone, Copy, PartialEq)]
pub enum Pages {
    New,
    InOrder,
    Shuffled,
}

impl Pages {
    pub fn name(self) -> &'static str {
        match self {
            Pages::New => "new",
            Pages::InOrder => "pages in order",
            Pages::Shuffled => "pages shuffled",
        }
    }
}

pub fn new(treelings: u64, domains: u64, frames: u64) -> Vec<u64> {
    with_holes([treelings, domains, frames], &[])
}

fn with_holes(sizes: [u64; 3], holes: &[u64]) -> Vec<u64> {
    let [treelings, domains, frames] = sizes;
    let mut words = vec![0; (25 + 6 * domains + 517 * treelings + frames) as usize];
    assert_eq!(ivleague::make(sizes, holes, &mut words), 0);
    words
}

/// A state after these requests, all of them done.
pub fn after(mut words: Vec<u64>, requests: &[Request]) -> Vec<u64> {
    for batch in requests.chunks(65_536) {
        let mut answers = vec![0; 8 * batch.len()];
        let number = ivleague::serve(&mut words, batch.as_flattened(), &mut answers);
        assert_eq!(number, 0);
        assert!(answers.chunks(8).all(|answer| answer[0] == 0));
    }
    words
}

/// The fewest runs that name these frames in order.
pub fn longest_runs(call: u64, domain: u64, frames: Range<u64>) -> Vec<Request> {
    let starts = frames.clone().step_by(LONGEST_RUN as usize);
    let run = |frame| [call, domain, frame, LONGEST_RUN.min(frames.end - frame)];
    starts.map(run).collect()
}

/// T = D and P = 2,048 T. Used states own all TreeLings, by 64 domains if there are as many, and
/// map half of the frames in order, or five eighths shuffled.
pub fn of_size(size: usize, pages: Pages) -> Vec<u64> {
    let frames = 2_048 * size;
    let shuffled = match pages {
        Pages::New => return new(size as u64, size as u64, frames as u64),
        Pages::InOrder => false,
        Pages::Shuffled => true,
    };
    let plan = Plan {
        treelings: size,
        domains: size,
        owners: size.min(64),
        owned: 100,
        full: 12,
        mapped: 15,
        doubled: if shuffled { 10 } else { 0 },
        shuffled,
    };
    let mut rng = Rng::new(size as u64);
    Used::new(plan, &mut rng).words(frames, &mut rng)
}

/// Every frame mapped, where T TreeLings have room: all TreeLings owned, by 64 domains if there are
/// as many, which have placed their pages in order of their entries.
pub fn every_frame_mapped([treelings, domains, frames]: [usize; 3], pages: Pages) -> Vec<u64> {
    let plan = Plan {
        treelings,
        domains,
        owners: domains.min(64),
        owned: 100,
        full: 99 * frames / (4_096 * treelings),
        mapped: 0,
        doubled: 0,
        shuffled: pages == Pages::Shuffled,
    };
    let mut rng = Rng::new(treelings as u64);
    let words = Used::new(plan, &mut rng).words(frames, &mut rng);
    let records = words[25..].chunks(6).take(domains);
    let owners = (0..).zip(records).filter(|(_, domain)| domain[1] != 0);
    let owners: Vec<u64> = owners.map(|(owner, _)| owner).collect();
    let leaf_map = (0..).zip(&words[words.len() - frames..]);
    let unmapped = leaf_map.filter(|(_, &leaf_id)| leaf_id == 0);
    let maps = unmapped.zip(owners.iter().cycle());
    let maps: Vec<Request> = maps
        .map(|((frame, _), &owner)| [3, owner, frame, 0])
        .collect();
    after(words, &maps)
}

/// T = 16, D = 1: a domain without pages, and one with a page in every slot, frames in order.
pub fn opened_and_full(frames: u64) -> (Vec<u64>, Vec<u64>) {
    let opened = after(new(16, 1, frames), &[[1, 0, 0, 0]]);
    let full = after(opened.clone(), &longest_runs(6, 0, 0..65_536));
    (opened, full)
}

/// T = 16, D = 1, a domain without pages, and eight holes of a frame: 8,192 frames lie behind each
/// hole.
pub fn opened_with_holes() -> (Vec<u64>, Vec<Range<u64>>) {
    let holes: Vec<[u64; 2]> = (0..8).map(|k| [8_193 * k, 1]).collect();
    let between = holes.iter().map(|[first, _]| first + 1..first + 8_193);
    let words = with_holes([16, 1, 8 * 8_193], holes.as_flattened());
    (after(words, &[[1, 0, 0, 0]]), between.collect())
}

/// T = 4,096: maps of domains without TreeLings, each of which takes one, most being unowned. A
/// former one is the last that is met from the hand around, or the first but for the first taker's.
pub fn takings(former: Former) -> (Vec<u64>, Vec<Request>) {
    let each = |call| (0..TAKERS).map(move |d| [call, d, 0, 0]);
    let mut maps: Vec<Request> = (0..TAKERS).map(|d| [3, d, d, 0]).collect();
    let mut words = after(new(4_096, TAKERS, TAKERS), &each(1).collect::<Vec<_>>());
    if !matches!(former, Former::Nowhere) {
        words = after(words, &maps);
        words = after(words, &each(2).chain(each(1)).collect::<Vec<_>>());
    }
    if matches!(former, Former::Far) {
        maps.reverse();
    }
    (words, maps)
}

/// T = D = 16: each domain has a full TreeLing.
pub fn sixteen_full(frames: u64) -> Vec<u64> {
    let opens = (0..16).map(|d| [1, d, 0, 0]);
    let fills = (0..16).flat_map(|d| longest_runs(6, d, 4_096 * d..4_096 * (d + 1)));
    let requests: Vec<Request> = opens.chain(fills).collect();
    after(new(16, 16, frames), &requests)
}

/// A domain that owns every TreeLing, with a page in every slot, frames in order.
fn filled(treelings: u64) -> Vec<u64> {
    let frames = 4_096 * treelings;
    let opened = after(new(treelings, 1, frames), &[[1, 0, 0, 0]]);
    after(opened, &longest_runs(6, 0, 0..frames))
}

/// A domain that owns every TreeLing: some have no page, the others one in each slot of every
/// eighth leaf node. The pages of the rest were released in order, so that their entries stand in
/// the last blocks.
pub fn shrunk(treelings: u64, empty: Empty) -> Vec<u64> {
    let unmaps = (0..treelings).flat_map(|rank| {
        let frames = 4_096 * rank..4_096 * (rank + 1);
        if empty.has(rank, treelings) {
            return longest_runs(7, 0, frames);
        }
        let nodes = frames.step_by(64);
        nodes.map(|first| [7, 0, first + 8, 56]).collect()
    });
    after(filled(treelings), &unmaps.collect::<Vec<_>>())
}

/// A domain that owns every TreeLing, each leaf node with one free position: an unmap of another
/// node than the first eight regathers, and leaves such a state.
pub fn regathers(treelings: u64) -> Vec<u64> {
    let unmaps: Vec<Request> = (0..512 * treelings)
        .map(|node| [4, 0, 8 * node, 0])
        .collect();
    let ready = after(filled(treelings), &unmaps);
    after(ready, &[[4, 0, 4_096 * treelings - 1, 0]])
}
