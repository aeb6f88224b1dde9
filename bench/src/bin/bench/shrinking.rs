//! Domains that grow by TreeLings, lose the pages of some and are trimmed: requests drawn from the
//! state that they are served in.

use second::rng::Rng;

use crate::states::{self, Request};

const TREELINGS: u64 = 12;
const DOMAINS: u64 = 3;

/// More frames than slots, so that some maps find no place.
const FRAMES: u64 = 50_000;

/// Live domains without TreeLings.
pub fn opened() -> Vec<u64> {
    let opens: Vec<Request> = (0..DOMAINS).map(|d| [1, d, 0, 0]).collect();
    states::after(states::new(TREELINGS, DOMAINS, FRAMES), &opens)
}

/// The TreeLings that are owned.
pub fn owned(words: &[u64]) -> usize {
    owners(words).filter(|&owner| owner != 0).count()
}

/// The owner + 1 of each TreeLing.
fn owners(words: &[u64]) -> impl Iterator<Item = u64> + '_ {
    let [start, end] = [words[5], words[6]].map(|word| word as usize);
    words[start..end].chunks(5).map(|record| record[0])
}

/// The frames with the leaf IDs that fit, ascending.
fn frames(words: &[u64], fits: impl Fn(u64) -> bool) -> Vec<u64> {
    let leaf_map = (0..).zip(&words[words[7] as usize..]);
    let fitting = leaf_map.filter(|(_, &leaf_id)| fits(leaf_id));
    fitting.map(|(frame, _)| frame).collect()
}

/// A domain maps frames in any order, often until all its slots are in use.
pub fn grow(words: &[u64], rng: &mut Rng) -> Vec<Request> {
    let domain = rng.below(DOMAINS as usize);
    let pages = words[25 + 6 * domain + 5] as usize;
    let more = rng.below(4_096);
    let goal = 4_096 * rng.between(1, 6) + rng.pick(&[0, 0, more]);
    let mut unmapped = frames(words, |leaf_id| leaf_id == 0);
    if rng.percent(50) {
        rng.shuffle(&mut unmapped);
    }
    unmapped.truncate(goal.saturating_sub(pages));
    let map = |frame| [3, domain as u64, frame, 0];
    unmapped.into_iter().map(map).collect()
}

/// Of each TreeLing all pages are released, some or none, by single calls.
pub fn shrink(words: &[u64], rng: &mut Rng) -> Vec<Request> {
    let mut unmaps = Vec::new();
    let slots = (1..).step_by(4_096).map(|first| first..first + 4_096);
    for (owner, slots) in owners(words).zip(slots).filter(|&(owner, _)| owner != 0) {
        let mut pages = frames(words, |leaf_id| slots.contains(&leaf_id));
        let some = rng.below(pages.len());
        pages.truncate(rng.pick(&[4_096, 4_096, some, 0, 0]));
        unmaps.extend(pages.into_iter().map(|frame| [4, owner - 1, frame, 0]));
    }
    unmaps
}

/// Each domain is trimmed twice, and then there is nothing to return; trims that are refused by 7
/// and by 8 stand between.
pub fn trims() -> Vec<Request> {
    let each = (0..DOMAINS).map(|d| [8, d, 0, 0]);
    let refused = [[8, 0, 1, 0], [8, 1, 0, 1], [8, DOMAINS, 0, 0]];
    each.clone().chain(refused).chain(each).collect()
}
