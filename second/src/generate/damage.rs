//! Damaging the words of a state, mostly by near-misses.

use crate::holes::MOST_HOLES;
use crate::layout::{
    Sizes, CONTENTS, DOMAIN_WORDS, HOLE_COUNT, HOLE_PAIRS, NFL_WORDS, TREELING_WORDS,
};
use crate::rng::Rng;

/// Changes the words in one place, or two that belong together.
pub fn damage(words: &mut Vec<u64>, sizes: Sizes, rng: &mut Rng) {
    let [domains, treelings, nfl, leaf_map] = sizes.starts();
    match rng.below(55) {
        0 => near_miss(words, rng, 0, HOLE_COUNT, 1),
        1 => change_length(words, rng),
        2..=9 => near_miss(words, rng, domains, sizes.domains(), DOMAIN_WORDS),
        10..=16 => near_miss(words, rng, treelings, sizes.treelings(), TREELING_WORDS),
        17..=18 => near_miss(words, rng, nfl, NFL_WORDS * sizes.treelings(), 1),
        19..=22 => change_tag(words, rng, nfl, sizes),
        23..=26 => change_availability(words, rng, nfl, sizes),
        27..=29 => near_miss(words, rng, leaf_map, sizes.frames(), 1),
        30..=31 => two(words, rng, nfl, NFL_WORDS * sizes.treelings(), true),
        32 => two(words, rng, leaf_map, sizes.frames(), true),
        33 => two(words, rng, leaf_map, sizes.frames(), false),
        34 => change_leaf_and_pages(words, rng, sizes),
        35 => tie_loop(words, rng, sizes),
        36 => move_head(words, rng, sizes),
        37 => move_bit(words, rng, nfl, sizes),
        38 => set(words, 3, rng.below(sizes.treelings() + 1) as u64),
        39 => near_miss(words, rng, HOLE_COUNT, CONTENTS - HOLE_COUNT, 1),
        40 => change_hole_count(words, rng),
        41..=43 => change_hole(words, rng, sizes),
        44 => swap_holes(words, rng),
        45..=46 => map_in_hole(words, rng, sizes),
        47 => hole_around_mapped(words, rng, sizes),
        48..=49 => old_layout(words, rng, sizes),
        50..=53 => change_former(words, rng, sizes),
        _ => swap_records(words, rng, sizes),
    }
}

/// The word at an index, 0 past the end.
fn get(words: &[u64], index: usize) -> u64 {
    words.get(index).copied().unwrap_or(0)
}

fn set(words: &mut [u64], index: usize, value: u64) {
    if let Some(word) = words.get_mut(index) {
        *word = value;
    }
}

/// One field of one of `count` records: a value close to the right one, or
/// that of another record, or an end of the range.
fn near_miss(words: &mut [u64], rng: &mut Rng, start: usize, count: usize, width: usize) {
    let field = rng.below(width);
    let index = start + width * rng.below(count) + field;
    let other = get(words, start + width * rng.below(count) + field);
    let old = get(words, index);
    let value = match rng.below(9) {
        0 | 1 => old.wrapping_add(1),
        2 | 3 => old.wrapping_sub(1),
        4 => other,
        5 => 0,
        6 => u64::MAX,
        7 => old ^ (1 << rng.below(64)),
        _ => rng.below(70) as u64,
    };
    set(words, index, value);
}

/// Cuts the end off, or adds to it, or leaves a list of any length.
fn change_length(words: &mut Vec<u64>, rng: &mut Rng) {
    let length = match rng.below(4) {
        0 => words.len().saturating_sub(1),
        1 => words.len() + 1,
        2 => rng.below(CONTENTS + 2),
        _ => rng.below(words.len() + 1),
    };
    words.resize(length, 0);
}

/// How many holes the state has, if their number is allowed.
fn hole_count(words: &[u64]) -> usize {
    get(words, HOLE_COUNT).min(MOST_HOLES as u64) as usize
}

/// The word with a hole's first frame; its length is the next one.
fn hole_word(hole: usize) -> usize {
    HOLE_PAIRS + 2 * hole
}

/// One more or less, the last pair filled or emptied with it or not, or far too many.
fn change_hole_count(words: &mut [u64], rng: &mut Rng) {
    let count = hole_count(words);
    let past = hole_word(count.min(MOST_HOLES - 1));
    let last = hole_word(count.saturating_sub(1));
    let end = get(words, last).wrapping_add(get(words, last + 1));
    match rng.below(6) {
        0 => set(words, HOLE_COUNT, count as u64 + 1),
        1 => set(words, HOLE_COUNT, (count as u64).wrapping_sub(1)),
        2 => set(words, HOLE_COUNT, rng.pick(&[0, 8, 9, u64::MAX])),
        // One frame more behind the last hole, side by side with it.
        3 | 4 => {
            set(words, HOLE_COUNT, count as u64 + 1);
            set(words, past, end);
            set(words, past + 1, 1);
        }
        _ => {
            set(words, HOLE_COUNT, count.saturating_sub(1) as u64);
            set(words, last, 0);
            set(words, last + 1, 0);
        }
    }
}

/// A hole that is empty, that ends at P or behind it, that wraps, that touches
/// the hole before it or shares a frame with it, or that is a frame longer.
fn change_hole(words: &mut [u64], rng: &mut Rng, sizes: Sizes) {
    let hole = rng.below(hole_count(words));
    let word = hole_word(hole);
    let [first, length] = [get(words, word), get(words, word + 1)];
    let up_to = |end: u64| end.wrapping_sub(first);
    let frames = sizes.frames() as u64;
    let before = match hole.checked_sub(1).map(hole_word) {
        Some(before) => get(words, before).wrapping_add(get(words, before + 1)),
        None => 0,
    };
    match rng.below(10) {
        0 => set(words, word + 1, 0),
        1 => set(words, word + 1, up_to(frames)),
        2 => set(words, word + 1, up_to(frames + 1)),
        3 => set(words, word + 1, up_to(rng.below(2) as u64)),
        4 => set(words, word, rng.pick(&[frames, frames - 1, u64::MAX])),
        5 => set(words, word, before),
        6 => set(words, word, before.wrapping_sub(1)),
        7 => set(words, word, rng.below(sizes.frames()) as u64),
        8 => set(words, word + 1, length.wrapping_add(1)),
        _ => set(words, word + 1, length.wrapping_sub(1)),
    }
}

/// Two holes in the wrong order, or one of them twice.
fn swap_holes(words: &mut [u64], rng: &mut Rng) {
    let count = hole_count(words);
    let [one, other] = [rng.below(count), rng.below(count)].map(hole_word);
    let keep = rng.percent(20);
    for field in 0..2 {
        let (a, b) = (get(words, one + field), get(words, other + field));
        set(words, other + field, a);
        if !keep {
            set(words, one + field, b);
        }
    }
}

/// A frame of a hole, or one beside it, gets the leaf ID of another frame,
/// which loses it or keeps it.
fn map_in_hole(words: &mut [u64], rng: &mut Rng, sizes: Sizes) {
    let leaf_map = sizes.starts()[3];
    let hole = hole_word(rng.below(hole_count(words)));
    let [first, length] = [get(words, hole), get(words, hole + 1)];
    let inside = rng.below(usize::try_from(length).unwrap_or(1)) as u64;
    let last = length.wrapping_sub(1);
    let far = rng.pick(&[0, last, inside, length, u64::MAX]);
    let frame = first.wrapping_add(far) as usize % sizes.frames();
    let other = mapped(words, rng, sizes);
    let leaf_id = get(words, leaf_map + other);
    set(words, leaf_map + frame, leaf_id);
    if rng.percent(75) && other != frame {
        set(words, leaf_map + other, 0);
    }
}

/// A frame that is mapped, if a few tries find one.
fn mapped(words: &[u64], rng: &mut Rng, sizes: Sizes) -> usize {
    let leaf_map = sizes.starts()[3];
    let start = rng.below(sizes.frames());
    (0..200)
        .map(|step| (start + step) % sizes.frames())
        .find(|&frame| get(words, leaf_map + frame) != 0)
        .unwrap_or(start)
}

/// The only hole, or the one behind the others, has a mapped frame at its
/// first or last frame, or just beside it.
fn hole_around_mapped(words: &mut [u64], rng: &mut Rng, sizes: Sizes) {
    let frame = mapped(words, rng, sizes) as u64;
    let length = rng.between(1, 3) as u64;
    let first = match rng.below(4) {
        0 => frame,
        1 => frame.saturating_sub(length - 1),
        2 => frame + 1,
        _ => frame.saturating_sub(length),
    };
    let hole = if rng.percent(50) {
        hole_count(words).min(MOST_HOLES - 1)
    } else {
        (HOLE_PAIRS..CONTENTS).for_each(|word| set(words, word, 0));
        0
    };
    set(words, HOLE_COUNT, hole as u64 + 1);
    set(words, hole_word(hole), first);
    set(words, hole_word(hole) + 1, length);
}

/// The state as it was laid out before TreeLings had a fifth word, or before
/// there were holes too, with its contents of that time or of today, in its
/// length of that time or of today.
fn old_layout(words: &mut Vec<u64>, rng: &mut Rng, sizes: Sizes) {
    let [_, treelings, nfl, _] = sizes.starts();
    if words.len() < nfl {
        return;
    }
    let length = words.len();
    let (records, _) = words[treelings..nfl].as_chunks::<TREELING_WORDS>();
    let narrow: Vec<u64> = records.iter().flat_map(|r| &r[..4]).copied().collect();
    words.splice(treelings..nfl, narrow);
    let mut earlier = [0, 0, sizes.treelings(), sizes.treelings()];
    if rng.percent(50) {
        words.drain(HOLE_COUNT..CONTENTS);
        earlier = earlier.map(|start| start + CONTENTS - HOLE_COUNT);
    }
    if rng.percent(75) {
        for (start, earlier) in words[4..HOLE_COUNT].iter_mut().zip(earlier) {
            *start = start.wrapping_sub(earlier as u64);
        }
    }
    if rng.percent(30) {
        words.resize(length, 0);
    }
}

/// The fifth word of a TreeLing: 0, any domain's, that of the domain after the
/// owner, the last one's, one past it, or far past it. In an unowned record those
/// up to D pass.
fn change_former(words: &mut [u64], rng: &mut Rng, sizes: Sizes) {
    let record = treeling_record(words, rng, sizes);
    let owner = get(words, record);
    let domains = sizes.domains() as u64;
    let former = match rng.below(8) {
        0 | 1 => 0,
        2 | 3 => rng.between(0, sizes.domains()) as u64,
        4 => owner % domains + 1,
        5 => domains,
        6 => domains + 1,
        _ => rng.pick(&[u64::MAX, 1 << 63, owner.wrapping_add(1 << 32)]),
    };
    set(words, record + 4, former);
}

/// The record of an owned or of an unowned TreeLing, if a few tries find one.
fn treeling_record(words: &[u64], rng: &mut Rng, sizes: Sizes) -> usize {
    let start = sizes.starts()[1];
    let owned = rng.percent(50);
    let mut record = start;
    for _ in 0..4 {
        record = start + TREELING_WORDS * rng.below(sizes.treelings());
        if (get(words, record) != 0) == owned {
            break;
        }
    }
    record
}

/// An entry of the NFL, preferably of a TreeLing in use.
fn entry(words: &[u64], rng: &mut Rng, nfl: usize, sizes: Sizes) -> usize {
    let mut index = nfl;
    for _ in 0..4 {
        index = nfl + rng.below(NFL_WORDS * sizes.treelings());
        if get(words, index) != 0 {
            break;
        }
    }
    index
}

fn change_tag(words: &mut [u64], rng: &mut Rng, nfl: usize, sizes: Sizes) {
    let index = entry(words, rng, nfl, sizes);
    let nodes = 512 * sizes.treelings() as u64;
    let (tag, availability) = (get(words, index) / 256, get(words, index) % 256);
    let tag = match rng.below(6) {
        0 => (tag + 1) % (nodes + 1),
        1 => tag.saturating_sub(1),
        2 => (tag + 512) % (nodes + 512),
        3 => nodes,
        4 => nodes - 1,
        _ => rng.word() % nodes,
    };
    set(words, index, 256 * tag + availability);
}

fn change_availability(words: &mut [u64], rng: &mut Rng, nfl: usize, sizes: Sizes) {
    let index = entry(words, rng, nfl, sizes);
    let bits = match rng.below(4) {
        0 => get(words, index) % 256,
        1 => rng.below(256) as u64,
        _ => 1 << rng.below(8),
    };
    set(words, index, get(words, index) ^ bits);
}

/// Swaps two words of one kind, or copies one over the other.
fn two(words: &mut [u64], rng: &mut Rng, start: usize, count: usize, swap: bool) {
    let one = start + rng.below(count);
    let near = start + (one - start + 1) % count;
    let other = if rng.percent(50) {
        near
    } else {
        start + rng.below(count)
    };
    let (a, b) = (get(words, one), get(words, other));
    set(words, other, a);
    if swap {
        set(words, one, b);
    }
}

/// A frame is forgotten or mapped twice, and "pages mapped" follows.
fn change_leaf_and_pages(words: &mut [u64], rng: &mut Rng, sizes: Sizes) {
    let [domains, treelings, _, leaf_map] = sizes.starts();
    let frame = leaf_map + rng.below(sizes.frames());
    let other = leaf_map + rng.below(sizes.frames());
    let (old, new) = match get(words, frame) {
        0 => (0, get(words, other)),
        leaf_id => (leaf_id, 0),
    };
    set(words, frame, new);
    let leaf_id = old.max(new);
    if leaf_id == 0 {
        return;
    }
    let treeling = ((leaf_id - 1) / 4096) as usize % sizes.treelings();
    let owner = get(words, treelings + TREELING_WORDS * treeling) as usize;
    if (1..=sizes.domains()).contains(&owner) {
        let pages = domains + DOMAIN_WORDS * (owner - 1) + 5;
        let change = if new == 0 { u64::MAX } else { 1 };
        set(words, pages, get(words, pages).wrapping_add(change));
    }
}

/// A chain that comes back to itself or to another TreeLing.
fn tie_loop(words: &mut [u64], rng: &mut Rng, sizes: Sizes) {
    let start = sizes.starts()[1];
    let treeling = rng.below(sizes.treelings());
    let other = rng.below(sizes.treelings());
    let target = rng.pick(&[treeling, other]);
    let field = rng.pick(&[1, 2]);
    let index = start + TREELING_WORDS * treeling + field;
    set(words, index, target as u64 + 1);
}

fn move_head(words: &mut [u64], rng: &mut Rng, sizes: Sizes) {
    let record = sizes.starts()[0] + DOMAIN_WORDS * rng.below(sizes.domains());
    let block = get(words, record + 4);
    let block = if rng.percent(50) {
        block.wrapping_add(1)
    } else {
        block.wrapping_sub(1)
    };
    set(words, record + 4, block);
}

/// Moves a free position into the entry before or after, under its own tag
/// if that entry has none free; the slot is neither lost nor doubled then.
fn move_bit(words: &mut [u64], rng: &mut Rng, nfl: usize, sizes: Sizes) {
    let from = entry(words, rng, nfl, sizes);
    let to = if rng.percent(50) { from + 1 } else { from - 1 };
    let word = get(words, from);
    let bit = 1_u64 << (word % 256).trailing_zeros().min(7);
    let last = nfl + NFL_WORDS * sizes.treelings();
    if (nfl..last).contains(&to) && get(words, to).is_multiple_of(256) && word & bit != 0 {
        set(words, from, word - bit);
        set(words, to, word / 256 * 256 + bit);
    }
}

/// Swaps the records of two domains or of two TreeLings.
fn swap_records(words: &mut [u64], rng: &mut Rng, sizes: Sizes) {
    let [domains, treelings, ..] = sizes.starts();
    let (start, count, width) = if rng.percent(50) {
        (domains, sizes.domains(), DOMAIN_WORDS)
    } else {
        (treelings, sizes.treelings(), TREELING_WORDS)
    };
    let one = start + width * rng.below(count);
    let other = start + width * rng.below(count);
    for field in 0..width {
        let (a, b) = (get(words, one + field), get(words, other + field));
        set(words, one + field, b);
        set(words, other + field, a);
    }
}
