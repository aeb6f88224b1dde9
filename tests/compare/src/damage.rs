//! Changes of one word at a time, by its kind, and changes that keep a state
//! sound.

use second::holes::MOST_HOLES;
use second::layout::{CONTENTS, HOLE_COUNT, HOLE_PAIRS, TREELING_WORDS};
use second::rng::Rng;
use second::Sizes;

/// One of the 24 kinds of word: 8 of the contents, the number of holes, a
/// hole's first frame and its length, 6 of a domain, 5 of a TreeLing, the NFL
/// entry and the leaf map word.
#[derive(Clone, Copy, Debug)]
pub struct Kind {
    start: usize,
    step: usize,
    count: usize,
}

impl Kind {
    fn any(self, rng: &mut Rng) -> usize {
        self.start + self.step * rng.below(self.count)
    }
}

pub fn kinds(sizes: Sizes) -> Vec<Kind> {
    let [domains, treelings, nfl, leaf_map] = sizes.starts();
    let kind = |start, step, count| Kind { start, step, count };
    let mut kinds: Vec<Kind> = (0..=HOLE_COUNT).map(|i| kind(i, 1, 1)).collect();
    kinds.extend([HOLE_PAIRS, HOLE_PAIRS + 1].map(|start| kind(start, 2, MOST_HOLES)));
    kinds.extend((0..6).map(|j| kind(domains + j, 6, sizes.domains())));
    let treeling = |j| kind(treelings + j, TREELING_WORDS, sizes.treelings());
    kinds.extend((0..TREELING_WORDS).map(treeling));
    kinds.push(kind(nfl, 1, 512 * sizes.treelings()));
    kinds.push(kind(leaf_map, 1, sizes.frames()));
    kinds
}

/// The ends of the ranges of all words, and of words as such.
pub fn ends(sizes: Sizes) -> [u64; 22] {
    let [t, d, p] = [sizes.treelings(), sizes.domains(), sizes.frames()].map(|size| size as u64);
    [
        0,
        1,
        2,
        8,
        9,
        63,
        64,
        t - 1,
        t,
        t + 1,
        d,
        d + 1,
        p - 1,
        p,
        p + 1,
        4_096 * t,
        4_096 * t + 1,
        131_072 * t - 1,
        131_072 * t,
        1 << 32,
        1 << 63,
        u64::MAX,
    ]
}

/// Changes one word of this kind, mostly by a near-miss.
pub fn change(words: &mut [u64], kind: Kind, ends: &[u64], rng: &mut Rng) {
    let index = kind.any(rng);
    let old = words[index];
    words[index] = match rng.below(8) {
        0 => old.wrapping_add(1),
        1 => old.wrapping_sub(1),
        2 => words[kind.any(rng)],
        3 | 4 => rng.pick(ends),
        5 => old ^ 1 << rng.below(64),
        6 => old ^ 1 << rng.below(17),
        _ => rng.word(),
    };
}

/// Changes a sound state into another one: any hand, two frames exchanged, an
/// entry without a free position given another of its domain's tags, two
/// entries of a head block exchanged, two domains exchanged, another last owner
/// of an unowned TreeLing, other holes.
pub fn keep_sound(words: &mut [u64], sizes: Sizes, rng: &mut Rng) {
    match rng.below(8) {
        0 => words[3] = rng.below(sizes.treelings()) as u64,
        1 => swap_frames(words, sizes, rng),
        2 => change_tag(words, sizes, rng),
        3 => swap_entries(words, sizes, rng),
        4 => swap_domains(words, sizes, rng),
        5 => change_former(words, sizes, rng),
        6 => dig(words, sizes, rng),
        _ => fill(words, rng),
    }
}

/// The holes, each a first frame and a length.
fn holes(words: &[u64]) -> &[[u64; 2]] {
    let (pairs, _) = words[HOLE_PAIRS..CONTENTS].as_chunks();
    &pairs[..words[HOLE_COUNT] as usize]
}

/// Two frames outside the holes.
fn swap_frames(words: &mut [u64], sizes: Sizes, rng: &mut Rng) {
    let [.., leaf_map] = sizes.starts();
    let [one, other] = [0; 2].map(|_| rng.below(sizes.frames()));
    let in_hole = |frame: usize| {
        let frame = frame as u64;
        holes(words)
            .iter()
            .any(|&[first, length]| (first..first + length).contains(&frame))
    };
    if !in_hole(one) && !in_hole(other) {
        words.swap(leaf_map + one, leaf_map + other);
    }
}

/// The tag of an entry without a free position.
fn change_tag(words: &mut [u64], sizes: Sizes, rng: &mut Rng) {
    let [_, treelings, nfl, _] = sizes.starts();
    let owner = |node: usize| words[treelings + TREELING_WORDS * (node / 512)];
    let [entry, node] = [0; 2].map(|_| rng.below(512 * sizes.treelings()));
    if words[nfl + entry].is_multiple_of(256) && owner(entry) != 0 && owner(entry) == owner(node) {
        words[nfl + entry] = 256 * node as u64;
    }
}

/// Two entries of a head block.
fn swap_entries(words: &mut [u64], sizes: Sizes, rng: &mut Rng) {
    let [domains, _, nfl, _] = sizes.starts();
    let record = domains + 6 * rng.below(sizes.domains());
    if let Some(head) = words[record + 3].checked_sub(1) {
        let block = nfl + 512 * head as usize + 8 * words[record + 4] as usize;
        words.swap(block + rng.below(8), block + rng.below(8));
    }
}

/// Two domains, with all that they own or owned last.
fn swap_domains(words: &mut [u64], sizes: Sizes, rng: &mut Rng) {
    let [domains, treelings, ..] = sizes.starts();
    let [one, other] = [0; 2].map(|_| rng.below(sizes.domains()));
    for word in 0..6 {
        words.swap(domains + 6 * one + word, domains + 6 * other + word);
    }
    for treeling in 0..sizes.treelings() {
        let record = treelings + TREELING_WORDS * treeling;
        for word in [record, record + 4] {
            words[word] = match words[word] {
                owner if owner == one as u64 + 1 => other as u64 + 1,
                owner if owner == other as u64 + 1 => one as u64 + 1,
                owner => owner,
            };
        }
    }
}

/// The last owner of an unowned TreeLing: none, or any domain.
fn change_former(words: &mut [u64], sizes: Sizes, rng: &mut Rng) {
    let [_, treelings, ..] = sizes.starts();
    let record = treelings + TREELING_WORDS * rng.below(sizes.treelings());
    if words[record] == 0 {
        words[record + 4] = rng.between(0, sizes.domains()) as u64;
    }
}

/// The stretches of unmapped frames, as first frame and length.
fn unmapped(words: &[u64], sizes: Sizes) -> Vec<[usize; 2]> {
    let [.., leaf_map] = sizes.starts();
    let mut stretches: Vec<[usize; 2]> = Vec::new();
    for frame in (0..sizes.frames()).filter(|frame| words[leaf_map + frame] == 0) {
        match stretches.last_mut() {
            Some([first, length]) if *first + *length == frame => *length += 1,
            _ => stretches.push([frame, 1]),
        }
    }
    stretches
}

/// Other holes in place of those there are: up to eight, where no frame is mapped.
pub fn dig(words: &mut [u64], sizes: Sizes, rng: &mut Rng) {
    let stretches = unmapped(words, sizes);
    let mut holes: Vec<[usize; 2]> = Vec::new();
    for _ in 0..if stretches.is_empty() {
        0
    } else {
        rng.below(14)
    } {
        let [start, length] = rng.pick(&stretches);
        let skipped = rng.pick(&[0, length / 2, length - 1]);
        let left = length - skipped;
        let some = rng.between(1, left);
        holes.push([start + skipped, rng.pick(&[1, some, left])]);
    }
    holes.sort_unstable();
    let mut end = 0;
    holes.retain(|&[first, length]| {
        let apart = first >= end;
        end = if apart { first + length } else { end };
        apart
    });
    holes.truncate(MOST_HOLES);
    words[HOLE_COUNT..CONTENTS].fill(0);
    words[HOLE_COUNT] = holes.len() as u64;
    for (word, number) in words[HOLE_PAIRS..].iter_mut().zip(holes.as_flattened()) {
        *word = *number as u64;
    }
}

/// The last hole is a frame shorter, or gone.
fn fill(words: &mut [u64], rng: &mut Rng) {
    let Some(last) = words[HOLE_COUNT].checked_sub(1) else {
        return;
    };
    let pair = HOLE_PAIRS + 2 * last as usize;
    if words[pair + 1] > 1 && rng.percent(60) {
        words[pair + 1] -= 1;
    } else {
        words[pair..pair + 2].fill(0);
        words[HOLE_COUNT] = last;
    }
}
