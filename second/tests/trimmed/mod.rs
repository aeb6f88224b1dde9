//! Request M-100 read on the plain words: what a trim leaves. The free positions
//! are those that no leaf map word names, so no NFL entry is read.

/// The starts of the four bodies.
fn starts(words: &[u64]) -> [usize; 4] {
    [4, 5, 6, 7].map(|index| words[index] as usize)
}

/// A domain's TreeLings, following next from first.
pub fn chain(words: &[u64], domain: u64) -> Vec<usize> {
    let [domains, treelings, ..] = starts(words);
    let some = |number: u64| (number > 0).then(|| number as usize - 1);
    let first = some(words[domains + 6 * domain as usize + 1]);
    let next = |treeling: &usize| some(words[treelings + 5 * treeling + 2]);
    std::iter::successors(first, next).collect()
}

/// The positions of each leaf node that are mapped.
fn mapped(words: &[u64]) -> Vec<u8> {
    let leaf_map = starts(words)[3];
    let mut mapped = vec![0; 512 * words[0] as usize];
    for slot in words[leaf_map..].iter().filter_map(|id| id.checked_sub(1)) {
        mapped[slot as usize / 8] |= 1 << (slot % 8);
    }
    mapped
}

/// The words after a trim of a live domain, and by rank whether a TreeLing is
/// returned.
pub fn trimmed(words: &[u64], domain: u64) -> (Vec<u64>, Vec<bool>) {
    let chain = chain(words, domain);
    let mapped = mapped(words);
    let is_empty = |&t: &usize| mapped[512 * t..][..512].iter().all(|&bits| bits == 0);
    let returned: Vec<bool> = chain.iter().map(is_empty).collect();
    let mut after = words.to_vec();
    if returned.contains(&true) {
        let kept: Vec<usize> = chain.iter().copied().filter(|t| !is_empty(t)).collect();
        unown(&mut after, &chain);
        let head = gather(&mut after, &kept, &mapped);
        own(&mut after, domain, &kept, head);
    }
    (after, returned)
}

/// Zeroes the records, but for the fifth word, and the NFL words.
fn unown(words: &mut [u64], chain: &[usize]) {
    let [_, treelings, nfl, _] = starts(words);
    for treeling in chain {
        words[treelings + 5 * treeling..][..4].fill(0);
        words[nfl + 512 * treeling..][..512].fill(0);
    }
}

/// Writes the NFL of these TreeLings, by rank; the head, counted in blocks.
fn gather(words: &mut [u64], kept: &[usize], mapped: &[u8]) -> usize {
    let nfl = starts(words)[2];
    let nodes = kept.iter().flat_map(|t| 512 * t..512 * t + 512);
    let entries = nodes.map(|node| 256 * node as u64 + u64::from(!mapped[node]));
    let (none, some): (Vec<u64>, Vec<u64>) = entries.partition(|entry| entry % 256 == 0);
    let head = (none.len() / 8).min((64 * kept.len()).saturating_sub(1));
    for (index, entry) in none.into_iter().chain(some).enumerate() {
        words[nfl + 512 * kept[index / 512] + index % 512] = entry;
    }
    head
}

/// Writes the records of the domain, whose pages stay, and of its TreeLings.
fn own(words: &mut [u64], domain: u64, kept: &[usize], head: usize) {
    let [domains, treelings, ..] = starts(words);
    let number = |rank: usize| kept.get(rank).map_or(0, |&t| t as u64 + 1);
    let before = |rank: usize| rank.checked_sub(1).map_or(0, number);
    for (rank, treeling) in kept.iter().enumerate() {
        let record = [domain + 1, before(rank), number(rank + 1), rank as u64];
        words[treelings + 5 * treeling..][..4].copy_from_slice(&record);
    }
    let [block, head] = [head % 64, head / 64];
    let record = [1, number(0), before(kept.len()), number(head), block as u64];
    words[domains + 6 * domain as usize..][..5].copy_from_slice(&record);
}
