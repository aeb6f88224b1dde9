//! The audit: one damaged state for each sentence, garbage, and a second
//! reading of the sentences on the plain words.

use std::collections::BTreeMap;

use second::generate;
use second::rng::Rng;
use second::{audit, Board, Controller, Sizes};

const DOMAINS: usize = 25;
const TREELINGS: usize = DOMAINS + 24;
const NFL: usize = TREELINGS + 20;
const LEAF_MAP: usize = NFL + 2_048;
const M: u64 = u64::MAX;

/// Two side by side, and one at the end.
const HOLES: [u64; 6] = [4_120, 5, 4_125, 1, 4_290, 10];

/// Domain 0 has TreeLings 0 and 1, its head in block 0 of TreeLing 1 with
/// entry 2 half free; domain 1 has TreeLing 2; domain 2 is live without
/// TreeLings; domain 3 is dead and TreeLing 3 unowned.
fn sound() -> Vec<u64> {
    let sizes = Sizes::new(4, 4, 4_300).unwrap();
    let mut controller = Controller::new(Board::new(sizes, &HOLES).unwrap());
    for request in [
        [1, 0, 0, 0],
        [1, 1, 0, 0],
        [1, 2, 0, 0],
        [6, 0, 0, 2_048],
        [6, 0, 2_048, 2_048],
        [6, 0, 4_096, 20],
        [6, 1, 4_200, 10],
    ] {
        assert_eq!(controller.answer(request)[0], 0);
    }
    let words = controller.render();
    assert_eq!(audit(&words), 0);
    assert_eq!(words[8], 3);
    assert_eq!(words[9..15], HOLES);
    assert_eq!(words[DOMAINS..DOMAINS + 6], [1, 1, 2, 2, 0, 4_116]);
    assert_eq!(
        words[TREELINGS..NFL - 5]
            .chunks(5)
            .map(|r| r[4])
            .collect::<Vec<_>>(),
        [1, 1, 2]
    );
    assert_eq!(words[NFL - 5..NFL], [0; 5]);
    assert_eq!(words[NFL + 512 + 2], 256 * 514 + 0xF0);
    words
}

/// Sets words of the sound state, and audits.
fn with(changes: &[(usize, u64)]) -> u64 {
    let mut words = sound();
    for &(index, value) in changes {
        assert_ne!(words[index], value, "no change at {index}");
        words[index] = value;
    }
    audit(&words)
}

fn domain(id: usize, field: usize) -> usize {
    DOMAINS + 6 * id + field
}

fn treeling(number: usize, field: usize) -> usize {
    TREELINGS + 5 * number + field
}

fn nfl(number: usize, entry: usize) -> usize {
    NFL + 512 * number + entry
}

#[test]
fn every_word_lies_in_its_range() {
    for live in [2, M] {
        assert_eq!(with(&[(domain(3, 0), live)]), 4);
        assert_eq!(with(&[(domain(0, 0), live)]), 4);
    }
    for field in 1..=3 {
        for value in [5, M] {
            assert_eq!(with(&[(domain(0, field), value)]), 4);
            assert_eq!(with(&[(treeling(0, field - 1), value)]), 4);
        }
    }
    for block in [64, M] {
        assert_eq!(with(&[(domain(0, 4), block)]), 4);
    }
    for word in [256 * 2_048, M, M - 255] {
        assert_eq!(with(&[(nfl(0, 0), word)]), 4);
    }
    for leaf_id in [4 * 4_096 + 1, M] {
        assert_eq!(with(&[(LEAF_MAP + 4_150, leaf_id)]), 4);
    }
}

/// "The audit allows 0 to D there, and wants the owner while owned."
#[test]
fn the_fifth_word_is_the_owner_or_any_domain_while_unowned() {
    for former in 1..=4 {
        assert_eq!(with(&[(treeling(3, 4), former)]), 0);
    }
    for former in [5, 6, 1 << 32, M] {
        assert_eq!(with(&[(treeling(3, 4), former)]), 4);
    }
    // TreeLings 0 and 1 are domain 0's, TreeLing 2 is domain 1's.
    for (number, owner) in [(0, 1), (1, 1), (2, 2)] {
        for former in [0, 1, 2, 3, 4, 5, (1 << 32) + owner, M] {
            if former != owner {
                assert_eq!(with(&[(treeling(number, 4), former)]), 4);
            }
        }
    }
    // With a last owner, an unowned record is zero in its other words still.
    for field in 0..4 {
        for former in [1, 4] {
            let changes = [(treeling(3, 4), former), (treeling(3, field), 1)];
            assert_eq!(with(&changes), 4);
        }
    }
    for entry in [0, 511] {
        assert_eq!(with(&[(treeling(3, 4), 1), (nfl(3, entry), 1)]), 4);
    }
    // The owner is gone and the rest left.
    assert_eq!(with(&[(treeling(2, 0), 0)]), 4);
    // Owner and last owner are another domain.
    assert_eq!(with(&[(treeling(2, 0), 3), (treeling(2, 4), 3)]), 4);
    assert_eq!(with(&[(treeling(1, 0), 2), (treeling(1, 4), 2)]), 4);
}

#[test]
fn dead_domains_and_unowned_treelings_are_zero() {
    for field in 1..6 {
        assert_eq!(with(&[(domain(3, field), 1)]), 4);
    }
    for field in 1..4 {
        assert_eq!(with(&[(treeling(3, field), 1)]), 4);
    }
    for entry in [0, 511] {
        for word in [1, 255, 256 * 1_536] {
            assert_eq!(with(&[(nfl(3, entry), word)]), 4);
        }
    }
    // A domain that is dead with all its words left.
    assert_eq!(with(&[(domain(0, 0), 0)]), 4);
    // A domain that is merely opened is sound.
    assert_eq!(with(&[(domain(3, 0), 1)]), 0);
}

#[test]
fn chains_follow_next_previous_rank_and_owner() {
    for (field, values) in [(1, [2, 3, 4]), (2, [1, 3, 4])] {
        for value in values {
            assert_eq!(with(&[(domain(0, field), value)]), 4);
        }
        assert_eq!(with(&[(domain(0, field), 0)]), 4);
    }
    // Rank.
    for rank in [0, 2, M] {
        assert_eq!(with(&[(treeling(1, 3), rank)]), 4);
    }
    for rank in [1, M] {
        assert_eq!(with(&[(treeling(0, 3), rank)]), 4);
    }
    // Next of the last: loops to the first and to itself, and another's.
    for next in 1..=4 {
        assert_eq!(with(&[(treeling(1, 2), next)]), 4);
    }
    for next in [0, 1, 3, 4] {
        assert_eq!(with(&[(treeling(0, 2), next)]), 4);
    }
    // Previous.
    for previous in [0, 2, 3, 4] {
        assert_eq!(with(&[(treeling(1, 1), previous)]), 4);
    }
    for previous in 1..=4 {
        assert_eq!(with(&[(treeling(0, 1), previous)]), 4);
    }
    // Owner.
    for owner in [0, 2, 3, 4] {
        assert_eq!(with(&[(treeling(0, 0), owner)]), 4);
        assert_eq!(with(&[(treeling(1, 0), owner)]), 4);
    }
    // A loop of two whose last has another next: ranks stay 0 and 1.
    assert_eq!(with(&[(treeling(1, 2), 1), (treeling(0, 1), 2)]), 4);
}

#[test]
fn no_other_treeling_is_owned() {
    let entry = |k: usize| (nfl(3, k), 256 * (1_536 + k as u64) + 255);
    let mut changes: Vec<(usize, u64)> = (0..512).map(entry).collect();
    changes.extend([
        (treeling(3, 0), 1),
        (treeling(3, 1), 2),
        (treeling(3, 3), 2),
        (treeling(3, 4), 1),
    ]);
    assert_eq!(with(&changes), 4);
    // Joined to the chain it is sound.
    changes.extend([(treeling(1, 2), 4), (domain(0, 2), 4)]);
    assert_eq!(with(&changes), 0);
    // Owned by a dead domain, or by one without TreeLings.
    for owner in [3, 4] {
        let mut changes: Vec<(usize, u64)> = (0..512).map(entry).collect();
        changes.extend([(treeling(3, 0), owner), (treeling(3, 4), owner)]);
        assert_eq!(with(&changes), 4);
    }
}

#[test]
fn a_domain_without_treelings_has_zeros_after_live() {
    for field in 1..6 {
        assert_eq!(with(&[(domain(2, field), 1)]), 4);
    }
}

#[test]
fn the_head_is_in_an_own_treeling() {
    for head in [0, 3, 4] {
        assert_eq!(with(&[(domain(0, 3), head)]), 4);
    }
    assert_eq!(with(&[(domain(1, 3), 2)]), 4);
}

#[test]
fn tags_name_own_leaf_nodes() {
    // Entry 0 of TreeLing 0 has no free position. Another's node, an unowned
    // TreeLing's node, and a node past the last.
    for tag in [1_024, 1_535, 1_536, 2_047, 2_048] {
        assert_eq!(with(&[(nfl(0, 0), 256 * tag)]), 4);
    }
    for tag in [1, 511, 512, 1_023] {
        assert_eq!(with(&[(nfl(0, 0), 256 * tag)]), 0);
    }
}

#[test]
fn blocks_before_the_head_have_none_free_and_blocks_after_it_have_some() {
    assert_eq!(with(&[(domain(0, 4), 1)]), 4);
    assert_eq!(with(&[(domain(0, 3), 1), (domain(0, 4), 63)]), 4);
    assert_eq!(with(&[(domain(0, 3), 1)]), 4);
    assert_eq!(with(&[(domain(1, 4), 1)]), 4);
    // A free position in an entry long before the head, taken from where it was.
    let moved = [(nfl(1, 2), 256 * 514 + 0x70), (nfl(0, 9), 256 * 514 + 0x80)];
    assert_eq!(with(&moved), 4);
    // The same within the head block is sound.
    let moved = [(nfl(1, 2), 256 * 514 + 0x70), (nfl(1, 1), 256 * 514 + 0x80)];
    assert_eq!(with(&moved), 0);
    // An entry after the head whose positions all went to the head block.
    let moved = [(nfl(1, 100), 256 * 612), (nfl(1, 1), 256 * 612 + 255)];
    assert_eq!(with(&moved), 4);
    // All of the first TreeLing is before the head, also if it is block 0.
    let mut words = sound();
    words[nfl(0, 511)] += 1;
    words[LEAF_MAP + 4_088] = 0;
    words[domain(0, 5)] -= 1;
    assert_eq!(audit(&words), 4);
}

#[test]
fn each_slot_is_free_once_or_mapped_once() {
    let half = 256 * 514;
    // Both free and mapped; lost.
    assert_eq!(with(&[(nfl(1, 2), half + 0xF8)]), 4);
    assert_eq!(with(&[(nfl(1, 2), half + 0x70)]), 4);
    assert_eq!(with(&[(nfl(1, 2), half)]), 4);
    // Free twice.
    assert_eq!(with(&[(nfl(1, 0), half + 0x80)]), 4);
    // Mapped twice, with the number of pages raised.
    let leaf_id = sound()[LEAF_MAP];
    let twice = [(LEAF_MAP + 4_150, leaf_id), (domain(0, 5), 4_117)];
    assert_eq!(with(&twice), 4);
    // Mapped twice and one lost: the number of pages stays.
    assert_eq!(with(&[(LEAF_MAP + 1, leaf_id)]), 4);
    // Unmapped without becoming free.
    assert_eq!(with(&[(LEAF_MAP, 0), (domain(0, 5), 4_115)]), 4);
    // Another frame for the same slot is sound.
    let moved = [(LEAF_MAP, 0), (LEAF_MAP + 4_150, leaf_id)];
    assert_eq!(with(&moved), 0);
}

#[test]
fn other_leaf_map_words_are_zero() {
    for leaf_id in [3 * 4_096 + 1, 4 * 4_096] {
        assert_eq!(with(&[(LEAF_MAP + 4_150, leaf_id)]), 4);
    }
}

#[test]
fn pages_mapped_is_the_true_number() {
    for pages in [4_115, 4_117, 0, M] {
        assert_eq!(with(&[(domain(0, 5), pages)]), 4);
    }
    assert_eq!(with(&[(domain(0, 5), 4_115), (domain(1, 5), 11)]), 4);
}

#[test]
fn broken_contents_give_3() {
    for (index, values) in [
        (0, [0, 3, 5, 4_097, M]),
        (1, [0, 3, 5, 4_097, M]),
        (2, [0, 4_299, 4_301, 8_388_609, M]),
        (3, [4, 5, 4_096, 1 << 32, M]),
        (4, [0, 8, 24, 26, M]),
        (5, [0, 25, TREELINGS as u64 + 1, TREELINGS as u64 - 17, M]),
        (6, [0, NFL as u64 - 1, NFL as u64 + 1, NFL as u64 - 4, M]),
        (
            7,
            [
                0,
                LEAF_MAP as u64 - 1,
                LEAF_MAP as u64 + 1,
                LEAF_MAP as u64 - 4,
                M,
            ],
        ),
    ] {
        for value in values {
            assert_eq!(with(&[(index, value)]), 3, "word {index} {value}");
        }
    }
    // 3 comes before 4.
    assert_eq!(with(&[(3, 4), (domain(0, 5), 0)]), 3);
    // Any hand below T is sound.
    for hand in [0, 1, 2] {
        assert_eq!(with(&[(3, hand)]), 0);
    }
}

/// The count is word 8; the pairs are words 9 and 10, 11 and 12, 13 and 14.
#[test]
fn bad_holes_give_3() {
    for (index, values) in [
        // Too many; too few, so that an unused pair is not 0; one that is empty.
        (8, &[0, 1, 2, 4, 8, 9, 1 << 32, M][..]),
        // Overlapping the next one, descending, past the word's end.
        (9, &[4_121, 4_126, 4_295, 4_300, M, M - 3]),
        // Empty, overlapping by a frame and by more, past P and past the word's end.
        (10, &[0, 6, 7, 181, M, M - 4_118]),
        (11, &[4_124, 4_120, 0, 4_290, 4_299, M]),
        (12, &[0, 166, 175, M, M - 4_123]),
        (13, &[4_125, 4_124, 0, 4_291, 4_300, M, M - 8]),
        (14, &[0, 11, 1 << 32, M, M - 4_288]),
        // Unused.
        (15, &[1, 4_295, 4_300, M]),
        (16, &[1, M]),
        (23, &[1, M]),
        (24, &[1, M]),
    ] {
        for &value in values {
            assert_eq!(with(&[(index, value)]), 3, "word {index} {value}");
        }
    }
    // 3 comes before 4.
    assert_eq!(with(&[(10, 0), (domain(0, 5), 0)]), 3);
    // A pair in front of an unused one, or of one that is used.
    assert_eq!(with(&[(17, 4_299), (18, 1)]), 3);
    assert_eq!(with(&[(8, 4), (17, 4_299), (18, 1)]), 3);
}

#[test]
fn other_holes_where_no_frame_is_mapped_are_sound() {
    for changes in [
        &[(9, 4_119)][..],
        &[(9, 4_116), (10, 9)],
        &[(10, 4)],
        &[(11, 4_126)],
        &[(12, 75)],
        &[(13, 4_210)],
        &[(14, 9)],
        &[(8, 2), (13, 0), (14, 0)],
        &[(8, 4), (14, 9), (15, 4_299), (16, 1)],
    ] {
        assert_eq!(with(changes), 0, "{changes:?}");
    }
    assert_eq!(
        with(&[(8, 0), (9, 0), (10, 0), (11, 0), (12, 0), (13, 0), (14, 0)]),
        0
    );
}

/// "the audit wants 0 in the leaf map of a hole".
#[test]
fn leaf_map_words_of_a_hole_are_zero() {
    let leaf_id = sound()[LEAF_MAP];
    for (frame, number) in [
        (4_119, 0),
        (4_120, 4),
        (4_124, 4),
        (4_125, 4),
        (4_126, 0),
        (4_289, 0),
        (4_290, 4),
        (4_299, 4),
    ] {
        let moved = [(LEAF_MAP, 0), (LEAF_MAP + frame, leaf_id)];
        assert_eq!(with(&moved), number, "frame {frame}");
    }
    // A hole over mapped frames: 0 to 4,115 and 4,200 to 4,209.
    for changes in [
        &[(9, 4_115), (10, 1)][..],
        &[(9, 4_115)],
        &[(9, 0), (10, 1)],
        &[(12, 76)],
        &[(12, 165)],
        &[(13, 4_209)],
    ] {
        assert_eq!(with(changes), 4, "{changes:?}");
    }
}

/// A state as it was laid out before TreeLings had a fifth word.
fn without_fifth_words() -> Vec<u64> {
    let words = sound();
    let records = words[TREELINGS..NFL].chunks(5);
    let narrow: Vec<u64> = records.flat_map(|record| &record[..4]).copied().collect();
    [&words[..TREELINGS], &narrow, &words[NFL..]].concat()
}

#[test]
fn layouts_without_the_fifth_word_give_3() {
    let length = sound().len();
    let mut words = without_fifth_words();
    assert_eq!(words.len(), length - 4);
    assert_eq!(audit(&words), 3);
    // In today's length its words are not in their places.
    let mut long = words.clone();
    long.resize(length, 0);
    assert_eq!(audit(&long), 4);
    // Its starts of that time.
    for start in &mut words[6..8] {
        *start -= 4;
    }
    assert_eq!(audit(&words), 3);
    words.resize(length, 0);
    assert_eq!(audit(&words), 3);
}

/// A state as it was laid out before there were holes.
#[test]
fn layouts_without_holes_give_3() {
    let length = sound().len();
    let mut words = without_fifth_words();
    words.drain(8..25);
    assert_eq!(audit(&words), 3);
    for (start, earlier) in words[4..8].iter_mut().zip([17, 17, 21, 21]) {
        *start -= earlier;
    }
    assert_eq!(words[4], 8);
    assert_eq!(audit(&words), 3);
    words.resize(length, 0);
    assert_eq!(audit(&words), 3);
}

#[test]
fn wrong_lengths_give_3() {
    let words = sound();
    for length in (0..=26).chain([100, words.len() - 17, words.len() - 1]) {
        assert_eq!(audit(&words[..length]), 3);
        assert_eq!(audit(&vec![0; length]), 3);
        assert_eq!(audit(&vec![M; length]), 3);
    }
    let mut long = words;
    long.push(0);
    assert_eq!(audit(&long), 3);
}

#[test]
fn garbage_never_stops_the_audit() {
    let mut rng = Rng::new(7);
    for _ in 0..3_000 {
        let sizes = generate::sizes(&mut rng);
        let length = rng.pick(&[sizes.length(), rng.clone().below(700)]);
        let kind = rng.below(3);
        let mut words: Vec<u64> = (0..length).map(|_| garbage(&mut rng, kind)).collect();
        let contents = Board::from(sizes).contents(0);
        for (word, content) in words.iter_mut().zip(contents) {
            *word = content;
        }
        let expected = if length == sizes.length() { 4 } else { 3 };
        assert_eq!(audit(&words), expected);
        words
            .iter_mut()
            .for_each(|word| *word = garbage(&mut rng, kind));
        assert_eq!(audit(&words), 3);
    }
}

fn garbage(rng: &mut Rng, kind: usize) -> u64 {
    match kind {
        0 => rng.word(),
        1 => rng.below(3) as u64,
        _ => rng.pick(&[0, 1, 2, 255, 256, 4_096, 131_072, M, M - 1, 1 << 63]),
    }
}

/// On damaged states the audit agrees with a reading of the sentences on the
/// plain words, and what passes is rendered as it was.
#[test]
fn damaged_states_agree_with_the_sentences() {
    let mut seen = [0; 5];
    for seed in 0..1_500 {
        let words = generate::state(seed);
        let number = audit(&words);
        assert_eq!(number, sentences(&words), "seed {seed}");
        if let Ok(controller) = Controller::from_words(&words) {
            assert_eq!(controller.render(), words, "seed {seed}");
        }
        seen[number as usize] += 1;
    }
    for number in [0, 3, 4] {
        assert!(seen[number] > 50, "{seen:?}");
    }
}

/// Generated damage leaves fifth words that pass and that do not, and layouts
/// without them.
#[test]
fn fifth_words_are_damaged() {
    let mut seen: BTreeMap<(bool, u64), usize> = BTreeMap::new();
    let mut narrow = 0;
    for seed in 0..60 {
        let controller = generate::sound_state(seed);
        let (sound, sizes) = (controller.render(), controller.sizes());
        let mut rng = Rng::new(seed);
        for _ in 0..100 {
            let mut words = sound.clone();
            generate::damage(&mut words, sizes, &mut rng);
            narrow += usize::from(words.len() == sound.len() - sizes.treelings());
            if let Some(owner) = owner_of_changed_fifth(&sound, &words, sizes) {
                *seen.entry((owner != 0, audit(&words))).or_default() += 1;
            }
        }
    }
    println!("{seen:?}, without fifth words {narrow}");
    assert!(seen.keys().eq(&[(false, 0), (false, 4), (true, 4)]));
    assert!(seen.values().all(|&count| count > 20) && narrow > 20);
}

/// The owner word of the TreeLing whose fifth word is all that changed.
fn owner_of_changed_fifth(sound: &[u64], words: &[u64], sizes: Sizes) -> Option<u64> {
    let [_, treelings, nfl, _] = sizes.starts();
    if words.len() != sound.len() {
        return None;
    }
    let mut changed = (0..sound.len()).filter(|&index| words[index] != sound[index]);
    let (index, None) = (changed.next()?, changed.next()) else {
        return None;
    };
    let fifth = (treelings..nfl).contains(&index) && (index - treelings) % 5 == 4;
    fifth.then(|| sound[index - 4])
}

fn sentences(w: &[u64]) -> u64 {
    if w.len() < 25 {
        return 3;
    }
    let (t, d, p) = (w[0], w[1], w[2]);
    let allowed =
        (1..=4_096).contains(&t) && (1..=4_096).contains(&d) && (1..=8_388_608).contains(&p);
    if !allowed || w[3] >= t || w[4] != 25 || w[5] != 25 + 6 * d || w[6] != 25 + 6 * d + 5 * t {
        return 3;
    }
    if w[7] != 25 + 6 * d + 517 * t || w.len() as u64 != 25 + 6 * d + 517 * t + p {
        return 3;
    }
    if !sound_holes(w[8], &w[9..25], p) {
        return 3;
    }
    if sound_bodies(w, t as usize, d as usize) && no_page_in_holes(w, p as usize) {
        0
    } else {
        4
    }
}

fn sound_holes(count: u64, pairs: &[u64], p: u64) -> bool {
    let pair = |k: usize| (u128::from(pairs[2 * k]), u128::from(pairs[2 * k + 1]));
    count <= 8
        && (0..8).all(|k| {
            let (first, length) = pair(k);
            if k as u64 >= count {
                return (first, length) == (0, 0);
            }
            length >= 1
                && first + length <= u128::from(p)
                && (0..k).all(|earlier| pair(earlier).0 + pair(earlier).1 <= first)
        })
}

fn no_page_in_holes(w: &[u64], p: usize) -> bool {
    let map = &w[w.len() - p..];
    let holes = w[9..25].chunks(2).take(w[8] as usize);
    let mut frames = holes.flat_map(|pair| pair[0]..pair[0] + pair[1]);
    frames.all(|frame| map[frame as usize] == 0)
}

fn sound_bodies(w: &[u64], t: usize, d: usize) -> bool {
    let dom = |i: usize, f: usize| w[25 + 6 * i + f];
    let tree = |i: usize, f: usize| w[25 + 6 * d + 5 * i + f];
    let nfl = &w[25 + 6 * d + 5 * t..25 + 6 * d + 517 * t];
    let map = &w[25 + 6 * d + 517 * t..];
    let (tw, dw) = (t as u64, d as u64);
    // Ranges.
    for i in 0..d {
        if dom(i, 0) > 1 || (1..=3).any(|f| dom(i, f) > tw) || dom(i, 4) > 63 {
            return false;
        }
    }
    for i in 0..t {
        if tree(i, 0) > dw || tree(i, 1) > tw || tree(i, 2) > tw || tree(i, 4) > dw {
            return false;
        }
        // The last owner.
        if tree(i, 0) != 0 && tree(i, 4) != tree(i, 0) {
            return false;
        }
    }
    if nfl.iter().any(|&word| word >= 131_072 * tw) || map.iter().any(|&word| word > 4_096 * tw) {
        return false;
    }
    // Zeros.
    if (0..d).any(|i| dom(i, 0) == 0 && (1..6).any(|f| dom(i, f) != 0)) {
        return false;
    }
    for i in (0..t).filter(|&i| tree(i, 0) == 0) {
        if (1..4).any(|f| tree(i, f) != 0) || nfl[512 * i..][..512].iter().any(|&word| word != 0) {
            return false;
        }
    }
    for i in 0..t {
        if tree(i, 0) != 0 && dom(tree(i, 0) as usize - 1, 0) == 0 {
            return false;
        }
    }
    (0..d).filter(|&i| dom(i, 0) == 1).all(|i| {
        let mut own: Vec<usize> = (0..t).filter(|&x| tree(x, 0) == i as u64 + 1).collect();
        own.sort_by_key(|&x| tree(x, 3));
        if own.is_empty() {
            return (1..6).all(|f| dom(i, f) == 0);
        }
        // The owned TreeLings in the order of their ranks are the chain.
        let at = |k: Option<usize>| k.and_then(|k| own.get(k)).map_or(0, |&x| x as u64 + 1);
        let chain = own.iter().enumerate().all(|(k, &x)| {
            tree(x, 3) == k as u64
                && tree(x, 1) == at(k.checked_sub(1))
                && tree(x, 2) == at(Some(k + 1))
        });
        let ends = dom(i, 1) == at(Some(0)) && dom(i, 2) == at(Some(own.len() - 1));
        let Some(head) = own.iter().position(|&x| x as u64 + 1 == dom(i, 3)) else {
            return false;
        };
        let head = 64 * head + dom(i, 4) as usize;
        let entries: Vec<u64> = own
            .iter()
            .flat_map(|&x| nfl[512 * x..][..512].to_vec())
            .collect();
        let tags = entries
            .iter()
            .all(|e| own.contains(&((e / 131_072) as usize)));
        let order = entries
            .iter()
            .enumerate()
            .all(|(k, e)| (k / 8 >= head || e % 256 == 0) && (k / 8 <= head || e % 256 != 0));
        // How often each slot is free or mapped.
        let mut slots = vec![0; 4_096 * t];
        for e in &entries {
            for bit in (0..8).filter(|bit| e >> bit & 1 == 1) {
                slots[8 * (e / 256) as usize + bit] += 1;
            }
        }
        let mut pages = 0;
        for &leaf_id in map.iter().filter(|&&leaf_id| leaf_id != 0) {
            slots[leaf_id as usize - 1] += 1;
            pages += u64::from(own.contains(&((leaf_id as usize - 1) / 4_096)));
        }
        let once = own
            .iter()
            .all(|&x| slots[4_096 * x..][..4_096].iter().all(|&n| n == 1));
        chain && ends && tags && order && once && pages == dom(i, 5)
    }) && map
        .iter()
        .all(|&id| id == 0 || tree((id as usize - 1) / 4_096, 0) != 0)
}
