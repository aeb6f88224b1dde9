//! The examples of document 01, run and compared.

use second::geometry::node_number;
use second::{audit, make, make_words, serve_words, Controller, Sizes};

fn new(t: u64, d: u64, p: u64) -> Controller {
    Controller::new(Sizes::new(t, d, p).unwrap())
}

const TEN: [[u64; 4]; 10] = [
    [1, 0, 0, 0],
    [1, 0, 0, 0],
    [3, 0, 5, 0],
    [1, 1, 0, 0],
    [3, 1, 6, 0],
    [3, 1, 5, 0],
    [4, 1, 5, 0],
    [3, 0, 7, 0],
    [4, 0, 5, 0],
    [3, 0, 8, 0],
];

const TEN_ANSWERS: [[u64; 8]; 10] = [
    [0, 0, 0, 0, 0, 0, 0, 0],
    [10, 0, 0, 0, 0, 0, 0, 0],
    [0, 0, 0, 0, 0, 0, 0, 1],
    [0, 0, 0, 0, 0, 0, 0, 0],
    [0, 0, 1, 8, 64, 512, 0, 1],
    [12, 0, 0, 0, 0, 0, 0, 0],
    [14, 0, 0, 0, 0, 0, 0, 0],
    [0, 0, 0, 0, 0, 0, 1, 1],
    [0, 0, 0, 0, 0, 0, 0, 1],
    [0, 0, 0, 0, 0, 0, 0, 1],
];

/// Document 01's example, 17 words and a TreeLing's fifth word longer.
#[test]
fn a_new_state_of_ones_has_549_words() {
    let mut state = vec![9; 549];
    assert_eq!(make_words([1; 3], &[], &mut state), 0);
    assert_eq!(state[..8], [1, 1, 1, 0, 25, 31, 36, 548]);
    assert!(state[8..].iter().all(|&word| word == 0));
    assert_eq!(state, new(1, 1, 1).render());
    assert_eq!(audit(&state), 0);
}

#[test]
fn a_new_state_has_its_holes_in_words_8_to_24() {
    let mut state = vec![9; 648];
    let holes = [0, 7, 7, 1, 90, 10];
    assert_eq!(make_words([1, 1, 100], &holes, &mut state), 0);
    assert_eq!(state[..9], [1, 1, 100, 0, 25, 31, 36, 548, 3]);
    assert_eq!(state[9..15], holes);
    assert!(state[15..].iter().all(|&word| word == 0));
    assert_eq!(audit(&state), 0);
    let eight: Vec<u64> = (0..8).flat_map(|k| [10 * k, 10]).collect();
    assert_eq!(make_words([1, 1, 100], &eight, &mut state), 0);
    assert_eq!(state[8], 8);
    assert_eq!(state[9..25], eight);
    assert_eq!(audit(&state), 0);
    // Holes are no part of the length.
    assert_eq!(make([1, 1, 100], &[0, 100], 648), 0);
    assert_eq!(make([1, 1, 100], &[0, 100], 548), 2);
}

const M: u64 = u64::MAX;

/// Holes that are not allowed below frame 100.
const BAD_HOLES: [&[u64]; 22] = [
    // Half a pair, and more than eight pairs.
    &[0],
    &[0, 1, 2],
    &[0, 1, 2, 1, 4, 1, 6, 1, 8, 1, 10, 1, 12, 1, 14, 1, 16],
    &[0, 1, 2, 1, 4, 1, 6, 1, 8, 1, 10, 1, 12, 1, 14, 1, 16, 1],
    // Empty.
    &[0, 0],
    &[0, 0, 0, 0],
    &[5, 1, 9, 0],
    // Past P, and past the word's end.
    &[100, 1],
    &[99, 2],
    &[0, 101],
    &[M, 1],
    &[1, M],
    &[99, M - 98],
    &[50, M - 39],
    &[M, M],
    &[0, 1 << 32],
    // Overlapping and descending.
    &[5, 5, 9, 1],
    &[5, 5, 5, 5],
    &[5, 5, 4, 1],
    &[9, 1, 5, 2],
    &[0, 50, 20, 5],
    &[5, 1, 7, 1, 6, 1],
];

#[test]
fn bad_holes_count_under_1_before_the_length() {
    for holes in BAD_HOLES {
        for length in [648, 647, 0] {
            let mut state = vec![7; length];
            let number = make_words([1, 1, 100], holes, &mut state);
            assert_eq!(number, 1, "{holes:?}");
            assert!(state.iter().all(|&word| word == 7));
        }
    }
    let allowed: [&[u64]; 6] = [
        &[],
        &[0, 1],
        &[99, 1],
        &[0, 100],
        &[5, 5, 10, 1],
        &[0, 1, 1, 1, 2, 97, 99, 1],
    ];
    for holes in allowed {
        assert_eq!(make([1, 1, 100], holes, 648), 0, "{holes:?}");
        assert_eq!(make([1, 1, 100], holes, 649), 2, "{holes:?}");
        assert_eq!(make([0, 1, 100], holes, 648), 1, "{holes:?}");
    }
}

#[test]
fn making_asks_sizes_then_length_and_a_refusal_writes_nothing() {
    assert_eq!(make([1; 3], &[], 549), 0);
    assert_eq!(
        make([4_096, 4_096, 8_388_608], &[], 25 + 523 * 4_096 + 8_388_608),
        0
    );
    for sizes in [
        [0, 1, 1],
        [1, 0, 1],
        [1, 1, 0],
        [4_097, 1, 1],
        [1, 4_097, 1],
    ] {
        assert_eq!(make(sizes, &[], 549), 1);
    }
    assert_eq!(make([1, 1, 8_388_609], &[], 0), 1);
    assert_eq!(make([u64::MAX; 3], &[], 549), 1);
    for length in [0, 531, 548, 550] {
        let mut state = vec![7; length];
        assert_eq!(make_words([1; 3], &[], &mut state), 2);
        assert!(state.iter().all(|&word| word == 7));
    }
    let mut state = vec![7; 549];
    assert_eq!(make_words([0, 1, 1], &[], &mut state), 1);
    assert!(state.iter().all(|&word| word == 7));
}

#[test]
fn the_ten_lines_and_the_two_runs_after_them() {
    let mut state = new(2, 2, 16).render();
    let mut answers = vec![0; 80];
    assert_eq!(serve_words(&mut state, &TEN.concat(), &mut answers), 0);
    assert_eq!(answers, TEN_ANSWERS.concat());
    let mut answers = vec![0; 16];
    let runs = [6, 0, 14, 3, 6, 0, 14, 2];
    assert_eq!(serve_words(&mut state, &runs, &mut answers), 0);
    assert_eq!(answers, [9, 0, 0, 0, 0, 0, 0, 0, 0, 0, 0, 0, 0, 0, 0, 2]);
    assert_eq!(audit(&state), 0);
}

#[test]
fn a_full_treeling_is_regathered() {
    let mut controller = new(1, 1, 4_097);
    assert_eq!(controller.answer([1, 0, 0, 0])[0], 0);
    let opened = controller.render();
    assert_eq!(
        controller.answer([6, 0, 0, 4_097]),
        [9, 0, 0, 0, 0, 0, 0, 0]
    );
    assert_eq!(controller.render(), opened);
    for frame in [0, 2_048] {
        assert_eq!(
            controller.answer([6, 0, frame, 2_048]),
            [0, 0, 0, 0, 0, 0, 0, 2_048]
        );
    }
    assert_eq!(controller.answer([3, 0, 4_096, 0])[0], 13);
    for frame in (0..=4_088).step_by(8) {
        assert_eq!(
            controller.answer([4, 0, frame, 0]),
            [0, 0, 0, 0, 0, 0, 0, 1]
        );
    }
    let words = controller.render();
    // Live, first, last, head TreeLing, head block, pages.
    assert_eq!(words[25..31], [1, 1, 1, 1, 0, 4_096 - 512]);
    let block: Vec<u64> = (504..=511).map(|tag| 256 * tag + 1).collect();
    assert_eq!(words[36..44], block);
    assert_eq!(controller.answer([4, 0, 1, 0])[0], 0);
    let words = controller.render();
    assert_eq!((words[36], words[36 + 511]), (3, 130_817));
    assert_eq!(audit(&words), 0);
    assert_eq!(controller.answer([3, 0, 0, 0]), [0, 0, 0, 0, 0, 0, 0, 1]);
}

#[test]
fn the_geometry_of_leaf_ids() {
    assert_eq!(node_number(1, 4), 0);
    // TreeLing 1, slot 4,095: n = 511.
    assert_eq!(
        [1, 2, 3, 4].map(|level| node_number(8_192, level)),
        [1, 15, 127, 1_023]
    );
    assert_eq!(node_number(1 << 24, 1), 4_095);
    for (leaf_id, level) in [(0, 1), ((1 << 24) + 1, 1), (u64::MAX, 4), (1, 0), (1, 5)] {
        assert_eq!(node_number(leaf_id, level), u64::MAX);
    }
}
