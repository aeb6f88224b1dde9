//! Every number, the sequence of the questions, and that a refusal writes nothing.

use second::{serve_words, Board, Controller, Sizes};

const M: u64 = u64::MAX;

fn new(t: u64, d: u64, p: u64) -> Controller {
    Controller::new(Sizes::new(t, d, p).unwrap())
}

/// Asks, checks the number, and that a refusal changed no word.
fn expect(controller: &mut Controller, request: [u64; 4], number: u64) {
    let before = controller.render();
    let answer = controller.answer(request);
    assert_eq!(answer[0], number, "{request:?}");
    if number != 0 {
        assert_eq!(answer[1..], [0; 7], "{request:?}");
        assert_eq!(controller.render(), before, "{request:?}");
    }
}

#[test]
fn requests_are_asked_in_sequence() {
    let mut c = new(2, 3, 100);
    expect(&mut c, [1, 0, 0, 0], 0);
    expect(&mut c, [1, 1, 0, 0], 0);
    expect(&mut c, [3, 0, 5, 0], 0);
    expect(&mut c, [3, 1, 6, 0], 0);
    // 7, before all else.
    for call in [0, 9, 10, 12, M] {
        expect(&mut c, [call, 0, 0, 0], 7);
        expect(&mut c, [call, M, M, M], 7);
    }
    for request in [
        [1, 2, 1, 0],
        [1, 2, 0, 1],
        [2, 0, 1, 0],
        [2, 0, 0, M],
        [2, M, 1, 1],
        [3, 0, 50, 1],
        [4, 9, M, M],
        [5, 0, 5, 1],
        [8, 0, 5, 0],
        [8, 2, 0, 1],
        [8, M, 1, 1],
        [11, 0, 5, 0],
        [11, 2, 0, 1],
        [11, M, 1, 1],
    ] {
        expect(&mut c, request, 7);
    }
    // 8, before 9.
    for call in [1, 2, 3, 4, 5, 6, 7, 8, 11] {
        expect(&mut c, [call, 3, 0, 0], 8);
        expect(&mut c, [call, M, 0, 0], 8);
    }
    expect(&mut c, [3, 3, 100, 0], 8);
    expect(&mut c, [6, 3, 100, 0], 8);
    // 9, before 11: domain 2 is dead.
    for call in 3..=5 {
        expect(&mut c, [call, 2, 100, 0], 9);
        expect(&mut c, [call, 0, M, 0], 9);
    }
    for call in 6..=7 {
        for (frame, count) in [
            (0, 0),
            (99, 2),
            (0, 101),
            (100, 0),
            (100, 1),
            (M, 1),
            (1, M),
            (99, M - 98),
            (M, M),
        ] {
            expect(&mut c, [call, 2, frame, count], 9);
        }
        expect(&mut c, [call, 2, 99, 1], 11);
        expect(&mut c, [call, 2, 0, 100], 11);
    }
    // 10 and 11.
    expect(&mut c, [1, 0, 0, 0], 10);
    for call in [2, 3, 4, 5, 8, 11] {
        expect(&mut c, [call, 2, 0, 0], 11);
    }
    expect(&mut c, [3, 2, 5, 0], 11);
    // 12: mapped by anyone. 14: not mapped by this domain.
    expect(&mut c, [3, 0, 5, 0], 12);
    expect(&mut c, [3, 1, 5, 0], 12);
    for call in [4, 5] {
        expect(&mut c, [call, 1, 5, 0], 14);
        expect(&mut c, [call, 0, 6, 0], 14);
        expect(&mut c, [call, 0, 7, 0], 14);
    }
    // 13: no TreeLing left for a third domain; 12 comes before it.
    expect(&mut c, [1, 2, 0, 0], 0);
    expect(&mut c, [3, 2, 7, 0], 13);
    expect(&mut c, [3, 2, 5, 0], 12);
}

/// "for runs count at least 1, at most P − frame and at most 2,048? No: 9."
#[test]
fn a_run_has_at_most_2048_frames() {
    let mut c = new(1, 3, 5_000);
    expect(&mut c, [1, 0, 0, 0], 0);
    expect(&mut c, [1, 1, 0, 0], 0);
    expect(&mut c, [3, 0, 0, 0], 0);
    for call in 6..=7 {
        for (frame, count) in [
            (0, 2_049),
            (1, 2_049),
            (2_951, 2_049),
            (0, 4_096),
            (0, 5_000),
            (0, (1 << 32) + 1),
            (2_049, M - 2_048),
            (0, M),
        ] {
            expect(&mut c, [call, 3, frame, count], 8);
            // Before 11, where domain 2 is dead; before 12, 13 and 14.
            for domain in 0..=2 {
                expect(&mut c, [call, domain, frame, count], 9);
            }
        }
        // 2,048 is P − frame, then more than it.
        expect(&mut c, [call, 2, 2_952, 2_048], 11);
        expect(&mut c, [call, 2, 2_953, 2_048], 9);
        expect(&mut c, [call, 2, 2_953, 2_047], 11);
    }
    for count in [2_047, 2_048] {
        expect(&mut c, [6, 0, 0, count], 12);
        expect(&mut c, [6, 1, 0, count], 12);
        expect(&mut c, [6, 1, 1, count], 13);
        expect(&mut c, [7, 0, 0, count], 14);
        expect(&mut c, [7, 1, 0, count], 14);
        assert_eq!(c.answer([6, 0, 1, count])[7], count);
        assert_eq!(c.answer([7, 0, 1, count])[7], count);
    }
}

/// Domains 0 and 1 are live, domain 2 is dead.
fn with_holes() -> Controller {
    let sizes = Sizes::new(1, 3, 5_000).unwrap();
    let holes = [0, 2, 10, 5, 15, 1, 2_070, 1, 4_999, 1];
    let mut c = Controller::new(Board::new(sizes, &holes).unwrap());
    expect(&mut c, [1, 0, 0, 0], 0);
    expect(&mut c, [1, 1, 0, 0], 0);
    c
}

/// "16, a named frame lies in a hole, asked right after 9": after 7 and 8 too,
/// and before 11.
#[test]
fn frames_in_holes_give_16_after_9_and_before_11() {
    let mut c = with_holes();
    for frame in [0, 1, 10, 12, 14, 15, 2_070, 4_999] {
        for call in 3..=5 {
            expect(&mut c, [call, 0, frame, 1], 7);
            expect(&mut c, [call, 3, frame, 0], 8);
            for domain in 0..=2 {
                expect(&mut c, [call, domain, frame, 0], 16);
            }
        }
        for call in 6..=7 {
            expect(&mut c, [call, 3, frame, 1], 8);
            for count in [0, 2_049, 5_001, M] {
                expect(&mut c, [call, 2, frame, count], 9);
            }
            expect(&mut c, [call, 2, frame, 1], 16);
        }
    }
    // Calls 1, 2, 8 and 11 name no frame, though frame 0 lies in a hole.
    expect(&mut c, [2, 2, 0, 0], 11);
    expect(&mut c, [8, 2, 0, 0], 11);
    expect(&mut c, [11, 2, 0, 0], 11);
    expect(&mut c, [1, 2, 0, 0], 0);
    expect(&mut c, [8, 2, 0, 0], 0);
    expect(&mut c, [11, 2, 0, 0], 0);
    expect(&mut c, [2, 2, 0, 0], 0);
}

/// "for a run, any of its frames".
#[test]
fn runs_through_holes_give_16() {
    let mut c = with_holes();
    for (frame, count) in [
        (2, 9),
        (9, 2),
        (9, 8),
        (14, 1),
        (14, 3),
        (15, 2),
        (23, 2_048),
        (2_069, 2),
        (2_070, 2_048),
        (2_952, 2_048),
    ] {
        for domain in 0..=2 {
            expect(&mut c, [6, domain, frame, count], 16);
            expect(&mut c, [7, domain, frame, count], 16);
        }
    }
    // Before 12 and 14 of an earlier frame.
    expect(&mut c, [7, 0, 9, 2], 16);
    expect(&mut c, [3, 0, 9, 0], 0);
    expect(&mut c, [6, 0, 9, 2], 16);
    expect(&mut c, [7, 0, 9, 2], 16);
}

#[test]
fn frames_and_runs_beside_holes_are_done() {
    let mut c = with_holes();
    for frame in [2, 9, 16, 2_069, 2_071, 4_998] {
        expect(&mut c, [3, 2, frame, 0], 11);
        expect(&mut c, [4, 0, frame, 0], 14);
        expect(&mut c, [3, 0, frame, 0], 0);
        expect(&mut c, [3, 1, frame, 0], 12);
        expect(&mut c, [5, 0, frame, 0], 0);
        expect(&mut c, [4, 0, frame, 0], 0);
    }
    for (frame, count) in [(2, 8), (16, 2_048), (2_071, 2_048), (2_951, 2_048)] {
        expect(&mut c, [6, 2, frame, count], 11);
    }
    // From hole to hole.
    expect(&mut c, [6, 0, 2, 8], 0);
    expect(&mut c, [6, 0, 16, 2_048], 0);
    expect(&mut c, [6, 1, 2_951, 2_048], 13);
    expect(&mut c, [6, 0, 2_951, 2_048], 13);
    expect(&mut c, [6, 0, 2_951, 2_040], 0);
    expect(&mut c, [3, 0, 2_064, 0], 13);
    expect(&mut c, [7, 0, 16, 2_048], 0);
    assert_eq!(c.answer([2, 0, 0, 0])[7], 2_048);
}

/// A board may have no legal frame at all.
#[test]
fn a_board_that_is_one_hole() {
    let sizes = Sizes::new(1, 1, 1).unwrap();
    let mut c = Controller::new(Board::new(sizes, &[0, 1]).unwrap());
    expect(&mut c, [3, 0, 0, 0], 16);
    expect(&mut c, [1, 0, 0, 0], 0);
    expect(&mut c, [6, 0, 0, 1], 16);
    expect(&mut c, [6, 0, 0, 2], 9);
    assert_eq!(c.answer([2, 0, 0, 0]), [0; 8]);
}

#[test]
fn the_first_refused_frame_gives_the_number_of_a_run() {
    let mut c = new(2, 2, 9_000);
    expect(&mut c, [1, 0, 0, 0], 0);
    expect(&mut c, [1, 1, 0, 0], 0);
    expect(&mut c, [3, 1, 100, 0], 0);
    expect(&mut c, [3, 1, 5_000, 0], 0);
    // 12 at frame 100; the TreeLing and the hand are as they were.
    expect(&mut c, [6, 0, 0, 2_048], 12);
    expect(&mut c, [6, 0, 100, 1], 12);
    // 3,000 pages leave 1,096 places.
    expect(&mut c, [6, 0, 101, 2_048], 0);
    expect(&mut c, [6, 0, 2_149, 952], 0);
    // 13 at frame 3,101 + 1,096, before 12 at frame 5,000.
    expect(&mut c, [6, 0, 3_101, 2_048], 13);
    // 12 at 5,000, before 13 at 4,000 + 1,096.
    expect(&mut c, [6, 0, 4_000, 2_048], 12);
    // The head is as it was, so all of it fits.
    expect(&mut c, [6, 0, 3_101, 1_096], 0);
    expect(&mut c, [3, 0, 0, 0], 13);
    // 14 in mid-run.
    expect(&mut c, [7, 0, 90, 20], 14);
    expect(&mut c, [7, 0, 4_190, 8], 14);
    expect(&mut c, [7, 0, 2_150, 2_048], 14);
    expect(&mut c, [7, 1, 100, 2], 14);
    expect(&mut c, [7, 0, 101, 2_048], 0);
    expect(&mut c, [7, 0, 2_149, 2_048], 0);
    expect(&mut c, [5, 0, 101, 0], 14);
}

#[test]
fn batches_are_asked_in_sequence_and_a_refusal_writes_nothing() {
    let sound = new(1, 1, 4).render();
    let mut short = sound.clone();
    short.pop();
    let mut unsound = sound.clone();
    unsound[26] = 1;
    let mut past_end = new(1, 1, 4).render();
    past_end[8..11].copy_from_slice(&[1, 4, 1]);
    let mut outside = unsound.clone();
    outside[0] = 0;
    let long = vec![0; 262_148];
    let fits = vec![0; 262_144];
    let open = [1, 0, 0, 0];
    let cases: [(&[u64], &[u64], usize, u64); 16] = [
        (&[], &[], 0, 3),
        (&sound[..24], &[], 0, 3),
        (&past_end, &open, 8, 3),
        (&past_end, &open[..3], 1, 3),
        (&short, &open, 8, 3),
        (&outside, &open, 8, 3),
        (&outside, &open[..3], 1, 3),
        (&unsound, &open[..3], 1, 4),
        (&unsound, &open, 8, 4),
        (&unsound, &[], 0, 4),
        (&sound, &open[..3], 6, 5),
        (&sound, &open[..1], 9, 5),
        (&sound, &long, 524_296, 5),
        (&sound, &open, 7, 6),
        (&sound, &open, 9, 6),
        (&sound, &[], 8, 6),
    ];
    for (state, requests, length, number) in cases {
        let mut after = state.to_vec();
        let mut answers = vec![77; length];
        assert_eq!(serve_words(&mut after, requests, &mut answers), number);
        assert_eq!(after, state);
        assert!(answers.iter().all(|&word| word == 77));
    }
    let mut state = sound.clone();
    assert_eq!(serve_words(&mut state, &[], &mut []), 0);
    assert_eq!(state, sound);
    let mut answers = vec![77; 524_288];
    assert_eq!(serve_words(&mut state, &fits, &mut answers), 0);
    assert!(answers.chunks(8).all(|a| a == [7, 0, 0, 0, 0, 0, 0, 0]));
    assert_eq!(state, sound);
}

#[test]
fn closing_zeroes_and_the_hand_stays() {
    let mut c = new(3, 2, 9_000);
    for request in [
        [1, 0, 0, 0],
        [1, 1, 0, 0],
        [6, 0, 0, 2_048],
        [6, 0, 2_048, 2_048],
        [6, 0, 4_096, 904],
        [3, 1, 8_000, 0],
    ] {
        expect(&mut c, request, 0);
    }
    assert_eq!(c.pool().hand(), 0);
    assert_eq!(c.answer([2, 0, 0, 0]), [0, 0, 0, 0, 0, 0, 0, 5_000]);
    assert_eq!(c.pool().hand(), 0);
    let words = c.render();
    assert_eq!(words[25..31], [0; 6]);
    // The fifth word, the last owner + 1, stays.
    assert_eq!(words[37..42], [0, 0, 0, 0, 1]);
    assert_eq!(words[42..47], [0, 0, 0, 0, 1]);
    assert_eq!(words[47..52], [2, 0, 0, 0, 2]);
    assert!(words[52..52 + 1_024].iter().all(|&word| word == 0));
    assert_eq!(
        words
            .iter()
            .rev()
            .take(9_000)
            .filter(|&&word| word != 0)
            .count(),
        1
    );
    assert_eq!(second::audit(&words), 0);
    // The other domain's next TreeLing comes from the hand upward and around.
    expect(&mut c, [6, 1, 0, 2_048], 0);
    expect(&mut c, [6, 1, 2_048, 2_048], 0);
    assert_eq!(c.answer([5, 1, 4_095, 0])[..3], [0, 1, 0]);
    assert_eq!(c.pool().hand(), 1);
    // Closing a domain without pages.
    expect(&mut c, [1, 0, 0, 0], 0);
    assert_eq!(c.answer([2, 0, 0, 0]), [0; 8]);
}

/// The rank and path are those of the page's TreeLing, also where the head
/// block lies in another.
#[test]
fn a_released_slot_is_found_in_another_treelings_list() {
    let mut c = new(2, 1, 8_192);
    expect(&mut c, [1, 0, 0, 0], 0);
    expect(&mut c, [6, 0, 0, 2_048], 0);
    expect(&mut c, [6, 0, 2_048, 2_048], 0);
    expect(&mut c, [6, 0, 4_096, 8], 0);
    expect(&mut c, [4, 0, 0, 0], 0);
    // Entry 0 of TreeLing 1's NFL now has tag 0.
    let nfl = 25 + 6 + 10 + 512;
    assert_eq!(c.render()[nfl], 1);
    assert_eq!(c.answer([3, 0, 0, 0]), [0, 0, 0, 0, 0, 0, 0, 1]);
    assert_eq!(c.answer([5, 0, 0, 0]), [0; 8]);
    assert_eq!(c.answer([3, 0, 4_104, 0]), [0, 1, 1, 8, 64, 513, 0, 1]);
    assert_eq!(c.answer([5, 0, 4_104, 0]), [0, 1, 1, 8, 64, 513, 0, 0]);
}
