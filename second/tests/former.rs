//! Request M-104, "Prefer a guest's former TreeLing", worked by hand.

use second::{audit, serve_words, Controller, Sizes};

fn new(t: u64, d: u64, p: u64) -> Controller {
    Controller::new(Sizes::new(t, d, p).unwrap())
}

/// Serves requests that are all done.
fn serve(c: &mut Controller, requests: &[[u64; 4]]) {
    for &request in requests {
        assert_eq!(c.answer(request)[0], 0, "{request:?}");
    }
    assert_eq!(audit(&c.render()), 0);
}

/// Opens a domain and maps a frame: the TreeLing where it lies, at rank 0.
fn start(c: &mut Controller, domain: u64, frame: u64) -> u64 {
    serve(c, &[[1, domain, 0, 0]]);
    let [number, rank, treeling, ..] = c.answer([3, domain, frame, 0]);
    assert_eq!([number, rank], [0, 0]);
    treeling
}

fn close(c: &mut Controller, domain: u64) {
    serve(c, &[[2, domain, 0, 0]]);
}

/// Word 3, the hand, and the fifth word of each TreeLing's record.
fn hand_and_formers(c: &Controller) -> (u64, Vec<u64>) {
    let words = c.render();
    let [_, treelings, nfl, _] = c.sizes().starts();
    let formers = words[treelings..nfl].chunks(5).map(|record| record[4]);
    (words[3], formers.collect())
}

/// In a new state nobody held a TreeLing.
#[test]
fn on_a_new_state_taking_is_as_it_was() {
    let mut c = new(4, 4, 30);
    assert_eq!(hand_and_formers(&c), (0, vec![0; 4]));
    assert_eq!(start(&mut c, 2, 0), 0);
    assert_eq!(start(&mut c, 0, 1), 1);
    assert_eq!(start(&mut c, 3, 2), 2);
    assert_eq!(hand_and_formers(&c), (3, vec![3, 1, 4, 0]));
    assert_eq!(start(&mut c, 1, 3), 3);
    assert_eq!(hand_and_formers(&c), (0, vec![3, 1, 4, 2]));
}

/// The hand is at TreeLing 1, which nobody owns; the former one is 0.
#[test]
fn a_restarted_guest_gets_its_former_treeling() {
    let mut c = new(3, 1, 30);
    for frame in 0..4 {
        assert_eq!(start(&mut c, 0, frame), 0);
        assert_eq!(hand_and_formers(&c), (1, vec![1, 0, 0]));
        close(&mut c, 0);
        assert_eq!(hand_and_formers(&c), (1, vec![1, 0, 0]));
    }
}

/// From the hand, 3, come TreeLings 3 and 0 before 1 and 2.
#[test]
fn others_that_come_first_from_the_hand_are_passed_over() {
    let mut c = new(4, 3, 30);
    assert_eq!([0, 1, 2].map(|d| start(&mut c, d, d)), [0, 1, 2]);
    for domain in [0, 1, 2] {
        close(&mut c, domain);
    }
    assert_eq!(hand_and_formers(&c), (3, vec![1, 2, 3, 0]));
    serve(&mut c, &[[1, 1, 0, 0]]);
    assert_eq!(c.answer([3, 1, 7, 0]), [0, 0, 1, 8, 64, 512, 0, 1]);
    assert_eq!(hand_and_formers(&c).0, 2);
    // From the hand upward comes 2 first, then 3; 0 is around.
    assert_eq!(start(&mut c, 0, 8), 0);
    assert_eq!(hand_and_formers(&c).0, 1);
    assert_eq!(start(&mut c, 2, 9), 2);
    assert_eq!(hand_and_formers(&c), (3, vec![1, 2, 3, 0]));
}

/// Domain 0 held TreeLings 0 and 1, domain 1 holds 2, nobody held 3.
fn two_former_ones() -> Controller {
    let mut c = new(4, 2, 9_000);
    serve(
        &mut c,
        &[
            [1, 0, 0, 0],
            [6, 0, 0, 2_048],
            [6, 0, 2_048, 2_048],
            [3, 0, 4_096, 0],
        ],
    );
    assert_eq!(start(&mut c, 1, 8_999), 2);
    close(&mut c, 0);
    assert_eq!(hand_and_formers(&c), (3, vec![1, 1, 2, 0]));
    c
}

#[test]
fn of_two_former_ones_the_first_from_the_hand_is_taken() {
    let mut c = two_former_ones();
    // From 3 around: 3 was nobody's, then 0.
    assert_eq!(start(&mut c, 0, 0), 0);
    assert_eq!(hand_and_formers(&c), (1, vec![1, 1, 2, 0]));
    close(&mut c, 0);
    // From 1: it is a former one itself, and now of rank 0.
    assert_eq!(start(&mut c, 0, 0), 1);
    assert_eq!(hand_and_formers(&c), (2, vec![1, 1, 2, 0]));
    // From 2 around: 3 was nobody's, then 0, of rank 1.
    serve(&mut c, &[[6, 0, 1, 2_048], [6, 0, 2_049, 2_047]]);
    assert_eq!(c.answer([3, 0, 4_096, 0]), [0, 1, 0, 0, 0, 0, 0, 1]);
    assert_eq!(hand_and_formers(&c), (1, vec![1, 1, 2, 0]));
    // No former one is left: 3, of rank 2.
    serve(&mut c, &[[6, 0, 4_097, 2_048], [6, 0, 6_145, 2_047]]);
    assert_eq!(c.answer([3, 0, 8_192, 0])[..3], [0, 2, 3]);
    assert_eq!(hand_and_formers(&c), (0, vec![1, 1, 2, 1]));
}

/// A run takes them in the same way, the second one in its middle.
#[test]
fn runs_take_former_ones_too() {
    let mut c = two_former_ones();
    serve(
        &mut c,
        &[
            [1, 0, 0, 0],
            [6, 0, 1_000, 2_048],
            [6, 0, 4_000, 2_000],
            [6, 0, 6_000, 2_048],
        ],
    );
    assert_eq!(c.answer([5, 0, 1_000, 0])[..3], [0, 0, 0]);
    assert_eq!(c.answer([5, 0, 6_047, 0])[..3], [0, 0, 0]);
    assert_eq!(c.answer([5, 0, 6_048, 0])[..3], [0, 1, 1]);
    assert_eq!(hand_and_formers(&c), (2, vec![1, 1, 2, 0]));
}

#[test]
fn another_guest_may_take_it_in_between() {
    let mut c = new(2, 3, 30);
    assert_eq!(start(&mut c, 0, 0), 0);
    assert_eq!(start(&mut c, 1, 1), 1);
    close(&mut c, 0);
    assert_eq!(hand_and_formers(&c), (0, vec![1, 2]));
    // The only unowned one was domain 0's; now it is domain 2's.
    assert_eq!(start(&mut c, 2, 2), 0);
    assert_eq!(hand_and_formers(&c), (1, vec![3, 2]));
    serve(&mut c, &[[1, 0, 0, 0]]);
    assert_eq!(c.answer([3, 0, 3, 0])[0], 13);
    close(&mut c, 2);
    close(&mut c, 1);
    assert_eq!(hand_and_formers(&c), (1, vec![3, 2]));
    // Domain 0 held neither last: the first from the hand, not the one it once had.
    assert_eq!(c.answer([3, 0, 3, 0])[..3], [0, 0, 1]);
    assert_eq!(hand_and_formers(&c), (0, vec![3, 1]));
    // So domain 1 is late.
    assert_eq!(start(&mut c, 1, 1), 0);
    assert_eq!(hand_and_formers(&c), (1, vec![2, 1]));
}

#[test]
fn where_all_were_last_held_by_others_the_first_from_the_hand_is_taken() {
    let mut c = new(3, 5, 30);
    assert_eq!([0, 1, 2].map(|d| start(&mut c, d, d)), [0, 1, 2]);
    for domain in [2, 0, 1] {
        close(&mut c, domain);
    }
    // The hand is brought to 2.
    assert_eq!(start(&mut c, 1, 1), 1);
    close(&mut c, 1);
    assert_eq!(hand_and_formers(&c), (2, vec![1, 2, 3]));
    assert_eq!(start(&mut c, 3, 3), 2);
    assert_eq!(hand_and_formers(&c), (0, vec![1, 2, 4]));
    assert_eq!(start(&mut c, 4, 4), 0);
    assert_eq!(hand_and_formers(&c), (1, vec![5, 2, 4]));
    // Domain 1 has its own still.
    assert_eq!(start(&mut c, 1, 1), 1);
    assert_eq!(hand_and_formers(&c), (2, vec![5, 2, 4]));
}

/// "the hand becomes the number after it, modulo T".
#[test]
fn the_hand_is_after_the_former_one() {
    let mut c = new(5, 5, 30);
    assert_eq!(
        [0, 1, 2, 3, 4].map(|d| start(&mut c, d, d)),
        [0, 1, 2, 3, 4]
    );
    for (domain, hand) in [(2, 3), (4, 0), (0, 1), (3, 4), (3, 4), (4, 0), (1, 2)] {
        close(&mut c, domain);
        assert_eq!(start(&mut c, domain, domain), domain);
        assert_eq!(hand_and_formers(&c), (hand, vec![1, 2, 3, 4, 5]));
    }
}

/// "kept while the rest of an unowned record is zero": by close, and by every
/// call until the TreeLing is taken.
#[test]
fn the_fifth_word_is_kept() {
    let mut c = new(2, 3, 30);
    assert_eq!(start(&mut c, 1, 4), 0);
    assert_eq!(c.render()[43..48], [2, 0, 0, 0, 2]);
    close(&mut c, 1);
    assert_eq!(c.render()[43..53], [0, 0, 0, 0, 2, 0, 0, 0, 0, 0]);
    // A domain that takes nothing.
    serve(&mut c, &[[1, 0, 0, 0], [2, 0, 0, 0], [1, 1, 0, 0]]);
    assert_eq!(c.answer([4, 1, 4, 0])[0], 14);
    assert_eq!(c.render()[43..48], [0, 0, 0, 0, 2]);
    serve(&mut c, &[[2, 1, 0, 0]]);
    assert_eq!(c.render()[43..48], [0, 0, 0, 0, 2]);
}

/// "whole or not at all": the run takes a TreeLing that was another's and is
/// refused at its second frame.
#[test]
fn a_refused_run_leaves_the_fifth_word() {
    let mut c = new(2, 3, 30);
    assert_eq!(start(&mut c, 0, 5), 0);
    assert_eq!(start(&mut c, 1, 6), 1);
    close(&mut c, 1);
    serve(&mut c, &[[1, 2, 0, 0]]);
    let before = c.render();
    assert_eq!(c.answer([6, 2, 4, 2])[0], 12);
    assert_eq!(c.render(), before);
    assert_eq!(hand_and_formers(&c), (0, vec![1, 2]));
    assert_eq!(start(&mut c, 1, 6), 1);
}

/// Any last owner that the audit lets pass is heeded.
#[test]
fn the_words_of_a_lent_state_say_who_held_it() {
    let mut state = new(3, 2, 30).render();
    state[37 + 10 + 4] = 2;
    assert_eq!(audit(&state), 0);
    let requests = [[1, 0, 0, 0], [1, 1, 0, 0], [3, 1, 0, 0], [3, 0, 1, 0]];
    let mut answers = [9; 32];
    assert_eq!(serve_words(&mut state, &requests.concat(), &mut answers), 0);
    assert_eq!(answers[16..24], [0, 0, 2, 16, 128, 1_024, 0, 1]);
    assert_eq!(answers[24..32], [0, 0, 0, 0, 0, 0, 0, 1]);
    assert_eq!(state[3], 1);
    let records = [[1, 0, 0, 0, 1], [0; 5], [2, 0, 0, 0, 2]];
    assert_eq!(state[37..52], records.concat());
}
