//! Request M-107, "Fill with nothing rounded away", worked by hand.

use second::{audit, serve_words, Board, Controller, Sizes};

const M: u64 = u64::MAX;

fn new(t: u64, d: u64, p: u64) -> Controller {
    Controller::new(Sizes::new(t, d, p).unwrap())
}

/// Serves requests that are all done.
fn serve(c: &mut Controller, requests: &[[u64; 4]]) {
    for &request in requests {
        assert_eq!(c.answer(request)[0], 0, "{request:?}");
    }
}

/// Asks, and checks that no word of the state changed.
fn ask(c: &mut Controller, request: [u64; 4]) -> [u64; 8] {
    let (before, words) = (c.clone(), c.render());
    let answer = c.answer(request);
    assert_eq!(*c, before, "{request:?}");
    assert_eq!(c.render(), words, "{request:?}");
    answer
}

/// Quotient, remainder and slots of a done fill; "the other words always" are 0.
fn fill(c: &mut Controller, domain: u64) -> [u64; 3] {
    let [number, quotient, remainder, slots, rest @ ..] = ask(c, [11, domain, 0, 0]);
    assert_eq!((number, rest), (0, [0; 4]));
    [quotient, remainder, slots]
}

/// The request is refused with this number and changes nothing.
fn refused(c: &mut Controller, request: [u64; 4], number: u64) {
    assert_eq!(
        ask(c, request),
        [number, 0, 0, 0, 0, 0, 0, 0],
        "{request:?}"
    );
}

/// Domain 0 has this many pages, mapped in runs from frame 0 up.
fn with_pages(treelings: u64, pages: u64) -> Controller {
    let mut c = new(treelings, 1, 4_096 * treelings);
    serve(&mut c, &[[1, 0, 0, 0]]);
    for start in (0..pages).step_by(2_048) {
        serve(&mut c, &[[6, 0, start, 2_048.min(pages - start)]]);
    }
    c
}

/// "slots are 4,096 per TreeLing": 5,120 pages of 8,192 slots are 625 thousandths.
#[test]
fn five_eighths_of_two_treelings() {
    let mut c = with_pages(2, 5_120);
    assert_eq!(fill(&mut c, 0), [625, 0, 8_192]);
    // TreeLings that nobody owns are not its own.
    let mut c = with_pages(9, 5_120);
    assert_eq!(fill(&mut c, 0), [625, 0, 8_192]);
}

/// 1,000 = 0 × 4,096 + 1,000.
#[test]
fn one_page_is_not_rounded_away() {
    let mut c = with_pages(1, 1);
    assert_eq!(fill(&mut c, 0), [0, 1_000, 4_096]);
    serve(&mut c, &[[6, 0, 1, 3]]);
    assert_eq!(fill(&mut c, 0), [0, 4_000, 4_096]);
    serve(&mut c, &[[3, 0, 4, 0]]);
    assert_eq!(fill(&mut c, 0), [1, 904, 4_096]);
}

#[test]
fn a_full_treeling_has_a_thousand() {
    let mut c = with_pages(2, 4_095);
    assert_eq!(fill(&mut c, 0), [999, 3_096, 4_096]);
    serve(&mut c, &[[3, 0, 4_095, 0]]);
    assert_eq!(fill(&mut c, 0), [1_000, 0, 4_096]);
    // The next page takes a TreeLing, and half of the slots are free.
    serve(&mut c, &[[3, 0, 4_096, 0]]);
    assert_eq!(fill(&mut c, 0), [500, 1_000, 8_192]);
    let mut c = with_pages(2, 8_192);
    assert_eq!(fill(&mut c, 0), [1_000, 0, 8_192]);
}

/// "Without TreeLings all are 0".
#[test]
fn a_domain_without_treelings_has_zeros() {
    let mut c = new(1, 2, 40);
    serve(&mut c, &[[1, 0, 0, 0], [1, 1, 0, 0]]);
    assert_eq!(fill(&mut c, 0), [0; 3]);
    // The one TreeLing is domain 1's, so domain 0 gets none.
    serve(&mut c, &[[6, 1, 0, 30]]);
    assert_eq!(c.answer([3, 0, 30, 0])[0], 13);
    assert_eq!(fill(&mut c, 0), [0; 3]);
    assert_eq!(fill(&mut c, 1), [7, 1_328, 4_096]);
}

/// A domain keeps its TreeLings until it is trimmed or closed.
#[test]
fn a_treeling_without_pages_still_counts() {
    let mut c = with_pages(1, 700);
    assert_eq!(fill(&mut c, 0), [170, 3_680, 4_096]);
    serve(&mut c, &[[7, 0, 0, 699], [4, 0, 699, 0]]);
    assert_eq!(fill(&mut c, 0), [0, 0, 4_096]);
    serve(&mut c, &[[8, 0, 0, 0]]);
    assert_eq!(fill(&mut c, 0), [0; 3]);
    // Of two TreeLings all pages of the first are left.
    let mut c = with_pages(2, 6_144);
    assert_eq!(fill(&mut c, 0), [750, 0, 8_192]);
    serve(&mut c, &[[7, 0, 4_096, 2_048]]);
    assert_eq!(fill(&mut c, 0), [500, 0, 8_192]);
    serve(&mut c, &[[8, 0, 0, 0]]);
    assert_eq!(fill(&mut c, 0), [1_000, 0, 4_096]);
}

/// A closed domain is refused; opened again, it has no TreeLing before its
/// first page, though its former one is unowned.
#[test]
fn a_restarted_domain_begins_with_zeros() {
    let mut c = with_pages(2, 5_000);
    serve(&mut c, &[[2, 0, 0, 0]]);
    refused(&mut c, [11, 0, 0, 0], 11);
    serve(&mut c, &[[1, 0, 0, 0]]);
    assert_eq!(fill(&mut c, 0), [0; 3]);
    serve(&mut c, &[[3, 0, 17, 0]]);
    assert_eq!(fill(&mut c, 0), [0, 1_000, 4_096]);
}

/// Each domain's pages and TreeLings are its own.
#[test]
fn domains_are_apart() {
    let mut c = new(4, 3, 10_000);
    let opened = [[1, 0, 0, 0], [1, 1, 0, 0], [1, 2, 0, 0]];
    serve(&mut c, &opened);
    serve(&mut c, &[[6, 0, 0, 2_048], [6, 1, 3_000, 1_024]]);
    serve(&mut c, &[[6, 0, 5_000, 2_048], [6, 0, 7_048, 1_024]]);
    assert_eq!(fill(&mut c, 0), [625, 0, 8_192]);
    assert_eq!(fill(&mut c, 1), [250, 0, 4_096]);
    assert_eq!(fill(&mut c, 2), [0; 3]);
}

/// A refused run, and one that would take a TreeLing first, change no fill.
#[test]
fn refused_requests_change_no_fill() {
    let mut c = with_pages(1, 4_000);
    assert_eq!(fill(&mut c, 0), [976, 2_304, 4_096]);
    assert_eq!(c.answer([7, 0, 3_990, 11])[0], 14);
    assert_eq!(c.answer([6, 0, 3_999, 2])[0], 12);
    assert_eq!(fill(&mut c, 0), [976, 2_304, 4_096]);
    let mut c = new(2, 2, 30);
    serve(&mut c, &[[1, 0, 0, 0], [1, 1, 0, 0], [3, 1, 5, 0]]);
    assert_eq!(c.answer([6, 0, 0, 6])[0], 12);
    assert_eq!(fill(&mut c, 0), [0; 3]);
}

/// After each page of a TreeLing, and after each that goes again, nothing is
/// rounded away.
#[test]
fn every_page_of_a_treeling() {
    let mut c = new(1, 1, 4_096);
    serve(&mut c, &[[1, 0, 0, 0]]);
    let mapped = (0..4_096).map(|frame| ([3, 0, frame, 0], frame + 1));
    let unmapped = (0..4_096).map(|frame| ([4, 0, frame, 0], 4_095 - frame));
    for (request, pages) in mapped.chain(unmapped) {
        serve(&mut c, &[request]);
        let [number, quotient, remainder, slots, rest @ ..] = c.answer([11, 0, 0, 0]);
        assert_eq!((number, slots, rest), (0, 4_096, [0; 4]));
        assert_eq!(1_000 * pages, 4_096 * quotient + remainder);
        assert!(remainder < 4_096);
    }
}

/// 7, then 8, then 11. Domain 0 is live, domain 1 is dead.
#[test]
fn the_questions_of_call_11() {
    let sizes = Sizes::new(1, 2, 40).unwrap();
    let mut c = Controller::new(Board::new(sizes, &[0, 3]).unwrap());
    serve(&mut c, &[[1, 0, 0, 0], [6, 0, 3, 30]]);
    for domain in [0, 1, 2, M] {
        for (frame, count) in [(1, 0), (0, 1), (3, 1), (40, 0), (M, 0), (0, M), (M, M)] {
            refused(&mut c, [11, domain, frame, count], 7);
        }
    }
    for domain in [2, 3, 1 << 32, M] {
        refused(&mut c, [11, domain, 0, 0], 8);
    }
    refused(&mut c, [11, 1, 0, 0], 11);
    // It names no frame, so frame 0 may lie in a hole.
    assert_eq!(fill(&mut c, 0), [7, 1_328, 4_096]);
}

/// No call has these numbers.
#[test]
fn the_numbers_beside_8_and_11_get_7() {
    let mut c = with_pages(1, 40);
    for call in [0, 9, 10, 12, 13, 8 + (1 << 32), 11 + (1 << 32), M] {
        for domain in [0, 1, M] {
            refused(&mut c, [call, domain, 0, 0], 7);
            refused(&mut c, [call, domain, 1, 0], 7);
            refused(&mut c, [call, domain, 1, 1], 7);
        }
    }
}

/// In a batch of words it sees what the requests before it left.
#[test]
fn it_belongs_to_the_batch() {
    let mut state = new(1, 2, 9).render();
    let requests = [
        [11, 0, 0, 0],
        [1, 0, 0, 0],
        [11, 0, 0, 0],
        [3, 0, 4, 0],
        [11, 0, 0, 0],
        [11, 0, 4, 0],
        [4, 0, 4, 0],
        [11, 0, 0, 0],
        [11, 2, 0, 0],
    ];
    let mut answers = [9; 72];
    assert_eq!(serve_words(&mut state, &requests.concat(), &mut answers), 0);
    let expected = [
        [11, 0, 0, 0, 0, 0, 0, 0],
        [0, 0, 0, 0, 0, 0, 0, 0],
        [0, 0, 0, 0, 0, 0, 0, 0],
        [0, 0, 0, 0, 0, 0, 0, 1],
        [0, 0, 1_000, 4_096, 0, 0, 0, 0],
        [7, 0, 0, 0, 0, 0, 0, 0],
        [0, 0, 0, 0, 0, 0, 0, 1],
        [0, 0, 0, 4_096, 0, 0, 0, 0],
        [8, 0, 0, 0, 0, 0, 0, 0],
    ];
    assert_eq!(answers, *expected.as_flattened());
    assert_eq!(audit(&state), 0);
    // A batch of fills alone leaves every word.
    let before = state.clone();
    let mut answers = [9; 16];
    let requests = [11, 0, 0, 0, 11, 1, 0, 0];
    assert_eq!(serve_words(&mut state, &requests, &mut answers), 0);
    assert_eq!(answers[..8], [0, 0, 0, 4_096, 0, 0, 0, 0]);
    assert_eq!(answers[8..], [11, 0, 0, 0, 0, 0, 0, 0]);
    assert_eq!(state, before);
}
