//! Request M-100, "Give back empty TreeLings", worked by hand.

mod trimmed;

use std::ops::Range;

use second::{audit, serve_words, Board, Controller, Sizes};

const M: u64 = u64::MAX;

fn new(t: u64, d: u64, p: u64) -> Controller {
    Controller::new(Sizes::new(t, d, p).unwrap())
}

/// Serves requests that are all done.
fn serve(c: &mut Controller, requests: &[[u64; 4]]) {
    for &request in requests {
        assert_eq!(c.answer(request)[0], 0, "{request:?}");
    }
}

/// Maps or unmaps frames of domain 0 in runs.
fn runs(c: &mut Controller, call: u64, frames: Range<u64>) {
    for start in frames.clone().step_by(2_048) {
        serve(c, &[[call, 0, start, 2_048.min(frames.end - start)]]);
    }
}

/// Trims: how many TreeLings are returned. Every word is what M-100 says.
fn trim(c: &mut Controller, domain: u64) -> u64 {
    let before = c.render();
    let [number, between @ .., pages] = c.answer([8, domain, 0, 0]);
    assert_eq!((number, between), (0, [0; 6]));
    let after = c.render();
    let (expected, returned) = trimmed::trimmed(&before, domain);
    assert!(after == expected);
    assert_eq!(pages as usize, returned.iter().filter(|&&is| is).count());
    assert_eq!(audit(&after), 0);
    pages
}

/// A trim that returns nothing and changes no word.
fn trim_in_vain(c: &mut Controller, domain: u64) {
    let (before, words) = (c.clone(), c.render());
    assert_eq!(c.answer([8, domain, 0, 0]), [0; 8]);
    assert_eq!(*c, before);
    assert_eq!(c.render(), words);
}

/// The request is refused with this number and changes no word.
fn refused(c: &mut Controller, request: [u64; 4], number: u64) {
    let (before, words) = (c.clone(), c.render());
    let answer = [number, 0, 0, 0, 0, 0, 0, 0];
    assert_eq!(c.answer(request), answer, "{request:?}");
    assert_eq!(*c, before, "{request:?}");
    assert_eq!(c.render(), words, "{request:?}");
}

/// Live, first, last, head TreeLing, head block, pages.
fn domain(c: &Controller, id: usize) -> Vec<u64> {
    c.render()[c.sizes().starts()[0] + 6 * id..][..6].to_vec()
}

/// Owner, previous, next, rank and last owner of each TreeLing.
fn records(c: &Controller) -> Vec<[u64; 5]> {
    let [_, treelings, nfl, _] = c.sizes().starts();
    c.render()[treelings..nfl].as_chunks().0.to_vec()
}

fn nfl(c: &Controller, treeling: usize) -> Vec<u64> {
    c.render()[c.sizes().starts()[2] + 512 * treeling..][..512].to_vec()
}

fn hand(c: &Controller) -> u64 {
    c.render()[3]
}

/// Entries of nodes without a free position.
fn full(nodes: Range<u64>) -> Vec<u64> {
    nodes.map(|node| 256 * node).collect()
}

/// Domain 0 has frame f in TreeLing f / 4,096, slot f mod 4,096, for the 12,288
/// slots of TreeLings 0, 1 and 2; domain 1 has frame 12,299 in TreeLing 3; domain 2
/// is dead. Any further TreeLing is nobody's.
fn three(treelings: u64) -> Controller {
    let mut c = new(treelings, 3, 12_300);
    serve(&mut c, &[[1, 0, 0, 0], [1, 1, 0, 0]]);
    runs(&mut c, 6, 0..12_288);
    serve(&mut c, &[[3, 1, 12_299, 0]]);
    assert_eq!(domain(&c, 0), [1, 1, 3, 3, 63, 12_288]);
    let owned = [[1, 0, 2, 0, 1], [1, 1, 3, 1, 1], [1, 2, 0, 2, 1]];
    assert_eq!(records(&c)[..3], owned);
    assert_eq!(records(&c)[3], [2, 0, 0, 0, 2]);
    assert_eq!(hand(&c), 4 % treelings);
    c
}

const RETURNED: [u64; 5] = [0, 0, 0, 0, 1];

/// The kept TreeLings have no free slot, so the head is the last block.
#[test]
fn one_in_the_middle_is_returned() {
    let mut c = three(5);
    runs(&mut c, 7, 4_096..8_192);
    assert_eq!(trim(&mut c, 0), 1);
    assert_eq!(domain(&c, 0), [1, 1, 3, 3, 63, 8_192]);
    let expected = [[1, 0, 3, 0, 1], RETURNED, [1, 1, 0, 1, 1]];
    assert_eq!(records(&c)[..3], expected);
    assert_eq!(nfl(&c, 0), full(0..512));
    assert_eq!(nfl(&c, 1), [0; 512]);
    assert_eq!(nfl(&c, 2), full(1_024..1_536));
    assert_eq!(trimmed::chain(&c.render(), 0), [0, 2]);
    // Frames stay where they are, under the new rank.
    assert_eq!(c.answer([5, 0, 8, 0]), [0, 0, 0, 0, 0, 1, 0, 0]);
    assert_eq!(c.answer([5, 0, 8_200, 0]), [0, 1, 2, 16, 128, 1_025, 0, 0]);
    refused(&mut c, [5, 0, 4_096, 0], 14);
}

#[test]
fn the_last_one_is_returned() {
    let mut c = three(5);
    runs(&mut c, 7, 8_192..12_288);
    assert_eq!(trim(&mut c, 0), 1);
    assert_eq!(domain(&c, 0), [1, 1, 2, 2, 63, 8_192]);
    let expected = [[1, 0, 2, 0, 1], [1, 1, 0, 1, 1], RETURNED];
    assert_eq!(records(&c)[..3], expected);
    assert_eq!(nfl(&c, 1), full(512..1_024));
    assert_eq!(nfl(&c, 2), [0; 512]);
}

#[test]
fn the_first_one_is_returned() {
    let mut c = three(5);
    runs(&mut c, 7, 0..4_096);
    assert_eq!(trim(&mut c, 0), 1);
    assert_eq!(domain(&c, 0), [1, 2, 3, 3, 63, 8_192]);
    let expected = [RETURNED, [1, 0, 3, 0, 1], [1, 2, 0, 1, 1]];
    assert_eq!(records(&c)[..3], expected);
    assert_eq!(nfl(&c, 0), [0; 512]);
    assert_eq!(nfl(&c, 1), full(512..1_024));
    assert_eq!(c.answer([5, 0, 4_096, 0]), [0, 0, 1, 8, 64, 512, 0, 0]);
    assert_eq!(c.answer([5, 0, 8_192, 0])[..3], [0, 1, 2]);
}

#[test]
fn the_first_and_the_last_one_are_returned() {
    let mut c = three(5);
    runs(&mut c, 7, 8_192..12_288);
    runs(&mut c, 7, 0..4_096);
    assert_eq!(trim(&mut c, 0), 2);
    assert_eq!(domain(&c, 0), [1, 2, 2, 2, 63, 4_096]);
    let expected = [RETURNED, [1, 0, 0, 0, 1], RETURNED];
    assert_eq!(records(&c)[..3], expected);
}

/// "if all are empty the domain has zeros after live"; it stays open.
#[test]
fn all_are_returned() {
    let mut c = three(5);
    runs(&mut c, 7, 0..12_288);
    assert_eq!(trim(&mut c, 0), 3);
    assert_eq!(domain(&c, 0), [1, 0, 0, 0, 0, 0]);
    assert_eq!(records(&c)[..3], [RETURNED; 3]);
    assert!((0..3).all(|treeling| nfl(&c, treeling) == [0; 512]));
    assert_eq!(hand(&c), 4);
    assert_eq!(c.answer([11, 0, 0, 0]), [0; 8]);
    refused(&mut c, [1, 0, 0, 0], 10);
    // From the hand around TreeLing 4 is nearer, but was nobody's.
    assert_eq!(c.answer([3, 0, 7, 0]), [0, 0, 0, 0, 0, 0, 0, 1]);
    assert_eq!(domain(&c, 0), [1, 1, 1, 1, 0, 1]);
    assert_eq!(hand(&c), 1);
}

/// The one TreeLing of a domain, before and after its only page.
#[test]
fn a_single_treeling_is_returned_and_taken_again() {
    let mut c = new(2, 1, 30);
    serve(&mut c, &[[1, 0, 0, 0], [3, 0, 4, 0]]);
    trim_in_vain(&mut c, 0);
    serve(&mut c, &[[4, 0, 4, 0]]);
    assert_eq!(domain(&c, 0), [1, 1, 1, 1, 0, 0]);
    assert_eq!(trim(&mut c, 0), 1);
    assert_eq!(domain(&c, 0), [1, 0, 0, 0, 0, 0]);
    assert_eq!(records(&c), [RETURNED, [0; 5]]);
    assert_eq!(hand(&c), 1);
    // The hand is at TreeLing 1, but TreeLing 0 was its own.
    assert_eq!(c.answer([3, 0, 4, 0]), [0, 0, 0, 0, 0, 0, 0, 1]);
    assert_eq!(records(&c), [[1, 0, 0, 0, 1], [0; 5]]);
}

/// Without a free slot a map takes a TreeLing, and that just returned before
/// TreeLing 4, at which the hand is.
#[test]
fn a_map_takes_the_former_one_again() {
    let mut c = three(5);
    runs(&mut c, 7, 4_096..8_192);
    assert_eq!(trim(&mut c, 0), 1);
    assert_eq!(hand(&c), 4);
    assert_eq!(c.answer([3, 0, 5_000, 0]), [0, 2, 1, 8, 64, 512, 0, 1]);
    assert_eq!(hand(&c), 2);
    assert_eq!(domain(&c, 0), [1, 1, 2, 2, 0, 8_193]);
    let expected = [[1, 0, 3, 0, 1], [1, 3, 0, 2, 1], [1, 1, 2, 1, 1]];
    assert_eq!(records(&c)[..3], expected);
    assert_eq!(nfl(&c, 1)[..2], [256 * 512 + 254, 256 * 513 + 255]);
}

/// No TreeLing is left but the one returned.
#[test]
fn another_domain_may_take_the_one_returned() {
    let mut c = three(4);
    serve(&mut c, &[[1, 2, 0, 0]]);
    refused(&mut c, [3, 2, 12_298, 0], 13);
    runs(&mut c, 7, 4_096..8_192);
    refused(&mut c, [3, 2, 12_298, 0], 13);
    assert_eq!(trim(&mut c, 0), 1);
    assert_eq!(c.answer([3, 2, 5_000, 0]), [0, 0, 1, 8, 64, 512, 0, 1]);
    assert_eq!(records(&c)[1], [3, 0, 0, 0, 3]);
    refused(&mut c, [3, 0, 4_096, 0], 13);
    trim_in_vain(&mut c, 2);
}

/// Node 0 has its free position in the NFL of TreeLing 2, which is returned.
#[test]
fn a_free_position_is_found_in_the_treeling_returned() {
    let mut c = three(5);
    serve(&mut c, &[[4, 0, 5, 0]]);
    runs(&mut c, 7, 8_192..12_288);
    assert_eq!(nfl(&c, 2)[504], 32);
    assert_eq!(trim(&mut c, 0), 1);
    assert_eq!(nfl(&c, 0), full(1..513));
    assert_eq!(nfl(&c, 1), [full(513..1_024), vec![32]].concat());
    assert_eq!(domain(&c, 0), [1, 1, 2, 2, 63, 8_191]);
    assert_eq!(c.answer([3, 0, 5, 0]), [0, 0, 0, 0, 0, 0, 5, 1]);
    assert_eq!(c.answer([3, 0, 8_192, 0])[..3], [0, 2, 2]);
}

/// A node whose free positions are in two entries, one of them in the TreeLing
/// returned, gets one entry.
#[test]
fn two_entries_of_a_node_are_joined() {
    let mut c = three(5);
    // Node 0 in block 63 of TreeLing 2; then 511 nodes of that TreeLing before it.
    serve(&mut c, &[[4, 0, 5, 0]]);
    let pages: Vec<u64> = (8_192..12_280).step_by(8).collect();
    for &page in &pages {
        serve(&mut c, &[[4, 0, page, 0]]);
    }
    assert_eq!((nfl(&c, 2)[504], domain(&c, 0)[3]), (32, 3));
    // Node 0 again, in the head block, which is block 63 of TreeLing 1.
    serve(&mut c, &[[4, 0, 0, 0]]);
    assert_eq!((nfl(&c, 1)[504], domain(&c, 0)[3]), (1, 2));
    runs(&mut c, 7, 12_280..12_288);
    for page in pages {
        serve(&mut c, &[[7, 0, page + 1, 7]]);
    }
    assert_eq!(trim(&mut c, 0), 1);
    assert_eq!(nfl(&c, 1), [full(513..1_024), vec![33]].concat());
    assert_eq!(domain(&c, 0), [1, 1, 2, 2, 63, 8_190]);
}

/// Domain 0 has TreeLings 1, 2, 3 and 0 in this order, the last one with 12 pages.
fn out_of_order() -> Controller {
    let mut c = new(4, 2, 13_000);
    serve(&mut c, &[[1, 0, 0, 0], [1, 1, 0, 0], [3, 1, 12_999, 0]]);
    runs(&mut c, 6, 0..12_288);
    serve(&mut c, &[[2, 1, 0, 0], [6, 0, 12_288, 12]]);
    assert_eq!(trimmed::chain(&c.render(), 0), [1, 2, 3, 0]);
    assert_eq!(domain(&c, 0), [1, 2, 1, 1, 0, 12_300]);
    c
}

/// "by (new) rank then node": TreeLing 3 is before TreeLing 0. Nodes 0 and 1 have 8
/// and 4 of the 12 pages.
#[test]
fn the_others_keep_their_order() {
    let mut c = out_of_order();
    runs(&mut c, 7, 4_096..8_192);
    assert_eq!(trim(&mut c, 0), 1);
    let expected = [[1, 4, 0, 2, 1], [1, 0, 4, 0, 1], RETURNED, [1, 2, 1, 1, 1]];
    assert_eq!(records(&c), expected);
    assert_eq!(nfl(&c, 1), full(512..1_024));
    assert_eq!(nfl(&c, 3), full(1_536..2_048));
    let free: Vec<u64> = (2..512).map(|node| 256 * node + 255).collect();
    assert_eq!(nfl(&c, 0), [vec![0, 256 + 0xF0], free].concat());
    // Of 1,025 entries without a free position the last one is in block 0 of rank 2.
    assert_eq!(domain(&c, 0), [1, 2, 1, 1, 0, 8_204]);
    assert_eq!(c.answer([3, 0, 12_300, 0]), [0, 2, 0, 0, 0, 1, 4, 1]);
}

/// The page of TreeLing 0 comes in front of nothing but free nodes.
#[test]
fn the_head_is_the_block_of_the_first_free_entry() {
    let mut c = out_of_order();
    runs(&mut c, 7, 0..12_288);
    serve(&mut c, &[[7, 0, 12_289, 11]]);
    assert_eq!(trim(&mut c, 0), 3);
    assert_eq!(domain(&c, 0), [1, 1, 1, 1, 0, 1]);
    assert_eq!(records(&c)[0], [1, 0, 0, 0, 1]);
    let free: Vec<u64> = (1..512).map(|node| 256 * node + 255).collect();
    assert_eq!(nfl(&c, 0), [vec![254], free].concat());
}

/// "If none is empty nothing changes": a page in each TreeLing is enough, and the
/// entries stay out of order.
#[test]
fn without_an_empty_one_nothing_changes() {
    let mut c = three(5);
    trim_in_vain(&mut c, 0);
    runs(&mut c, 7, 4_096..8_191);
    serve(&mut c, &[[4, 0, 40, 0], [4, 0, 9_000, 0], [4, 0, 3, 0]]);
    trim_in_vain(&mut c, 0);
    serve(&mut c, &[[4, 0, 8_191, 0]]);
    assert_eq!(trim(&mut c, 0), 1);
}

#[test]
fn a_trim_after_a_trim_changes_nothing() {
    for frames in [0..4_096, 4_096..8_192, 8_192..12_288, 0..12_288] {
        let mut c = three(5);
        runs(&mut c, 7, frames);
        assert!(trim(&mut c, 0) > 0);
        trim_in_vain(&mut c, 0);
        trim_in_vain(&mut c, 0);
    }
}

#[test]
fn a_domain_without_treelings_returns_none() {
    let mut c = three(5);
    serve(&mut c, &[[1, 2, 0, 0]]);
    trim_in_vain(&mut c, 2);
    let mut c = new(1, 1, 1);
    serve(&mut c, &[[1, 0, 0, 0]]);
    trim_in_vain(&mut c, 0);
}

/// Domain 1's record, its TreeLing's record and NFL, and its leaf map words.
#[test]
fn another_domain_is_untouched() {
    let mut c = three(5);
    let others = |c: &Controller| (domain(c, 1), records(c)[3], nfl(c, 3), c.place(12_299));
    let before = others(&c);
    runs(&mut c, 7, 0..12_288);
    assert_eq!(trim(&mut c, 0), 3);
    assert_eq!(others(&c), before);
    // It has a page still, so none of its own is returned.
    trim_in_vain(&mut c, 1);
    serve(&mut c, &[[4, 1, 12_299, 0]]);
    trim_in_vain(&mut c, 0);
    assert_eq!(trim(&mut c, 1), 1);
    assert_eq!(records(&c)[3], [0, 0, 0, 0, 2]);
}

/// The head is the last block, so the entry comes to stand there.
#[test]
fn an_unmap_after_a_trim() {
    let mut c = three(5);
    runs(&mut c, 7, 4_096..8_192);
    assert_eq!(trim(&mut c, 0), 1);
    serve(&mut c, &[[4, 0, 0, 0]]);
    assert_eq!(nfl(&c, 2)[503..506], [256 * 1_527, 1, 256 * 1_529]);
    assert_eq!(domain(&c, 0), [1, 1, 3, 3, 63, 8_191]);
    assert_eq!(audit(&c.render()), 0);
    trim_in_vain(&mut c, 0);
    assert_eq!(c.answer([3, 0, 0, 0]), [0, 0, 0, 0, 0, 0, 0, 1]);
}

/// The fifth words stay through a close, and the domain gets all three again.
#[test]
fn a_close_after_a_trim() {
    let mut c = three(5);
    runs(&mut c, 7, 0..4_096);
    assert_eq!(trim(&mut c, 0), 1);
    assert_eq!(c.answer([2, 0, 0, 0])[7], 8_192);
    assert_eq!(records(&c)[..3], [RETURNED; 3]);
    refused(&mut c, [8, 0, 0, 0], 11);
    serve(&mut c, &[[1, 0, 0, 0]]);
    runs(&mut c, 6, 0..12_288);
    assert_eq!(trimmed::chain(&c.render(), 0), [0, 1, 2]);
}

/// 7, then 8, then 11. Domain 0 is live, domain 1 is dead.
#[test]
fn the_questions_of_call_8() {
    let sizes = Sizes::new(1, 2, 40).unwrap();
    let mut c = Controller::new(Board::new(sizes, &[0, 3]).unwrap());
    serve(&mut c, &[[1, 0, 0, 0], [6, 0, 3, 30], [7, 0, 3, 30]]);
    for domain in [0, 1, 2, M] {
        for (frame, count) in [(1, 0), (0, 1), (3, 1), (40, 0), (M, 0), (0, M), (M, M)] {
            refused(&mut c, [8, domain, frame, count], 7);
        }
    }
    for domain in [2, 3, 1 << 32, M] {
        refused(&mut c, [8, domain, 0, 0], 8);
    }
    refused(&mut c, [8, 1, 0, 0], 11);
    // It names no frame, so frame 0 may lie in a hole.
    assert_eq!(trim(&mut c, 0), 1);
}

/// In a batch of words it sees what the requests before it left.
#[test]
fn it_belongs_to_the_batch() {
    let mut state = new(1, 2, 9).render();
    let requests = [
        [8, 0, 0, 0],
        [1, 0, 0, 0],
        [8, 0, 0, 0],
        [6, 0, 2, 5],
        [8, 0, 0, 0],
        [7, 0, 2, 5],
        [8, 0, 1, 0],
        [8, 0, 0, 0],
        [8, 0, 0, 0],
        [8, 2, 0, 0],
    ];
    let mut answers = [9; 80];
    assert_eq!(serve_words(&mut state, &requests.concat(), &mut answers), 0);
    let ends: Vec<[u64; 2]> = answers.chunks(8).map(|a| [a[0], a[7]]).collect();
    let expected = [
        [11, 0],
        [0, 0],
        [0, 0],
        [0, 5],
        [0, 0],
        [0, 5],
        [7, 0],
        [0, 1],
        [0, 0],
        [8, 0],
    ];
    assert_eq!(ends, expected);
    assert!(answers.chunks(8).all(|answer| answer[1..7] == [0; 6]));
    let mut after = new(1, 2, 9).render();
    // Live, and the fifth word of the TreeLing.
    (after[25], after[41]) = (1, 1);
    assert_eq!(state, after);
}
