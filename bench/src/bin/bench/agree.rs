//! Sees that both libraries give the same numbers, answers and words, before
//! any time is taken.

use compare::ivleague;
use second::generate::{self, LogOptions};
use second::rng::Rng;
use second::{Board, Sizes};

use crate::restarts::restarts;
use crate::shrinking;
use crate::states::{self, Empty, Request};

const HISTORIES: u64 = 60;
const DAMAGED: u64 = 1_000;
const TRIMS: u64 = 12;

/// Sizes with marks of each tier, and holes, beside those that a seed chooses.
const LARGE: [([u64; 3], &[u64]); 4] = [
    ([16, 300, 5_000], &[]),
    ([40, 5, 50_000], &[0, 9, 9, 1, 20_000, 3_000, 49_999, 1]),
    ([300, 3, 20_000], &[]),
    ([1_100, 9, 70_000], &[4_096, 4_096]),
];

/// Panics where they differ; else says what was compared.
pub fn check() -> String {
    let any_size = (0..HISTORIES).map(|seed| history(seed, None));
    let large = (HISTORIES..).zip(LARGE);
    let large = large.map(|(seed, (sizes, holes))| history(seed, Some(board(sizes, holes))));
    let batches: usize = any_size.chain(large).sum();
    (0..DAMAGED).for_each(damaged);
    holes();
    restarted();
    let returned = trimmed();
    let histories = HISTORIES as usize + LARGE.len();
    format!(
        "{histories} random histories with {batches} batches agree, restarts of guests, \
         trims that return {returned} TreeLings, and {DAMAGED} audits of damaged states"
    )
}

fn damaged(seed: u64) {
    let words = generate::state(seed);
    let numbers = [ivleague::audit(&words), baseline::audit(&words)];
    assert_eq!(numbers[0], numbers[1], "damaged state {seed}");
}

fn board([t, d, p]: [u64; 3], holes: &[u64]) -> Board {
    let sizes = Sizes::new(t, d, p).expect("sizes within their ranges");
    Board::new(sizes, holes).expect("holes below P")
}

/// Holes that are allowed, and holes that are not, of a board of 40 frames.
fn holes() {
    let nine: Vec<u64> = (0..9).flat_map(|hole| [4 * hole, 4]).collect();
    let allowed: [&[u64]; 3] = [&[], &[0, 20, 20, 20], &nine[..16]];
    let refused: [&[u64]; 9] = [
        &nine[..15],
        &nine,
        &[0],
        &[0, 0],
        &[0, 5, 4, 1],
        &[9, 1, 3, 1],
        &[39, 2],
        &[1, u64::MAX],
        &[u64::MAX, 2],
    ];
    allowed.into_iter().for_each(|holes| made(holes, 0));
    refused.into_iter().for_each(|holes| made(holes, 1));
}

/// Both make the same state, or refuse to, by this number.
fn made(holes: &[u64], number: u64) {
    let mut words = [vec![7; 588], vec![7; 588]];
    let numbers = [
        ivleague::make([1, 1, 40], holes, &mut words[0]),
        baseline::make([1, 1, 40], holes, &mut words[1]),
    ];
    assert_eq!(numbers, [number; 2], "holes {holes:?}");
    assert!(words[0] == words[1], "the states made differ");
}

/// Serves a random history through both; the number of its batches.
fn history(seed: u64, board: Option<Board>) -> usize {
    let options = LogOptions {
        board,
        requests: 1_000,
        batch: 100,
        ..LogOptions::default()
    };
    let history = generate::history(seed, options);
    let sizes = history.board.sizes();
    let holes = history.board.holes().words();
    let mut proved = vec![7; sizes.length()];
    let mut plain = proved.clone();
    let sizes = [sizes.treelings(), sizes.domains(), sizes.frames()].map(|size| size as u64);
    assert_eq!(ivleague::make(sizes, &holes, &mut proved), 0);
    assert_eq!(baseline::make(sizes, &holes, &mut plain), 0);
    assert!(proved == plain, "the states made differ");
    let mut serve = |requests: &[u64], room| {
        let numbers = both(&mut proved, &mut plain, requests, room);
        assert_eq!(numbers[0], numbers[1], "history {seed}");
    };
    // Two that are refused, by 5 and by 6.
    serve(&[0; 3], 6);
    serve(&[0; 4], 9);
    for batch in &history.batches {
        serve(batch.as_flattened(), 8 * batch.len());
    }
    history.batches.len()
}

/// Guests who share TreeLings and restart, where these suffice for all and where they do not.
fn restarted() {
    for (running, all, most) in [(50, 100, 1), (90, 150, 1), (75, 150, 4)] {
        let (state, requests) = restarts(running, all, most);
        let mut states = [state.clone(), state];
        for batch in requests.chunks(100) {
            done(&mut states, batch);
        }
    }
}

/// Domains that grow, shrink and are trimmed again and again, and the trims that are measured: the
/// TreeLings returned.
fn trimmed() -> usize {
    let mut returned = 0;
    for empty in [Empty::None, Empty::One, Empty::Half, Empty::All] {
        let state = states::shrunk(8, empty);
        returned += trims(&mut [state.clone(), state], &[[8, 0, 0, 0]]);
    }
    let mut rng = Rng::new(1);
    let mut states = [shrinking::opened(), shrinking::opened()];
    for _ in 0..TRIMS {
        for step in [shrinking::grow, shrinking::grow, shrinking::shrink] {
            let requests = step(&states[0], &mut rng);
            done(&mut states, &requests);
        }
        returned += trims(&mut states, &shrinking::trims());
    }
    returned
}

/// The TreeLings that these requests return.
fn trims(states: &mut [Vec<u64>; 2], requests: &[Request]) -> usize {
    let owned = shrinking::owned(&states[0]);
    done(states, requests);
    owned - shrinking::owned(&states[0])
}

/// One batch, which is not refused, through both.
fn done([proved, plain]: &mut [Vec<u64>; 2], requests: &[Request]) {
    let numbers = both(proved, plain, requests.as_flattened(), 8 * requests.len());
    assert_eq!(numbers, [0; 2]);
}

/// One batch with so many answer words, through both: their numbers.
fn both(proved: &mut [u64], plain: &mut [u64], requests: &[u64], room: usize) -> [u64; 2] {
    let mut answers = [vec![9; room], vec![9; room]];
    let numbers = [
        ivleague::serve(proved, requests, &mut answers[0]),
        baseline::serve(plain, requests, &mut answers[1]),
    ];
    assert!(answers[0] == answers[1], "the answers differ");
    assert!(proved == plain, "the states differ");
    numbers
}
