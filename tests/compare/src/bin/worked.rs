//! Document 01's "Run only" examples through the proved controller, word by
//! word, a domain of three TreeLings that regathers, one that is trimmed, and
//! boards with holes, beside the second program.

#![deny(warnings)]

use compare::beside::{self, Served};
use second::{Board as Laid, Sizes};

/// A state of these sizes, made by both.
struct Board {
    state: Vec<u64>,
    domains: usize,
    treelings: usize,
}

impl Board {
    fn new(t: u64, d: u64, p: u64) -> Board {
        Board::with_holes([t, d, p], &[])
    }

    fn with_holes([t, d, p]: [u64; 3], holes: &[u64]) -> Board {
        let sizes = Sizes::new(t, d, p).expect("sizes within their ranges");
        let laid = Laid::new(sizes, holes).expect("holes below P");
        Board {
            state: beside::new_state(laid).expect("the same new state"),
            domains: sizes.domains(),
            treelings: sizes.treelings(),
        }
    }

    /// One batch; its answers. The second program must leave the same words.
    fn serve(&mut self, requests: &[[u64; 4]]) -> Vec<[u64; 8]> {
        let words: Vec<u64> = requests.iter().flatten().copied().collect();
        let served = Served::new(&self.state, &words, 2 * words.len());
        beside::serve(&mut self.state, &words, &served).expect("the same answers and words");
        assert_eq!(served.number, 0);
        let answers = served.answers.chunks(8);
        answers
            .map(|words| words.try_into().expect("eight words"))
            .collect()
    }

    fn one(&mut self, request: [u64; 4]) -> [u64; 8] {
        self.serve(&[request])[0]
    }

    /// The number of an answer.
    fn number(&mut self, request: [u64; 4]) -> u64 {
        self.one(request)[0]
    }

    /// The number of a batch on a copy of the state with this word changed. The
    /// second program must leave the same words.
    fn damaged(&self, index: usize, word: u64) -> u64 {
        let mut state = self.state.clone();
        state[index] = word;
        let served = Served::new(&state, &[1, 0, 0, 0], 8);
        beside::serve(&mut state, &[1, 0, 0, 0], &served).expect("the same refusal");
        served.number
    }

    fn domain(&self, d: usize) -> &[u64] {
        &self.state[25 + 6 * d..][..6]
    }

    fn treeling(&self, t: usize) -> &[u64] {
        &self.state[25 + 6 * self.domains + 5 * t..][..5]
    }

    fn entry(&self, t: usize, k: usize) -> u64 {
        self.state[25 + 6 * self.domains + 5 * self.treelings + 512 * t + k]
    }
}

fn done(pages: u64) -> [u64; 8] {
    [0, 0, 0, 0, 0, 0, 0, pages]
}

fn refused(number: u64) -> [u64; 8] {
    [number, 0, 0, 0, 0, 0, 0, 0]
}

/// "then 6 0 14 3 gives 9, 6 0 14 2 gives pages 2", after the ten requests.
fn after_the_ten_lines() {
    let mut board = Board::new(2, 2, 16);
    let ten = [
        [1, 0, 0, 0],
        [1, 0, 0, 0],
        [3, 0, 5, 0],
        [1, 1, 0, 0],
        [3, 1, 6, 0],
        [3, 1, 5, 0],
        [4, 1, 5, 0],
        [3, 0, 7, 0],
        [4, 0, 5, 0],
        [3, 0, 8, 0],
    ];
    let lines = board.serve(&ten);
    let text = include_str!("../../../../examples/ten.answers");
    let wanted: Vec<Vec<u64>> = text
        .lines()
        .map(|line| {
            line.split(' ')
                .map(|word| word.parse().expect("a number"))
                .collect()
        })
        .collect();
    assert_eq!(
        lines.iter().map(|line| line.to_vec()).collect::<Vec<_>>(),
        wanted
    );
    assert_eq!(board.one([6, 0, 14, 3]), refused(9));
    assert_eq!(board.one([6, 0, 14, 2]), done(2));
}

/// T = 1, D = 1, P = 4,097, the domain opened.
fn one_treeling_regathered() {
    let mut board = Board::new(1, 1, 4097);
    assert_eq!(board.one([1, 0, 0, 0]), done(0));
    assert_eq!(board.one([6, 0, 0, 4097]), refused(9));
    assert_eq!(board.one([6, 0, 0, 2048]), done(2048));
    assert_eq!(board.one([6, 0, 2048, 2048]), done(2048));
    assert_eq!(board.one([3, 0, 4096, 0]), refused(13));
    let every_eighth: Vec<[u64; 4]> = (0..512).map(|n| [4, 0, 8 * n, 0]).collect();
    assert!(board
        .serve(&every_eighth)
        .iter()
        .all(|answer| *answer == done(1)));
    assert_eq!(board.domain(0)[3..5], [1, 0]);
    for k in 0..8 {
        assert_eq!(board.entry(0, k) / 256, 504 + k as u64);
    }
    assert_eq!(board.one([4, 0, 1, 0]), done(1));
    assert_eq!((board.entry(0, 0), board.entry(0, 511)), (3, 130_817));
    assert_eq!(board.one([3, 0, 1, 0]), [0, 0, 0, 0, 0, 0, 0, 1]);
}

/// Three TreeLings, with full nodes in the middle when they are regathered.
fn three_treelings_regathered() {
    let mut board = Board::new(4, 2, 3 * 4096);
    board.serve(&[[1, 0, 0, 0], [1, 1, 0, 0], [3, 1, 12_000, 0]]);
    let runs: Vec<[u64; 4]> = (0..6).map(|k| [6, 0, 2_000 * k, 2_000]).collect();
    assert_eq!(board.serve(&runs), [done(2_000); 6]);
    let outside = |n: &u64| !(600..900).contains(n);
    let some: Vec<[u64; 4]> = (0..1500)
        .filter(outside)
        .map(|n| [4, 0, 8 * n, 0])
        .collect();
    for batch in some.chunks(97) {
        board.serve(batch);
    }
    let more: Vec<[u64; 4]> = (0..1500)
        .rev()
        .filter(outside)
        .map(|n| [4, 0, 8 * n + 3, 0])
        .collect();
    for batch in more.chunks(41) {
        board.serve(batch);
    }
    assert_eq!(board.one([6, 0, 0, 1]), done(1));
}

/// Domain 1 has 10,240 pages in three TreeLings, then loses all of the second one
/// and the last one of the first.
fn shrunk() -> Board {
    let mut board = Board::new(3, 2, 12_288);
    assert_eq!(board.one([1, 1, 0, 0]), done(0));
    let runs: Vec<[u64; 4]> = (0..5).map(|k| [6, 1, 2_048 * k, 2_048]).collect();
    assert_eq!(board.serve(&runs), [done(2_048); 5]);
    board.serve(&[[7, 1, 4_096, 2_048], [7, 1, 6_144, 2_048]]);
    assert_eq!(board.one([4, 1, 4_095, 0]), done(1));
    board
}

/// The TreeLing in the middle is returned. Of the nodes that are left 767 have no
/// free position, node 511 has its last one, and 256 have all.
fn one_treeling_returned() {
    let mut board = shrunk();
    assert_eq!(board.one([8, 0, 0, 0]), refused(11));
    assert_eq!(board.one([8, 1, 0, 0]), done(1));
    assert_eq!(board.treeling(0), [2, 0, 3, 0, 2]);
    assert_eq!(board.treeling(1), [0, 0, 0, 0, 2]);
    assert_eq!(board.treeling(2), [2, 1, 0, 1, 2]);
    assert_eq!(board.domain(1), [1, 1, 3, 3, 31, 6_143]);
    assert_eq!(board.state[3], 0);
    let mut entries: Vec<u64> = (0..511).chain(1_024..1_280).map(|n| 256 * n).collect();
    entries.push(256 * 511 + 128);
    entries.extend((1_280..1_536).map(|n| 256 * n + 255));
    let found = [0, 2].map(|t| (0..512).map(|k| board.entry(t, k)).collect::<Vec<_>>());
    assert_eq!(found.concat(), entries);
    assert!((0..512).all(|k| board.entry(1, k) == 0));
}

/// A second trim changes no word. The next pages get the last slot of rank 0 and
/// the first free one of rank 1; without pages, the domain returns both.
fn all_treelings_returned() {
    let mut board = shrunk();
    assert_eq!(board.one([8, 1, 0, 0]), done(1));
    let words = board.state.clone();
    assert_eq!(board.one([8, 1, 0, 0]), done(0));
    assert_eq!(board.state, words);
    let places = board.serve(&[[3, 1, 5_000, 0], [3, 1, 5_001, 0]]);
    let rank_1 = [0, 1, 2, 20, 160, 1_280, 0, 1];
    assert_eq!(places, [[0, 0, 0, 7, 63, 511, 7, 1], rank_1]);
    for (frame, count) in [(0, 2_048), (2_048, 2_047), (5_000, 2), (8_192, 2_048)] {
        assert_eq!(board.one([7, 1, frame, count]), done(count));
    }
    assert_eq!(board.one([8, 1, 0, 0]), done(2));
    assert_eq!(board.domain(1), [1, 0, 0, 0, 0, 0]);
    assert!((0..3).all(|t| board.treeling(t) == [0, 0, 0, 0, 2]));
    assert!((0..3 * 512).all(|k| board.entry(0, k) == 0));
}

/// Two holes side by side, one at each end, and pages up to them.
fn pages_beside_holes() {
    let mut board = Board::with_holes([1, 2, 100], &[0, 3, 10, 2, 12, 1, 90, 10]);
    assert_eq!(board.state[..9], [1, 2, 100, 0, 25, 37, 42, 554, 4]);
    assert_eq!(board.state[9..17], [0, 3, 10, 2, 12, 1, 90, 10]);
    assert!(board.state[17..].iter().all(|&word| word == 0));
    // 9 comes before 16, and 16 before 11.
    assert_eq!(board.one([6, 0, 90, 11]), refused(9));
    assert_eq!(board.one([6, 0, 90, 0]), refused(9));
    assert_eq!(board.one([6, 0, 89, 2]), refused(16));
    assert_eq!(board.one([6, 0, 89, 1]), refused(11));
    assert_eq!(board.one([1, 0, 0, 0]), done(0));
    for frame in [0, 2, 10, 11, 12, 90, 99] {
        for call in 3..=5 {
            assert_eq!(board.one([call, 0, frame, 0]), refused(16));
            assert_eq!(board.one([call, 1, frame, 0]), refused(16));
            assert_eq!(board.one([call, 2, frame, 0]), refused(8));
        }
    }
    for (k, frame) in (0..).zip([3, 9, 13, 89]) {
        assert_eq!(board.one([3, 0, frame, 0]), [0, 0, 0, 0, 0, 0, k, 1]);
        assert_eq!(board.one([5, 0, frame, 0]), [0, 0, 0, 0, 0, 0, k, 0]);
    }
    // Touching by a frame at either end, swallowing, and just between.
    for (frame, count) in [(4, 7), (12, 2), (9, 5), (14, 77), (2, 2), (89, 11)] {
        assert_eq!(board.number([6, 0, frame, count]), 16);
        assert_eq!(board.number([7, 0, frame, count]), 16);
    }
    assert_eq!(board.one([6, 0, 4, 5]), done(5));
    assert_eq!(board.one([6, 0, 14, 75]), done(75));
    assert_eq!(board.one([7, 0, 3, 7]), done(7));
    assert_eq!(board.one([2, 0, 0, 0]), done(77));
    assert_eq!(board.number([3, 0, 10, 0]), 16);
    assert_eq!(board.number([3, 0, 9, 0]), 11);
}

/// A board may have no legal frame.
fn nothing_but_a_hole() {
    let mut board = Board::with_holes([1, 1, 3], &[0, 1, 1, 2]);
    assert_eq!(board.one([1, 0, 0, 0]), done(0));
    let numbers = [0, 1, 2, 3].map(|frame| board.number([3, 0, frame, 0]));
    assert_eq!(numbers, [16, 16, 16, 9]);
    assert_eq!(board.one([6, 0, 0, 3]), refused(16));
    assert_eq!(board.one([2, 0, 0, 0]), done(0));
}

/// Batches on damaged states: bad holes give 3, a page in a hole gives 4.
fn damaged_holes() {
    let mut board = Board::with_holes([1, 1, 40], &[5, 2, 7, 1, 39, 1]);
    board.serve(&[[1, 0, 0, 0], [6, 0, 8, 3]]);
    for (index, word, number) in [
        (8, 2, 3),
        (8, 4, 3),
        (8, u64::MAX, 3),
        (9, 6, 3),
        (10, 0, 3),
        (10, 3, 3),
        (10, u64::MAX, 3),
        (13, 40, 3),
        (13, u64::MAX, 3),
        (14, 2, 3),
        (15, 1, 3),
        (24, 1, 3),
        (12, 2, 4),
        (13, 10, 4),
        (9, 4, 0),
        (10, 1, 0),
        (13, 11, 0),
        (14, 1, 0),
    ] {
        assert_eq!(board.damaged(index, word), number, "word {index} at {word}");
    }
    // A slot that is free is named by a frame, in a hole and outside.
    let leaf_map = board.state.len() - 40;
    for frame in [4, 5, 7, 39] {
        assert_eq!(board.damaged(leaf_map + frame, 9), 4);
    }
    // A page is moved into each frame of a hole, and beside it.
    for (frame, number) in [(4, 0), (5, 4), (6, 4), (7, 4), (11, 0), (38, 0), (39, 4)] {
        let mut moved = Board::with_holes([1, 1, 40], &[5, 2, 7, 1, 39, 1]);
        moved.state.clone_from(&board.state);
        moved.state[leaf_map + frame] = board.state[leaf_map + 8];
        assert_eq!(moved.damaged(leaf_map + 8, 0), number, "frame {frame}");
    }
}

fn main() {
    after_the_ten_lines();
    one_treeling_regathered();
    three_treelings_regathered();
    one_treeling_returned();
    all_treelings_returned();
    pages_beside_holes();
    nothing_but_a_hole();
    damaged_holes();
    println!("the examples of document 01, the trims and the boards with holes agree");
}
