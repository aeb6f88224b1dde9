//! Compares the proved audit and making of a state with the second program's,
//! on many thousands of states. The same seed gives the same states everywhere.
//!
//!     compare [SEED]

#![deny(warnings)]

use std::env;
use std::fmt::Arguments;
use std::process::exit;

use compare::used::{Plan, Used};
use compare::{beside, damage};
use second::controller::LONGEST_RUN;
use second::generate;
use second::layout::{CONTENTS, HOLE_COUNT, HOLE_PAIRS};
use second::rng::Rng;
use second::{Board, Controller, Sizes};

/// How often each answer was given by both.
#[derive(Default)]
struct Compared {
    audits: [usize; 5],
    makes: [usize; 3],
}

impl Compared {
    fn audit(&mut self, words: &[u64], what: Arguments) -> u64 {
        let number = beside::audit(words).unwrap_or_else(|why| fail(what, &why));
        self.audits[number as usize] += 1;
        number
    }

    fn sound(&mut self, words: &[u64], what: Arguments) {
        if self.audit(words, what) != 0 {
            fail(what, "a sound state does not pass");
        }
    }

    /// Makes a state in a buffer that holds something, and audits it.
    fn make(&mut self, sizes: [u64; 3], holes: &[u64], length: usize) -> u64 {
        let what = format_args!("making {sizes:?} with holes {holes:?} in {length} words");
        let before: Vec<u64> = (1..=length as u64).collect();
        let mut words = before.clone();
        let made = beside::make(sizes, holes, &mut words);
        let number = made.unwrap_or_else(|why| fail(what, &why));
        if number == 0 {
            self.sound(&words, what);
        } else if words != before {
            fail(what, "a refusal wrote");
        }
        self.makes[number as usize] += 1;
        number
    }

    /// Makes a state with these holes, in its length and in others, and writes
    /// the holes into a new state, where there is room: 0 and 0, or 1 and 3.
    fn both_ways(&mut self, frames: u64, holes: &[u64]) -> u64 {
        let length = 25 + 6 + 517 + frames as usize;
        let number = self.make([1, 1, frames], holes, length);
        for other in [length - 1, length + 1, length - 17] {
            self.make([1, 1, frames], holes, other);
        }
        self.make([0, 1, frames], holes, length);
        if holes.len() <= CONTENTS - HOLE_PAIRS {
            let mut words = Controller::new(sizes_of([1, 1, frames as usize])).render();
            words[HOLE_COUNT] = holes.len().div_ceil(2) as u64;
            words[HOLE_PAIRS..][..holes.len()].copy_from_slice(holes);
            let audit = self.audit(&words, format_args!("holes {holes:?} below {frames}"));
            assert_eq!(audit, 3 * number, "{holes:?}");
        }
        number
    }
}

fn fail(what: Arguments, why: &str) -> ! {
    eprintln!("compare: {what}: {why}");
    exit(1);
}

fn main() {
    let seed = env::args().nth(1).map_or(Ok(1), |word| word.parse());
    let Ok(seed) = seed else {
        eprintln!("usage: compare [SEED]");
        exit(2);
    };
    let mut rng = Rng::new(seed);
    let mut compared = Compared::default();
    short(&mut compared, &mut rng);
    garbage(&mut compared, &mut rng);
    every_word(&mut compared);
    products(&mut compared);
    lengths(&mut compared, &mut rng);
    limits(&mut compared);
    named_holes(&mut compared);
    drawn_holes(&mut compared, &mut rng);
    every_frame(&mut compared);
    histories(&mut compared, &mut rng);
    sizes_of_marks(&mut compared, &mut rng);
    let Compared { audits, makes } = compared;
    println!(
        "compared with second, seed {seed}: audits 0: {}, 3: {}, 4: {}; states made 0: {}, 1: {}, 2: {}",
        audits[0], audits[3], audits[4], makes[0], makes[1], makes[2]
    );
}

fn sizes_of([treelings, domains, frames]: [usize; 3]) -> Sizes {
    Sizes::new(treelings as u64, domains as u64, frames as u64).expect("sizes within their ranges")
}

fn board_of(sizes: [usize; 3], holes: &[u64]) -> Board {
    Board::new(sizes_of(sizes), holes).expect("holes below P")
}

/// All lengths from 0 to 40, of words alike, of a state's first words and of any.
fn short(compared: &mut Compared, rng: &mut Rng) {
    let contents = board_of([1, 1, 1], &[0, 1]).contents(0);
    for length in 0..=40 {
        for word in [0, 1, 2, 8, 1 << 63, u64::MAX] {
            compared.audit(&vec![word; length], format_args!("{length} words {word}"));
            let mut words = contents.to_vec();
            words.resize(length, word);
            compared.audit(&words, format_args!("{length} words of a state"));
        }
        for turn in 0..20 {
            let words: Vec<u64> = (0..length).map(|_| rng.word()).collect();
            compared.audit(&words, format_args!("{length} words, turn {turn}"));
        }
    }
}

/// Words of no state, behind any contents and behind those of their length.
fn garbage(compared: &mut Compared, rng: &mut Rng) {
    for turn in 0..2_000 {
        let sizes = sizes_of([rng.between(1, 3), rng.between(1, 4), rng.between(1, 40)]);
        let wide = rng.pick(&[1, 2, 3, 8, 17, 64]);
        let mut words: Vec<u64> = (0..sizes.length())
            .map(|_| rng.word() >> (64 - wide))
            .collect();
        compared.audit(&words, format_args!("garbage, turn {turn}"));
        let hand = rng.below(sizes.treelings());
        let holes = generate::holes(rng, sizes.frames()).words();
        let board = Board::new(sizes, &holes).expect("holes below P");
        words[..CONTENTS].copy_from_slice(&board.contents(hand));
        compared.audit(&words, format_args!("garbage behind contents, turn {turn}"));
    }
}

/// Sizes, holes, and the requests that lead to the state.
type Small = ([usize; 3], &'static [u64], &'static [second::Request]);

const SMALL: [Small; 7] = [
    ([1, 1, 1], &[], &[]),
    ([1, 1, 1], &[], &[[1, 0, 0, 0], [3, 0, 0, 0]]),
    ([1, 1, 1], &[0, 1], &[[1, 0, 0, 0]]),
    (
        [1, 2, 70],
        &[],
        &[[1, 1, 0, 0], [6, 1, 0, 70], [7, 1, 3, 20]],
    ),
    (
        [2, 2, 16],
        &[2, 1],
        &[
            [1, 0, 0, 0],
            [1, 1, 0, 0],
            [6, 1, 9, 7],
            [3, 0, 1, 0],
            [4, 1, 9, 0],
        ],
    ),
    (
        [1, 1, 40],
        &[0, 2, 2, 1, 5, 1, 7, 4, 11, 2, 20, 1, 30, 3, 39, 1],
        &[[1, 0, 0, 0], [6, 0, 3, 2], [3, 0, 6, 0], [6, 0, 13, 7]],
    ),
    // Domain 0 held TreeLing 0 last; domain 2 has TreeLing 1; nobody had TreeLing 2.
    (
        [3, 3, 5],
        &[],
        &[
            [1, 0, 0, 0],
            [3, 0, 1, 0],
            [2, 0, 0, 0],
            [1, 2, 0, 0],
            [3, 2, 4, 0],
        ],
    ),
];

/// Every single word of small states, at the ends of all ranges and next to
/// what it was.
fn every_word(compared: &mut Compared) {
    for (number, (sizes, holes, requests)) in SMALL.into_iter().enumerate() {
        let mut controller = Controller::new(board_of(sizes, holes));
        for &request in requests {
            assert_eq!(controller.answer(request)[0], 0);
        }
        let mut words = controller.render();
        compared.sound(&words, format_args!("small state {number}"));
        for index in 0..words.len() {
            let old = words[index];
            let near = [
                old ^ 1,
                old ^ 128,
                old ^ 256,
                old ^ 1 << 17,
                old.wrapping_sub(1),
                old.wrapping_add(1),
            ];
            for value in near.into_iter().chain(damage::ends(controller.sizes())) {
                words[index] = value;
                let what = format_args!("small state {number}, word {index} at {value}");
                compared.audit(&words, what);
            }
            words[index] = old;
        }
    }
}

/// Sizes within and outside their ranges whose sums and products leave the
/// word, with lengths and contents that agree with what is left of them.
fn products(compared: &mut Compared) {
    let some = [
        0,
        1,
        3,
        4_096,
        4_097,
        1 << 32,
        1 << 55,
        1 << 61,
        1 << 62,
        1 << 63,
        (1 << 63) + 1,
        u64::MAX / 5 + 1,
        u64::MAX / 6,
        u64::MAX / 6 + 1,
        u64::MAX / 517 + 1,
        u64::MAX - 1,
        u64::MAX,
    ];
    for t in some {
        for d in some {
            let treelings = d.wrapping_mul(6).wrapping_add(25);
            let nfl = t.wrapping_mul(5).wrapping_add(treelings);
            let leaf_map = t.wrapping_mul(517).wrapping_add(treelings);
            for length in [8, 25, 31, 548, 549, 618] {
                let p = (length as u64).wrapping_sub(leaf_map);
                let mut words = vec![0; length];
                words[..8].copy_from_slice(&[t, d, p, 0, 25, treelings, nfl, leaf_map]);
                compared.audit(&words, format_args!("contents {t} {d} {p}, {length} words"));
                compared.make([t, d, p], &[], length);
                compared.make([t, d, p], &[0, 1], length);
            }
            for p in [0, 1, 1_000, u64::MAX] {
                compared.make([t, d, p], &[], 549);
            }
        }
    }
}

/// New states with holes, in their length and in others.
fn lengths(compared: &mut Compared, rng: &mut Rng) {
    for _ in 0..300 {
        let sizes = [rng.between(1, 6), rng.between(1, 20), rng.between(1, 3_000)];
        let exact = sizes_of(sizes).length();
        let holes = generate::holes(rng, sizes[2]).words();
        let near = [exact, exact - 1, exact + 1, exact - 17, exact - sizes[0]];
        for length in near.into_iter().chain([exact / 2, 0, 24, 25]) {
            compared.make(sizes.map(|size| size as u64), &holes, length);
        }
    }
}

/// The largest sizes, and one past them, with the length of the formula.
fn limits(compared: &mut Compared) {
    let largest = [4_096, 4_096, 8_388_608];
    for one in 0..3 {
        for past in [0, 1] {
            let mut sizes = [1; 3];
            sizes[one] = largest[one] + past;
            let [t, d, p] = sizes;
            let length = (25 + 6 * d + 517 * t + p) as usize;
            compared.make(sizes, &[], length);
            compared.make(sizes, &[0, 1, p - 1, 1], length);
            let treelings = 25 + 6 * d;
            let leaf_map = length as u64 - p;
            let mut words = vec![0; length];
            words[..8].copy_from_slice(&[t, d, p, 0, 25, treelings, treelings + 5 * t, leaf_map]);
            compared.audit(&words, format_args!("a new state of {t} {d} {p}"));
        }
    }
    let [t, d, p] = largest;
    let length = (25 + 6 * d + 517 * t + p) as usize;
    compared.make(largest, &[], length);
    compared.make(largest, &[0, 1, 1, p - 2, p - 1, 1], length);
    compared.make(largest, &[1, p], length);
}

const M: u64 = u64::MAX;

/// Holes of a board of 40 frames.
const ALLOWED_HOLES: [&[u64]; 7] = [
    &[],
    &[0, 1],
    &[39, 1],
    &[0, 40],
    &[0, 20, 20, 20],
    &[0, 1, 1, 1, 2, 1, 39, 1],
    &[0, 1, 1, 1, 2, 1, 3, 1, 4, 1, 5, 1, 6, 1, 7, 33],
];

const BAD_HOLES: [&[u64]; 25] = [
    // Half a pair, more than eight pairs.
    &[0],
    &[0, 1, 2],
    &[0, 1, 1, 1, 2, 1, 3, 1, 4, 1, 5, 1, 6, 1, 7],
    &[0, 1, 1, 1, 2, 1, 3, 1, 4, 1, 5, 1, 6, 1, 7, 1, 8],
    &[0, 1, 1, 1, 2, 1, 3, 1, 4, 1, 5, 1, 6, 1, 7, 1, 8, 1],
    // Overlapping by a frame, by all, one within the other.
    &[0, 5, 4, 1],
    &[3, 5, 3, 5],
    &[0, 30, 5, 5],
    &[0, 1, 9, 2, 10, 1],
    // Descending.
    &[9, 1, 3, 1],
    &[20, 20, 0, 20],
    &[0, 1, 9, 1, 8, 1],
    // Empty.
    &[0, 0],
    &[40, 0],
    &[5, 1, 6, 0],
    &[0, 0, 0, 1],
    // Past P.
    &[40, 1],
    &[39, 2],
    &[0, 41],
    &[5, 1, 38, 3],
    // Past the word's end.
    &[1, M],
    &[39, M - 38],
    &[M, 2],
    &[M - 9, 20],
    &[M, M],
];

/// A state is made with these holes, and they are written into a new one.
fn named_holes(compared: &mut Compared) {
    for holes in ALLOWED_HOLES {
        assert_eq!(compared.both_ways(40, holes), 0, "holes {holes:?}");
    }
    for holes in BAD_HOLES {
        assert_eq!(compared.both_ways(40, holes), 1, "holes {holes:?}");
    }
}

/// Holes of any kind, mostly near-misses of those that are allowed.
fn drawn_holes(compared: &mut Compared, rng: &mut Rng) {
    for _ in 0..4_000 {
        let frames = rng.pick(&[1, 2, 9, 40, 300]);
        let mut holes = generate::holes(rng, frames).words();
        let ends = damage::ends(sizes_of([1, 1, frames]));
        for _ in 0..rng.below(3) {
            let end = rng.pick(&ends);
            let near = [end, end, rng.below(frames + 1) as u64];
            match holes.len() {
                0 => holes.extend([rng.pick(&near), rng.pick(&[1, end])]),
                length => holes[rng.below(length)] = rng.pick(&near),
            }
        }
        let more = rng.pick(&[0, 0, 0, 0, 1, 2, 3]);
        holes.extend((0..more).map(|_| rng.pick(&ends)));
        compared.both_ways(frames as u64, &holes);
    }
}

/// A page is moved to every frame of a board with eight holes, and a hole to
/// every frame.
fn every_frame(compared: &mut Compared) {
    let (sizes, holes, requests) = SMALL[5];
    let board = board_of(sizes, holes);
    let mut controller = Controller::new(board);
    for &request in requests {
        controller.answer(request);
    }
    let words = controller.render();
    let [.., leaf_map] = board.sizes().starts();
    for frame in 0..sizes[2] {
        let mut moved = words.clone();
        moved.swap(leaf_map + 3, leaf_map + frame);
        let number = compared.audit(&moved, format_args!("a page moved to frame {frame}"));
        assert_eq!(number == 4, board.holes().contains(frame));
        for length in 1..=4 {
            let mut moved = words.clone();
            let hole = [1, frame as u64, length];
            moved[HOLE_COUNT..CONTENTS].fill(0);
            moved[HOLE_COUNT..][..3].copy_from_slice(&hole);
            compared.audit(&moved, format_args!("hole {hole:?}"));
        }
    }
}

/// States that requests reached, sound and damaged.
fn histories(compared: &mut Compared, rng: &mut Rng) {
    // No place left, in one TreeLing and in the first of two; the second one just taken.
    for (number, sizes) in [[1, 1, 4_096], [2, 2, 4_096], [2, 2, 4_097]]
        .into_iter()
        .enumerate()
    {
        let controller = full(sizes);
        let what = format_args!("full state {number}");
        each_kind(
            compared,
            &controller.render(),
            controller.sizes(),
            rng,
            20,
            what,
        );
    }
    for turn in 0..400 {
        let seed = rng.word();
        let controller = generate::sound_state(seed);
        let sizes = controller.sizes();
        let words = controller.render();
        compared.sound(&words, format_args!("history {turn}"));
        each_kind(
            compared,
            &words,
            sizes,
            rng,
            1,
            format_args!("history {turn}"),
        );
        for copy in 0..40 {
            let mut words = words.clone();
            for _ in 0..rng.between(1, 3) {
                generate::damage(&mut words, sizes, rng);
            }
            let what = format_args!("history {turn}, damaged copy {copy}");
            compared.audit(&words, what);
        }
    }
}

/// Domain 0 has every frame mapped.
fn full(sizes: [usize; 3]) -> Controller {
    let mut controller = Controller::new(sizes_of(sizes));
    controller.answer([1, 0, 0, 0]);
    for start in (0..sizes[2]).step_by(LONGEST_RUN) {
        let count = LONGEST_RUN.min(sizes[2] - start) as u64;
        assert_eq!(controller.answer([6, 0, start as u64, count])[7], count);
    }
    controller
}

/// A sound state changed but sound, then one to three words of each kind
/// damaged, `copies` times each.
fn each_kind(
    compared: &mut Compared,
    words: &[u64],
    sizes: Sizes,
    rng: &mut Rng,
    copies: usize,
    what: Arguments,
) {
    let mut words = words.to_vec();
    let ends = damage::ends(sizes);
    for (number, kind) in damage::kinds(sizes).into_iter().enumerate() {
        damage::keep_sound(&mut words, sizes, rng);
        compared.sound(&words, format_args!("{what}, changed before kind {number}"));
        for changes in 1..=3 {
            for _ in 0..copies {
                let mut words = words.clone();
                for _ in 0..changes {
                    damage::change(&mut words, kind, &ends, rng);
                }
                let what = format_args!("{what}, {changes} words of kind {number}");
                compared.audit(&words, what);
            }
        }
    }
}

/// The audit takes its marks in one of four sizes, by T and D: states of each,
/// and at the ends.
fn sizes_of_marks(compared: &mut Compared, rng: &mut Rng) {
    let sizes = [
        (40, 1, 1),
        (40, 2, 3),
        (40, 5, 9),
        (20, 16, 40),
        (6, 16, 256),
        (6, 16, 257),
        (6, 17, 20),
        (2, 40, 4_096),
        (2, 256, 30),
        (2, 257, 30),
        (2, 300, 300),
        (1, 1_024, 40),
        (1, 1_025, 40),
    ];
    for (turns, treelings, domains) in sizes {
        for turn in 0..turns {
            let (words, sizes) = used(treelings, domains, rng);
            let what = format_args!("used state {treelings} {domains}, turn {turn}");
            compared.sound(&words, what);
            each_kind(compared, &words, sizes, rng, 1, what);
        }
    }
    let (mut words, sizes) = used(4_096, 4_096, rng);
    compared.sound(&words, format_args!("the largest used state"));
    let ends = damage::ends(sizes);
    for (number, kind) in damage::kinds(sizes).into_iter().enumerate() {
        let before = words.clone();
        damage::change(&mut words, kind, &ends, rng);
        compared.audit(
            &words,
            format_args!("the largest used state, a word of kind {number}"),
        );
        words = before;
    }
}

fn used(treelings: usize, domains: usize, rng: &mut Rng) -> (Vec<u64>, Sizes) {
    let small = treelings <= 16;
    let plan = Plan {
        treelings,
        domains,
        owners: rng.between(1, domains.min(treelings)),
        owned: rng.pick(&[40, 90, 100]),
        full: rng.below(if small { 101 } else { 3 }),
        mapped: rng.below(if small { 90 } else { 5 }),
        doubled: rng.pick(&[0, 10, 50]),
        shuffled: rng.percent(80),
    };
    let used = Used::new(plan, rng);
    let frames = used.pages() + rng.between(1, 300);
    let sizes = sizes_of([treelings, domains, frames]);
    let mut words = used.words(frames, rng);
    if rng.percent(70) {
        damage::dig(&mut words, sizes, rng);
    }
    (words, sizes)
}
