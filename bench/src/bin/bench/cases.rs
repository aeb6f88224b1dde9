//! The rows of the table.

use baseline::LONGEST_RUN;
use second::rng::Rng;

use crate::growth::{Audit, Growth, Point};
use crate::measure::{self, Pair};
use crate::states::{self, Empty, Former, Pages, Request, MANY, TAKERS};
use crate::table::{print_head, Row};

/// Targets: proved to baseline, but for the last two.
const CALL: f64 = 1.2;
const PASS: f64 = 1.5;
const TRIM: f64 = 1.2;
const EMPTY_BATCH: f64 = 2.0;
const LARGE_TO_SMALL: f64 = 1.2;
const AUDIT_TO_READ: f64 = 4.0;

pub fn print(growth: &Growth) {
    print_head();
    audits(growth);
    single_calls();
    fills();
    runs();
    with_holes();
    delays();
    regathering();
    closing();
    trimming(growth);
    taking();
    one_map();
}

fn row(what: impl Into<String>, [proved, beside]: Pair, target: Option<f64>) {
    let what = what.into();
    println!(
        "{}",
        Row {
            what,
            proved,
            beside,
            target
        }
    );
}

/// Each of so many equal parts.
fn each(times: Pair, parts: u64) -> Pair {
    times.map(|time| time / parts as f64)
}

/// An audit beside the baseline's, and beside a plain read.
fn audit_rows(what: impl Into<String>, (times, read): Audit, to_read: Option<f64>) {
    row(what, times, Some(PASS));
    row("  audit : plain read", [times[0], read], to_read);
}

fn audits(growth: &Growth) {
    let smallest = states::new(1, 1, 1);
    audit_rows("audit, 1 1 1, new", measure::audit(&smallest), None);
    let small = states::new(16, 1, MANY);
    audit_rows("audit, 16 1 2^16, new", measure::audit(&small), None);
    audits_in_use([16, 1, 1 << 16], "16 1 2^16");
    for (pages, audit) in &growth.largest {
        let name = format!("audit, 4096 4096 2^23, {}", pages.name());
        audit_rows(name, *audit, Some(AUDIT_TO_READ));
    }
    audits_in_use([4_096, 4_096, 1 << 23], "4096 4096 2^23");
    let times = measure::empty_batch(&smallest);
    row("empty batch, 1 1 1", times, Some(EMPTY_BATCH));
}

/// Boards with every frame mapped.
fn audits_in_use(sizes: [usize; 3], name: &str) {
    for pages in [Pages::InOrder, Pages::Shuffled] {
        let audit = measure::audit(&states::every_frame_mapped(sizes, pages));
        let what = format!("audit, {name}, every frame mapped, {}", pages.name());
        audit_rows(what, audit, None);
    }
}

fn requests(call: u64, frames: &[u64]) -> Vec<Request> {
    frames.iter().map(|&frame| [call, 0, frame, 0]).collect()
}

fn single_calls() {
    let (opened, full) = states::opened_and_full(MANY);
    let in_order: Vec<u64> = (0..MANY).collect();
    let mut shuffled = in_order.clone();
    Rng::new(1).shuffle(&mut shuffled);
    let cases = [
        (3, "map", &opened, &in_order[..]),
        (4, "unmap", &full, &in_order[..]),
        (5, "path", &full, &in_order[..]),
        (3, "map", &opened, &shuffled[..]),
        // So many never regather here.
        (4, "unmap", &full, &shuffled[..4_096]),
        (5, "path", &full, &shuffled[..]),
    ];
    for (k, (call, name, state, frames)) in cases.into_iter().enumerate() {
        let order = if k < 3 { "in order" } else { "shuffled" };
        let times = measure::audit_apart(state, &requests(call, frames));
        let what = format!("{name}, one of {}, frames {order}", frames.len());
        row(what, each(times, frames.len() as u64), Some(CALL));
    }
}

/// Fills of a domain that has sixteen TreeLings.
fn fills() {
    let (_, full) = states::opened_and_full(MANY);
    let times = measure::audit_apart(&full, &vec![[11, 0, 0, 0]; MANY as usize]);
    row(
        format!("fill, one of {MANY}"),
        each(times, MANY),
        Some(CALL),
    );
}

fn runs() {
    let (opened, full) = states::opened_and_full(MANY);
    for (call, name, state) in [(6, "map", &opened), (7, "unmap", &full)] {
        for length in [16, LONGEST_RUN] {
            let starts = (0..MANY).step_by(length as usize);
            let runs: Vec<Request> = starts.map(|frame| [call, 0, frame, length]).collect();
            let times = measure::audit_apart(state, &runs);
            let what = format!("{name} runs of {length} frames, a page");
            row(what, each(times, MANY), Some(CALL));
        }
    }
}

/// The same maps and runs of 2^16 frames, eight holes between them.
fn with_holes() {
    let (opened, between) = states::opened_with_holes();
    let frames: Vec<u64> = between.iter().cloned().flatten().collect();
    let times = measure::audit_apart(&opened, &requests(3, &frames));
    let what = format!("map, one of {MANY}, frames in order, eight holes");
    row(what, each(times, MANY), Some(CALL));
    let runs = between
        .into_iter()
        .flat_map(|frames| states::longest_runs(6, 0, frames));
    let times = measure::audit_apart(&opened, &runs.collect::<Vec<_>>());
    let what = format!("map runs of {LONGEST_RUN} frames, a page, eight holes");
    row(what, each(times, MANY), Some(CALL));
}

/// How long a run keeps others waiting, beside an audit of the state that it starts from. Before
/// runs had a limit one could name every frame; here as many runs as that takes are one batch.
fn delays() {
    let (opened, full) = states::opened_and_full(MANY);
    let largest = states::after(states::new(4_096, 4_096, 1 << 23), &[[1, 0, 0, 0]]);
    let cases = [
        (6, "map", "16 1 2^16", opened),
        (7, "unmap", "16 1 2^16", full),
        (6, "map", "4096 4096 2^23", largest),
    ];
    for (call, name, sizes, state) in cases {
        let ([audit, _], _) = measure::audit(&state);
        let runs = states::longest_runs(call, 0, 0..state[2]);
        let [all, _] = measure::audit_apart(&state, &runs);
        let one = all / runs.len() as f64;
        let power = state[2].ilog2();
        let before = format!("{name} run of 2^{power} frames, as before : audit, {sizes}");
        row(before, [all, audit], None);
        let now = format!("{name} run of {LONGEST_RUN} frames : audit, {sizes}");
        row(now, [one, audit], None);
    }
}

fn regathering() {
    for (treelings, count) in [(1, 256), (8, 64), (64, 16)] {
        let state = states::regathers(treelings);
        let unmaps: Vec<Request> = (8..8 + count).map(|node| [4, 0, 8 * node + 1, 0]).collect();
        let times = measure::audit_apart(&state, &unmaps);
        let what = format!("unmap that regathers, TreeLings: {treelings}");
        row(what, each(times, count), Some(PASS));
    }
}

fn closing() {
    let state = states::sixteen_full(MANY);
    let closes: Vec<Request> = (0..16).map(|d| [2, d, 0, 0]).collect();
    let times = measure::audit_apart(&state, &closes);
    let what = "close, one of 16 domains of 4096 pages, 16 16 2^16";
    row(what, each(times, 16), Some(PASS));
}

/// Trims of a domain that owns every TreeLing, and what a trim takes for each of them, returned or
/// kept, as their number grows.
fn trimming(growth: &Growth) {
    for empty in [Empty::None, Empty::One, Empty::All] {
        let times = measure::trim(&states::shrunk(64, empty));
        trim_row(64, empty, times);
    }
    for &Point { size, seconds } in &growth.trims {
        trim_row(size, Empty::Half, seconds);
    }
    let each_treeling = |point: &Point<Pair>| each(point.seconds, point.size as u64);
    for sizes in growth.trims.windows(2) {
        let [small, large] = [&sizes[0], &sizes[1]];
        let what = format!("  a TreeLing, of {} : of {}", large.size, small.size);
        let [small, large] = [small, large].map(each_treeling);
        let proved = [large[0], small[0]];
        row(format!("{what}, proved"), proved, Some(LARGE_TO_SMALL));
        let baseline = [large[1], small[1]];
        row(format!("{what}, baseline"), baseline, None);
    }
}

fn trim_row(treelings: usize, empty: Empty, times: Pair) {
    let what = format!("trim, TreeLings: {treelings}, {} empty", empty.name());
    row(what, times, (treelings == 64).then_some(TRIM));
}

/// Maps that take a TreeLing of the largest pool: the search, the record and the NFL words.
fn taking() {
    let cases = [
        (Former::Nowhere, "none owned before"),
        (Former::Far, "the former one last"),
        (Former::AtHand, "the former one first"),
    ];
    for (former, name) in cases {
        let (state, maps) = states::takings(former);
        let times = measure::audit_apart(&state, &maps);
        let what = format!("map that takes, 4096 {TAKERS} {TAKERS}, {name}");
        row(what, each(times, TAKERS), Some(PASS));
    }
}

/// The same maps in few and in many frames: single ones, and by runs that map and unmap again,
/// which read and write few requests and answers.
fn one_map() {
    let maps: Vec<Request> = (0..MANY).map(|frame| [3, 0, frame, 0]).collect();
    let runs = [6, 7].map(|call| states::longest_runs(call, 0, 0..MANY));
    let runs = runs.concat().repeat(16);
    let opened =
        [MANY, 1 << 23].map(|frames| states::after(states::new(16, 1, frames), &[[1, 0, 0, 0]]));
    let single = measure::audits_apart([&opened[0], &opened[1]], &maps);
    let single = single.map(|times| each(times, MANY));
    let by_runs = opened.map(|state| each(measure::audit_apart(&state, &runs), 16 * MANY));
    let beside = |[small, large]: [Pair; 2], library: usize| [large[library], small[library]];
    row("map, one of 65536, 16 1 2^23", single[1], None);
    row(
        "  P = 2^23 : P = 2^16, proved",
        beside(single, 0),
        Some(LARGE_TO_SMALL),
    );
    row("  P = 2^23 : P = 2^16, baseline", beside(single, 1), None);
    row(
        "map and unmap by runs, a page, 16 1 2^23",
        by_runs[1],
        Some(CALL),
    );
    row(
        "  P = 2^23 : P = 2^16, proved",
        beside(by_runs, 0),
        Some(LARGE_TO_SMALL),
    );
    row("  P = 2^23 : P = 2^16, baseline", beside(by_runs, 1), None);
}
