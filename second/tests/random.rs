//! Long random request lists: after each request the state is sound, parsing
//! gives it back, refusals change no word, runs are their single calls, a
//! release moves the head back one block at most, TreeLings are taken as M-104
//! says, trims leave what M-100 says, and fills are what M-107 says.

mod trimmed;

use std::collections::BTreeMap;
use std::ops::Range;

use second::domain::{Head, BLOCKS};
use second::generate::{self, Author, LogOptions};
use second::holes::Hole;
use second::rng::Rng;
use second::{serve_words, Answer, Board, Controller, Request};

#[derive(Default)]
struct Seen {
    numbers: BTreeMap<u64, usize>,
    requests: usize,
    releases: usize,
    /// Releases that moved the head back a block, within a TreeLing and into
    /// the previous one's block 63.
    back_within: usize,
    back_to_previous: usize,
    regathered: usize,
    regathered_many: usize,
    regathered_ahead: usize,
    refused_in_mid_run: BTreeMap<u64, usize>,
    /// Runs of 2,047 to 2,049 frames, by count, call and number; those that
    /// 12, 13 or 14 refused at their first frame are left out.
    at_limit: BTreeMap<[u64; 3], usize>,
    /// Requests beside holes, by call, number and how they lie.
    at_holes: BTreeMap<(u64, u64, &'static str), usize>,
    /// How TreeLings were taken.
    taken: BTreeMap<&'static str, usize>,
    /// Fifth words that a refused run had changed before it was undone.
    undone: usize,
    /// Fills, by what they found.
    fills: BTreeMap<&'static str, usize>,
    /// Trims, by what they found and what they left.
    trims: BTreeMap<&'static str, usize>,
    /// The TreeLings that a trim returned and nobody took since, with the domain.
    returned: BTreeMap<usize, u64>,
    /// Requests with the number of no call, by that number, 13 for larger ones.
    no_calls: BTreeMap<u64, usize>,
}

/// One request with all the checks.
fn step(controller: &mut Controller, words: &mut Vec<u64>, request: Request, seen: &mut Seen) {
    let run = matches!(request[0], 6 | 7).then(|| controller.clone());
    let answer = answer(controller, request, seen);
    let after = controller.render();
    let parsed = Controller::from_words(&after).expect("a sound state");
    assert!(parsed == *controller, "{request:?}");
    if answer[0] != 0 {
        assert_eq!(answer[1..], [0; 7]);
        assert!(*words == after, "refused, yet written: {request:?}");
    }
    if let Some(before) = run {
        check_run(before, controller, request, answer[0], seen);
    }
    if request[0] == 4 && answer[0] == 0 {
        count_regathering(controller, request[1], words, &after, seen);
    }
    check_holes(controller.board(), request, answer[0], seen);
    check_taking(controller, request[1], words, &after, seen);
    match request[0] {
        8 => check_trim(request, answer, words, &after, seen),
        11 => check_fill(controller, request, answer, words, &after, seen),
        1..=7 => {}
        call => {
            assert_eq!(answer[0], 7, "{request:?}");
            *seen.no_calls.entry(call.min(13)).or_default() += 1;
        }
    }
    *seen.numbers.entry(answer[0]).or_default() += 1;
    seen.requests += 1;
    *words = after;
}

/// The frames that a request names, if questions 7 to 9 let it pass.
fn named([call, _, frame, count]: Request, number: u64) -> Option<Range<u64>> {
    match (call, number) {
        (_, 7..=9) | (1 | 2 | 8 | 11, _) => None,
        (3..=5, _) => Some(frame..frame + 1),
        _ => Some(frame..frame + count),
    }
}

/// 16 is given where a named frame lies in a hole, and only there.
fn check_holes(board: Board, request: Request, number: u64, seen: &mut Seen) {
    let Some(frames) = named(request, number) else {
        return assert_ne!(number, 16, "{request:?}");
    };
    let mut in_hole = frames.clone().map(|frame| !board.is_legal(frame as usize));
    assert_eq!(in_hole.any(|inside| inside), number == 16, "{request:?}");
    for hole in board.holes().iter() {
        if let Some(how) = lies(&frames, hole.first as u64..hole.end() as u64) {
            *seen.at_holes.entry((request[0], number, how)).or_default() += 1;
        }
    }
}

/// How a request's frames lie beside or in a hole, if they do.
fn lies(frames: &Range<u64>, hole: Range<u64>) -> Option<&'static str> {
    let single = frames.end - frames.start == 1;
    let inside = frames.start >= hole.start && frames.end <= hole.end;
    let ways = [
        (frames.end == hole.start, "ends before"),
        (frames.start == hole.end, "begins after"),
        (single && frames.start == hole.start, "first"),
        (single && frames.end == hole.end, "last"),
        (inside, "inside"),
        (frames.end == hole.start + 1, "one frame at its end"),
        (frames.start + 1 == hole.end, "one frame at its start"),
        (
            frames.start < hole.start && frames.end > hole.end,
            "swallows",
        ),
    ];
    ways.into_iter().find_map(|(is, how)| is.then_some(how))
}

/// Answers a request; where a single unmap is done, sees how the head moved.
fn answer(controller: &mut Controller, request: Request, seen: &mut Seen) -> Answer {
    let head = |c: &Controller| c.domain(request[1] as usize).map(|domain| domain.head);
    let before = head(controller);
    let answer = controller.answer(request);
    if let (4, 0, Some(from), Some(to)) = (request[0], answer[0], before, head(controller)) {
        count_release(from, to, seen);
    }
    answer
}

/// The head stays or moves back one block, but for regathering, which is from
/// block 0 of rank 0.
fn count_release(from: Head, to: Head, seen: &mut Seen) {
    seen.releases += 1;
    let [index, now] = [from, to].map(|head| BLOCKS * head.rank + head.block);
    if index == 0 || now == index {
        return;
    }
    assert_eq!(now, index - 1);
    if from.block == 0 {
        seen.back_to_previous += 1;
    } else {
        seen.back_within += 1;
    }
}

/// The single calls of the run, one by one, give the same, but for 16, which is
/// asked of all frames first; more than 2,048 frames give 9.
fn check_run(
    mut c: Controller,
    after: &Controller,
    request: Request,
    number: u64,
    seen: &mut Seen,
) {
    let [call, domain, frame, count] = request;
    let domains = after.sizes().domains() as u64;
    assert!(
        count <= 2_048 || domain >= domains || number == 9,
        "{request:?}"
    );
    if number == 16 || number != 0 && number < 12 {
        return count_at_limit(request, number, seen);
    }
    let refused = (frame..frame + count)
        .map(|frame| answer(&mut c, [call - 3, domain, frame, 0], seen)[0])
        .enumerate()
        .find(|&(_, number)| number != 0);
    match refused {
        None => assert!(number == 0 && c == *after, "{request:?}"),
        Some((at, first)) => {
            assert_eq!(first, number, "{request:?}");
            if at == 0 {
                return;
            }
            let changed = |&t: &usize| c.pool().former(t) != after.pool().former(t);
            let treelings = 0..c.sizes().treelings();
            seen.undone += treelings.filter(changed).count();
            *seen.refused_in_mid_run.entry(number).or_default() += 1;
        }
    }
    count_at_limit(request, number, seen);
}

fn count_at_limit([call, _, _, count]: Request, number: u64, seen: &mut Seen) {
    if (2_047..=2_049).contains(&count) {
        *seen.at_limit.entry([count, call, number]).or_default() += 1;
    }
}

/// From block 0 of rank 0 a single release writes one word of that block;
/// more, or elsewhere, only if it regathers.
fn count_regathering(c: &Controller, domain: u64, before: &[u64], after: &[u64], seen: &mut Seen) {
    let [domains, _, nfl, leaf_map] = c.sizes().starts();
    let record = &before[domains + 6 * domain as usize..][..6];
    let (first, last, head) = (record[1], record[2], (record[3], record[4]));
    if head != (first, 0) {
        return;
    }
    let start = nfl + 512 * (first as usize - 1);
    let changed = (nfl..leaf_map).filter(|&i| before[i] != after[i]);
    let outside = changed.clone().any(|i| !(start..start + 8).contains(&i));
    if outside || changed.count() > 1 {
        seen.regathered += 1;
        seen.regathered_many += usize::from(first != last);
        // Nodes without a free position came first and the head moved on.
        let block = after[domains + 6 * domain as usize + 4];
        seen.regathered_ahead += usize::from(first != last && block != 0);
    }
}

/// A TreeLing about to be taken, with the unowned ones from the hand around and
/// those among them that the same domain held last.
struct Taking {
    treeling: usize,
    rank: u64,
    hand: usize,
    unowned: Vec<usize>,
    own: Vec<usize>,
}

impl Taking {
    /// "Taking now first seeks, from the hand around, an unowned TreeLing last
    /// held by the same domain, then any."
    fn check(&self) {
        let first = self.own.first().unwrap_or(&self.unowned[0]);
        assert_eq!(self.treeling, *first);
    }

    fn count(&self, records: &[[u64; 5]], seen: &mut Seen) {
        let former = !self.own.is_empty();
        let held = |&treeling: &usize| records[treeling][4] != 0;
        let nearer = self.unowned[0] != self.treeling;
        let lower = self.own.iter().any(|&own| own < self.treeling);
        for (how, is) in [
            ("nobody's", !held(&self.treeling)),
            ("another's", !former && held(&self.treeling)),
            ("all were others'", !former && self.unowned.iter().all(held)),
            ("former", former),
            ("former, others nearer to the hand", former && nearer),
            (
                "former, before the hand",
                former && self.treeling < self.hand,
            ),
            ("former, one of several", self.own.len() > 1),
            ("former, not the lowest", lower),
            ("former, of higher rank", former && self.rank > 0),
            ("not former, of higher rank", !former && self.rank > 0),
        ] {
            *seen.taken.entry(how).or_default() += usize::from(is);
        }
    }

    /// Had a trim returned it, of the same domain or of another?
    fn count_returned(&self, domain: u64, seen: &mut Seen) {
        let how = match seen.returned.remove(&self.treeling) {
            Some(trimmed) if trimmed == domain => "returned by a trim of its own",
            Some(_) => "returned by a trim of another",
            None => return,
        };
        *seen.taken.entry(how).or_default() += 1;
    }
}

/// Taking, read on the words. Elsewhere no fifth word changes, and the hand stays.
fn check_taking(c: &Controller, domain: u64, before: &[u64], after: &[u64], seen: &mut Seen) {
    let [_, treelings, nfl, _] = c.sizes().starts();
    let records = |words: &[u64]| words[treelings..nfl].as_chunks::<5>().0.to_vec();
    let (mut then, now) = (records(before), records(after));
    let mut hand = before[3] as usize;
    let taken = |&t: &usize| then[t][0] == 0 && now[t][0] != 0;
    let mut taken: Vec<usize> = (0..now.len()).filter(taken).collect();
    taken.sort_by_key(|&treeling| now[treeling][3]);
    for treeling in taken {
        let around = (hand..now.len()).chain(0..hand);
        let unowned: Vec<usize> = around.filter(|&t| then[t][0] == 0).collect();
        let own = |&t: &usize| then[t][4] == domain + 1;
        let taking = Taking {
            treeling,
            rank: now[treeling][3],
            hand,
            own: unowned.iter().copied().filter(own).collect(),
            unowned,
        };
        taking.check();
        taking.count(&then, seen);
        taking.count_returned(domain, seen);
        then[treeling] = [domain + 1, 0, 0, 0, domain + 1];
        hand = (treeling + 1) % now.len();
    }
    assert_eq!(after[3], hand as u64);
    assert!(then.iter().zip(&now).all(|(then, now)| then[4] == now[4]));
}

/// M-107 read on the words: the owner words and the leaf map give the slots and
/// the pages. No word changes.
fn check_fill(
    c: &Controller,
    request: Request,
    answer: Answer,
    before: &[u64],
    after: &[u64],
    seen: &mut Seen,
) {
    let [number, quotient, remainder, slots, ..] = answer;
    assert!(before == after, "{request:?}");
    if number == 0 {
        let [_, treelings, nfl, leaf_map] = c.sizes().starts();
        let owner = |record: &[u64; 5]| record[0] == request[1] + 1;
        let records = before[treelings..nfl].as_chunks::<5>().0;
        let leaf_ids = before[leaf_map..].iter().filter(|&&leaf_id| leaf_id != 0);
        let own = |&&leaf_id: &&u64| owner(&records[(leaf_id as usize - 1) / 4_096]);
        let pages = leaf_ids.filter(own).count() as u64;
        let owned = records.iter().filter(|record| owner(record)).count() as u64;
        assert_eq!(slots, 4_096 * owned, "{request:?}");
        assert_eq!(1_000 * pages, quotient * slots + remainder, "{request:?}");
        assert!(remainder < slots || [quotient, remainder, slots] == [0; 3]);
        assert_eq!(answer[4..], [0; 4], "{request:?}");
    }
    *seen.fills.entry(found(answer)).or_default() += 1;
    *seen.fills.entry("several TreeLings").or_default() += usize::from(slots > 4_096);
}

/// M-100 read on the words: every word of the state, and the TreeLings counted.
fn check_trim(request: Request, answer: Answer, before: &[u64], after: &[u64], seen: &mut Seen) {
    let domain = request[1];
    assert_eq!(request[2..] != [0; 2], answer[0] == 7, "{request:?}");
    let mut found = match answer[0] {
        7 => vec!["malformed"],
        8 => vec!["no such domain"],
        11 => vec!["closed"],
        _ => Vec::new(),
    };
    if answer[0] == 0 {
        let (expected, returned) = trimmed::trimmed(before, domain);
        let count = returned.iter().filter(|&&is| is).count();
        assert_eq!(answer, [0, 0, 0, 0, 0, 0, 0, count as u64], "{request:?}");
        assert!(*after == expected, "{request:?}");
        let chain = trimmed::chain(before, domain);
        let gone = chain.iter().zip(&returned).filter(|(_, is)| **is);
        seen.returned.extend(gone.map(|(&t, _)| (t, domain)));
        found.extend(how_trimmed(&returned));
        found.extend(what_is_left(before, after, domain));
    }
    for how in found {
        *seen.trims.entry(how).or_default() += 1;
    }
}

/// Which TreeLings a trim returned, by rank.
fn how_trimmed(returned: &[bool]) -> Vec<&'static str> {
    let count = returned.iter().filter(|&&is| is).count();
    let some = 0 < count && count < returned.len();
    let [first, last] = [returned.first(), returned.last()].map(|end| end == Some(&true));
    let ways = [
        ("without TreeLings", returned.is_empty()),
        ("none returned", count == 0 && !returned.is_empty()),
        ("none of several returned", count == 0 && returned.len() > 1),
        ("all returned", count > 0 && count == returned.len()),
        (
            "all of several returned",
            count > 1 && count == returned.len(),
        ),
        ("the first and others returned", some && first),
        ("the last and others returned", some && last),
        ("one in the middle returned", count == 1 && !first && !last),
        ("several, not all returned", some && count > 1),
        ("of three TreeLings", count > 0 && returned.len() == 3),
        ("of more TreeLings", count > 0 && returned.len() > 3),
    ];
    let is = ways.into_iter().filter(|&(_, is)| is);
    is.map(|(how, _)| how).collect()
}

/// How full the domain is that was trimmed, and where its entries stood.
fn what_is_left(before: &[u64], after: &[u64], domain: u64) -> Vec<&'static str> {
    let [then, now] = [before, after].map(|words| trimmed::chain(words, domain));
    let nfl = |words: &[u64], t: usize| words[words[6] as usize + 512 * t..][..512].to_vec();
    let pages = after[after[4] as usize + 6 * domain as usize + 5] as usize;
    let full = pages > 0 && pages == 4_096 * now.len();
    let returned: Vec<usize> = then.iter().copied().filter(|t| !now.contains(t)).collect();
    let mut elsewhere = returned.iter().flat_map(|&t| nfl(before, t));
    let kept = |entry: u64| !entry.is_multiple_of(256) && now.contains(&(entry as usize / 131_072));
    let ways = [
        ("full", full && returned.is_empty()),
        ("full of what is kept", full && !returned.is_empty()),
        ("entries in those returned", elsewhere.any(kept)),
    ];
    let is = ways.into_iter().filter(|&(_, is)| is);
    is.map(|(how, _)| how).collect()
}

/// What a fill found.
fn found(answer: Answer) -> &'static str {
    match answer {
        [7, ..] => "malformed",
        [8, ..] => "no such domain",
        [11, ..] => "closed",
        [_, _, _, 0, ..] => "without TreeLings",
        [_, 0, 0, ..] => "without pages",
        [_, 0, ..] => "below a thousandth",
        [_, 1_000, ..] => "full",
        [_, _, 0, ..] => "without a remainder",
        _ => "with a remainder",
    }
}

#[test]
fn more_than_a_hundred_thousand_requests() {
    let mut seen = Seen::default();
    for seed in 0..100 {
        let mut rng = Rng::new(seed);
        let board = generate::board(&mut rng);
        let mut author = Author::new(rng.word(), board);
        let mut controller = Controller::new(board);
        let mut words = controller.render();
        seen.returned.clear();
        for _ in 0..1_100 {
            let request = author.next_request();
            step(&mut controller, &mut words, request, &mut seen);
        }
        assert!(*author.controller() == controller);
    }
    assert_eq!(seen.requests, 110_000);
    check_seen(&seen);
}

/// Every kind of request and answer is there, and often enough.
fn check_seen(seen: &Seen) {
    println!("{:?}", seen.numbers);
    let back = [seen.back_within, seen.back_to_previous];
    println!("moved back {back:?} in {} releases", seen.releases);
    let regathered = [seen.regathered, seen.regathered_many, seen.regathered_ahead];
    println!("regathered {regathered:?}");
    println!("in mid-run {:?}", seen.refused_in_mid_run);
    println!("at the limit {:?}", seen.at_limit);
    println!("at holes {:?}", seen.at_holes);
    println!("taken {:?}, undone {}", seen.taken, seen.undone);
    println!("fills {:?}, no calls {:?}", seen.fills, seen.no_calls);
    println!("trims {:?}", seen.trims);
    // Each of these is heard, and no other.
    assert!(seen
        .numbers
        .keys()
        .eq(&[0, 7, 8, 9, 10, 11, 12, 13, 14, 16]));
    assert!(seen.numbers[&0] > 50_000);
    assert!(back.iter().all(|&count| count > 0));
    assert!(regathered.iter().all(|&count| count > 10));
    assert!(seen.refused_in_mid_run.keys().eq(&[12, 13, 14]));
    check_at_limit(&seen.at_limit);
    check_at_holes(&seen.at_holes);
    assert!(seen.taken.values().all(|&count| count > 20));
    assert!(seen.taken["former, others nearer to the hand"] > 1_000);
    assert!(seen.undone > 50);
    assert_eq!(seen.fills.len(), 10);
    assert!(seen.fills.values().all(|&count| count > 5));
    assert!(seen.fills["full"] > 50 && seen.fills["without pages"] > 50);
    assert!(seen.no_calls.keys().eq(&[0, 9, 10, 12, 13]));
    assert_eq!(seen.trims.len(), 17);
    assert!(seen.trims.values().all(|&count| count > 10));
}

/// Frames and runs beside a hole are done, those in it refused.
fn check_at_holes(seen: &BTreeMap<(u64, u64, &'static str), usize>) {
    for call in 3..=7 {
        for how in ["ends before", "begins after"] {
            assert!(seen[&(call, 0, how)] > 20, "{call} {how}");
        }
    }
    for call in 3..=5 {
        for how in ["first", "last"] {
            assert!(seen[&(call, 16, how)] > 20, "{call} {how}");
        }
    }
    for call in 6..=7 {
        for how in ["one frame at its end", "one frame at its start", "swallows"] {
            assert!(seen[&(call, 16, how)] > 20, "{call} {how}");
        }
    }
}

/// The shapes that a board's holes have.
fn shapes(board: Board) -> Vec<&'static str> {
    let frames = board.sizes().frames();
    let holes: Vec<Hole> = board.holes().iter().collect();
    let legal = (0..frames).any(|frame| board.is_legal(frame));
    let shapes = [
        ("none", holes.is_empty()),
        ("at frame 0", holes.iter().any(|hole| hole.first == 0)),
        ("at the end", holes.iter().any(|hole| hole.end() == frames)),
        (
            "side by side",
            holes.windows(2).any(|two| two[0].end() == two[1].first),
        ),
        (
            "apart",
            holes.windows(2).any(|two| two[0].end() < two[1].first),
        ),
        ("of one frame", holes.iter().any(|hole| hole.length == 1)),
        ("of many", holes.iter().any(|hole| hole.length > 300)),
        ("eight", holes.len() == 8),
        ("no legal frame", !legal),
    ];
    let has = shapes.into_iter().filter(|&(_, has)| has);
    has.map(|(shape, _)| shape).collect()
}

/// Some four generated boards of ten have no holes; the others have each shape.
#[test]
fn holes_of_every_shape() {
    let mut seen: BTreeMap<&str, usize> = BTreeMap::new();
    for seed in 0..2_000 {
        for shape in shapes(generate::board(&mut Rng::new(seed))) {
            *seen.entry(shape).or_default() += 1;
        }
    }
    println!("{seen:?}");
    assert_eq!(seen.len(), 9);
    assert!((600..1_400).contains(&seen["none"]));
    for shape in [
        "at frame 0",
        "at the end",
        "side by side",
        "of one frame",
        "eight",
    ] {
        assert!(seen[shape] > 150, "{shape}");
    }
}

/// How many TreeLings a domain may have that maps every frame.
fn most_treelings(board: Board) -> usize {
    let sizes = board.sizes();
    let legal = (0..sizes.frames()).filter(|&frame| board.is_legal(frame));
    sizes.treelings().min(legal.count().div_ceil(4_096))
}

/// On more than one generated board of five a domain may have three TreeLings, on
/// some five; small boards are there too.
#[test]
fn boards_for_many_treelings_and_for_one() {
    let boards = (0..2_000).map(|seed| generate::board(&mut Rng::new(seed)));
    let mut seen = [0; 7];
    let mut small = 0;
    for board in boards {
        seen[most_treelings(board)] += 1;
        small += usize::from(board.sizes().frames() <= 300);
    }
    println!("by TreeLings {seen:?}, of at most 300 frames {small}");
    assert!(seen[3..].iter().sum::<usize>() > 400 && seen[5] > 20);
    assert!(seen[1] > 600 && small > 300);
}

/// Of the trims of a log some return TreeLings.
#[test]
fn logs_trim() {
    let (mut trims, mut returned, mut logs) = (0, 0, 0);
    for seed in 0..40 {
        let history = generate::history(seed, LogOptions::default());
        let mut controller = Controller::new(history.board);
        let before = returned;
        for &request in history.batches.iter().flatten() {
            let answer = controller.answer(request);
            if let ([8, ..], [0, .., pages]) = (request, answer) {
                trims += 1;
                returned += usize::from(pages > 0);
            }
        }
        logs += usize::from(returned > before);
    }
    println!("{trims} trims done, {returned} returned TreeLings, in {logs} logs of 40");
    assert!(trims > 1_000 && returned > 200 && logs > 30);
}

/// Draws for holes are apart: where there are none, sizes alone give the same log.
#[test]
fn a_board_without_holes_keeps_its_requests() {
    let logs = (0..40).map(|seed| (seed, generate::history(seed, LogOptions::default())));
    let without: Vec<_> = logs
        .filter(|(_, log)| log.board.holes().is_empty())
        .collect();
    assert!(without.len() > 5);
    for (seed, history) in without {
        let mut rng = Rng::new(seed);
        assert_eq!(history.board, Board::from(generate::sizes(&mut rng)));
        let mut author = Author::new(rng.word(), history.board.sizes());
        for &request in history.batches.iter().flatten() {
            assert_eq!(request, author.next_request());
        }
    }
}

/// Runs of 2,047 and of 2,048 frames are done and are refused in the middle by
/// 12, 13 and 14; a frame more gives 9.
fn check_at_limit(seen: &BTreeMap<[u64; 3], usize>) {
    for count in [2_047, 2_048] {
        for (call, number) in [(6, 0), (6, 12), (6, 13), (7, 0), (7, 14)] {
            assert!(seen[&[count, call, number]] > 5);
        }
    }
    let longer = seen.keys().filter(|[count, ..]| *count == 2_049);
    assert!(longer.eq(&[[2_049, 6, 9], [2_049, 7, 9]]));
}

/// The same requests as words and as structures, in batches of other lengths.
#[test]
fn batches_on_words_agree_with_single_requests() {
    for seed in 1_000..1_030 {
        let options = LogOptions {
            requests: 1_200,
            ..LogOptions::default()
        };
        let history = generate::history(seed, options);
        let mut controller = Controller::new(history.board);
        let mut state = controller.render();
        for batch in &history.batches {
            let expected: Vec<u64> = batch.iter().flat_map(|&r| controller.answer(r)).collect();
            let mut answers = vec![99; expected.len()];
            assert_eq!(serve_words(&mut state, &batch.concat(), &mut answers), 0);
            assert_eq!(answers, expected);
        }
        assert_eq!(state, controller.render());
    }
}

#[test]
fn seeds_give_the_same_again_and_others_do_not() {
    let options = LogOptions::default();
    assert_eq!(generate::log(5, options), generate::log(5, options));
    assert_ne!(generate::log(5, options), generate::log(6, options));
    assert_eq!(generate::state(5), generate::state(5));
    assert_ne!(generate::state(5), generate::state(6));
}
