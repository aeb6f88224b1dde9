//! How often a restarted guest gets a TreeLing that it owned last. Each list of requests is served
//! twice by the proved library: as it is, and with all former owners forgotten before a TreeLing is
//! taken. Then the first unowned one is taken, which was the rule before they were kept.

use compare::ivleague;
use second::log::Reader;
use second::rng::Rng;

use crate::states::{self, Request};

const TREELINGS: usize = 64;
const RESTARTS: usize = 2_000;
const CLOSE: u64 = 2;

/// A new state, and requests to serve.
pub type List = (Vec<u64>, Vec<Request>);

/// A guest with its number of TreeLings and, while it runs, a first frame for each of them.
struct Guest {
    domain: u64,
    size: usize,
    frames: Vec<u64>,
}

impl Guest {
    /// It opens, fills all its TreeLings but the last, and maps one page there.
    fn start(&self) -> Vec<Request> {
        let mut requests = vec![[1, self.domain, 0, 0]];
        let (&last, full) = self.frames.split_last().expect("a guest has TreeLings");
        for &first in full {
            requests.extend(states::longest_runs(6, self.domain, first..first + 4_096));
        }
        requests.push([3, self.domain, last, 0]);
        requests
    }
}

/// Guests who share 64 TreeLings. Those who run own `running` percent of them; all guests together
/// would own `all` percent.
struct Fleet {
    rng: Rng,
    running: Vec<Guest>,
    resting: Vec<Guest>,
    /// TreeLings that may still be owned, and frames for them.
    room: usize,
    frames: Vec<u64>,
    requests: Vec<Request>,
}

/// Again and again one guest stops and others start, by chance. A guest has up to `most` TreeLings,
/// as many at each start.
pub fn restarts(running: usize, all: usize, most: usize) -> List {
    let stretch = if most == 1 { 1 } else { 4_096 };
    let mut fleet = Fleet {
        rng: Rng::new(1),
        running: Vec::new(),
        resting: Vec::new(),
        room: TREELINGS * running / 100,
        frames: (0..TREELINGS as u64).map(|t| stretch * t).collect(),
        requests: Vec::new(),
    };
    fleet.found(TREELINGS * all / 100, most);
    let domains = fleet.resting.len() as u64;
    for _ in 0..RESTARTS {
        fleet.start();
        fleet.stop();
    }
    let state = states::new(TREELINGS as u64, domains, stretch * TREELINGS as u64);
    (state, fleet.requests)
}

impl Fleet {
    /// Guests for so many TreeLings, at rest.
    fn found(&mut self, treelings: usize, most: usize) {
        let mut left = treelings;
        while left > 0 {
            let size = self.rng.between(1, most.min(left));
            left -= size;
            self.resting.push(Guest {
                domain: self.resting.len() as u64,
                size,
                frames: Vec::new(),
            });
        }
    }

    /// Guests who rest start, until there is no room for the next one.
    fn start(&mut self) {
        while !self.resting.is_empty() {
            let next = self.rng.below(self.resting.len());
            let Some(room) = self.room.checked_sub(self.resting[next].size) else {
                return;
            };
            let mut guest = self.resting.swap_remove(next);
            guest.frames = self.frames.split_off(self.frames.len() - guest.size);
            self.room = room;
            self.requests.extend(guest.start());
            self.running.push(guest);
        }
    }

    /// One who runs stops.
    fn stop(&mut self) {
        let next = self.rng.below(self.running.len());
        let mut guest = self.running.swap_remove(next);
        self.requests.push([CLOSE, guest.domain, 0, 0]);
        self.room += guest.size;
        self.frames.append(&mut guest.frames);
        self.resting.push(guest);
    }
}

fn example() -> List {
    let text = include_bytes!("../../../../examples/restarts.log");
    let mut log = Reader::new(&text[..]).expect("a log");
    let sizes = log.board().sizes();
    let [t, d, p] = [sizes.treelings(), sizes.domains(), sizes.frames()].map(|size| size as u64);
    let mut requests: Vec<Request> = Vec::new();
    while let Some(words) = log.next_batch().expect("a batch") {
        requests.extend(words.as_chunks().0);
    }
    (states::new(t, d, p), requests)
}

/// The records of the TreeLings.
fn records(words: &mut [u64]) -> &mut [[u64; 5]] {
    let [start, end] = [words[5] as usize, words[6] as usize];
    words[start..end].as_chunks_mut().0
}

/// TreeLings that restarted guests took, and those of them that the guest had owned last. Closes,
/// which alone leave former owners behind here, are served apart.
fn count((state, requests): &List, forgets: bool) -> [usize; 2] {
    let mut words = state.clone();
    let mut last = vec![0; words[0] as usize];
    let mut restarted = vec![false; words[1] as usize + 1];
    let mut taken = [0; 2];
    for part in requests.chunk_by(|one, next| one[0] != CLOSE && next[0] != CLOSE) {
        let before = records(&mut words).to_vec();
        for record in records(&mut words) {
            record[4] = if forgets { record[0] } else { record[4] };
        }
        let mut answers = vec![0; 8 * part.len()];
        let number = ivleague::serve(&mut words, part.as_flattened(), &mut answers);
        assert_eq!(number, 0);
        if part[0][0] == CLOSE {
            restarted[part[0][1] as usize + 1] = true;
        }
        for ((record, before), last) in records(&mut words).iter().zip(before).zip(&mut last) {
            let owner = record[0];
            let took = before[0] == 0 && restarted[owner as usize];
            taken[0] += usize::from(took);
            taken[1] += usize::from(took && *last == owner);
            *last = if owner == 0 { *last } else { owner };
        }
    }
    taken
}

fn row(what: &str, list: &List) {
    let [before, now] = [true, false].map(|forgets| count(list, forgets));
    assert_eq!(before[0], now[0], "as many are taken by either rule");
    let own =
        |[all, own]: [usize; 2]| format!("{own:>5}, {:>5.1} %", (100 * own) as f64 / all as f64);
    println!(
        "| {what:<40} | {:>5} | {} | {} |",
        now[0],
        own(before),
        own(now)
    );
}

pub fn print() {
    println!(
        "| TreeLings that restarted guests took     | Taken |     Own before |        Own now |"
    );
    println!(
        "|------------------------------------------|------:|---------------:|---------------:|"
    );
    row("examples/restarts.log", &example());
    for (most, guests) in [(1, "guests of 1"), (4, "guests of 1 to 4")] {
        for running in [50, 75, 90] {
            for all in [running, 100, 150] {
                let what = format!("{running} % run, {all} % in all, {guests}");
                row(&what, &restarts(running, all, most));
            }
        }
    }
}
