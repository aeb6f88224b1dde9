//! "Histories": what a domain is answered does not depend on the others.

use second::generate::{self, Author};
use second::rng::Rng;
use second::{Answer, Board, Controller, Request, Sizes};

const TREELINGS: usize = 9;
const DOMAINS: usize = 4;

/// This domain's frames are those from `first` up; the others map below it.
struct Setting {
    this: u64,
    first: u64,
    frames: u64,
    /// Up to four holes below `first`, and up to four from there up, less it.
    holes: [Vec<u64>; 2],
}

impl Setting {
    fn new(rng: &mut Rng) -> Setting {
        let first = rng.pick(&[300, 4_100, 9_000]);
        let this = rng.below(DOMAINS) as u64;
        let frames = first + rng.pick(&[30, 700, 4_200, 8_500, 12_300]);
        let mut apart = Rng::new(rng.clone().word() ^ 1);
        let holes = [first, frames - first].map(|frames| {
            let mut words = generate::holes(&mut apart, frames as usize).words();
            words.truncate(8);
            words
        });
        Setting {
            this,
            first,
            frames,
            holes,
        }
    }

    /// The whole board, the same in both histories.
    fn board(&self) -> Board {
        let [below, above] = &self.holes;
        let above = above
            .chunks(2)
            .flat_map(|hole| [self.first + hole[0], hole[1]]);
        let holes: Vec<u64> = below.iter().copied().chain(above).collect();
        board(TREELINGS, DOMAINS, self.frames, &holes)
    }
}

fn board(treelings: usize, domains: usize, frames: u64, holes: &[u64]) -> Board {
    let sizes = Sizes::new(treelings as u64, domains as u64, frames).unwrap();
    Board::new(sizes, holes).unwrap()
}

/// Requests of this domain alone, malformed ones among them, in its frames.
fn own_requests(seed: u64, count: usize, setting: &Setting) -> Vec<Request> {
    let alone = board(3, 1, setting.frames - setting.first, &setting.holes[1]);
    let mut author = Author::new(seed, alone);
    let mut requests = Vec::new();
    while requests.len() < count {
        let [call, domain, frame, count] = author.next_request();
        if domain == 0 {
            let moved = if (3..=7).contains(&call) {
                setting.first
            } else {
                0
            };
            requests.push([call, setting.this, frame.saturating_add(moved), count]);
        }
    }
    requests
}

/// Requests of the others. Their mappings name frames below `first` only;
/// their other calls name any.
fn others_requests(seed: u64, count: usize, setting: &Setting) -> Vec<Request> {
    let mut rng = Rng::new(seed);
    let theirs = board(TREELINGS - 3, DOMAINS - 1, setting.first, &setting.holes[0]);
    let mut author = Author::new(rng.word(), theirs);
    let mut requests = Vec::new();
    while requests.len() < count {
        let [call, domain, frame, count] = author.next_request();
        let domain = if domain < setting.this {
            domain
        } else {
            domain.saturating_add(1)
        };
        let named = match call {
            3 => 1,
            6 => u128::from(count),
            _ => 0,
        };
        if u128::from(frame) + named <= u128::from(setting.first) || named == 0 {
            requests.push([call, domain, frame, count]);
        }
        if rng.percent(5) {
            let frame = rng.below(setting.frames as usize) as u64;
            let call = rng.pick(&[4, 5, 7]);
            requests.push([call, domain, frame, u64::from(call == 7)]);
        }
    }
    requests
}

/// Mixes both lists into batches, refused batches between them, and gives
/// this domain's requests with their answers.
fn serve(
    rng: &mut Rng,
    own: &[Request],
    others: &[Request],
    setting: &Setting,
) -> Vec<(Request, Answer)> {
    let mut controller = Controller::new(setting.board());
    let (mut own, mut others) = (own.iter().copied(), others.iter().copied());
    let share = rng.between(30, 70);
    let mut answered = Vec::new();
    loop {
        let length = rng.below(40);
        let batch: Vec<Request> = (0..length)
            .map_while(|_| {
                if rng.percent(share) {
                    own.next().or_else(|| others.next())
                } else {
                    others.next().or_else(|| own.next())
                }
            })
            .collect();
        let words = batch.concat();
        if rng.percent(5) {
            assert_eq!(controller.serve(&[1, 0, 0], 6), Err(5));
            assert_eq!(controller.serve(&[2, 1, 0, 0], 9), Err(6));
        }
        let answers = controller.serve(&words, 2 * words.len()).unwrap();
        let pairs = batch.iter().copied().zip(answers);
        answered.extend(pairs.filter(|(request, _)| request[1] == setting.this));
        if batch.len() < length {
            return answered;
        }
    }
}

/// "A word names a node in both or in neither. A word that names none is equal."
fn agree(call: u64, one: Answer, other: Answer) {
    let names_nodes = |answer: Answer| answer[0] == 0 && (call == 3 || call == 5);
    assert_eq!(names_nodes(one), names_nodes(other));
    if !names_nodes(one) {
        return assert_eq!(one, other);
    }
    for word in [0, 1, 6, 7] {
        assert_eq!(one[word], other[word]);
    }
    for (word, remainder) in [(3, 8), (4, 64), (5, 512)] {
        assert_eq!(one[word] % remainder, other[word] % remainder);
    }
}

/// Of each restart: does the next page of rank 0 lie in the TreeLing of the last
/// one before it?
fn restarts(history: &[(Request, Answer)]) -> Vec<bool> {
    let (mut closed, mut last) = (false, None);
    let mut restarts = Vec::new();
    for &([call, ..], answer) in history {
        match (call, answer) {
            (2, [0, ..]) => closed = true,
            (3 | 5, [0, 0, treeling, ..]) => {
                if let (true, Some(last)) = (closed, last) {
                    restarts.push(treeling == last);
                }
                (closed, last) = (false, Some(treeling));
            }
            _ => {}
        }
    }
    restarts
}

/// How many answers were compared: in other TreeLings, of a higher rank, of
/// frames in holes, fills of TreeLings and of more than one, trims that returned
/// TreeLings and those that returned several.
#[derive(Default)]
struct Compared {
    differing: usize,
    ranks: usize,
    in_holes: usize,
    fills: usize,
    of_many: usize,
    trims: usize,
    of_several: usize,
}

impl Compared {
    fn add(&mut self, request: Request, a: Answer, b: Answer) {
        agree(request[0], a, b);
        self.differing += usize::from(a[2] != b[2]);
        self.in_holes += usize::from(a[0] == 16);
        match request[0] {
            8 => {
                self.trims += usize::from(a[7] > 0);
                self.of_several += usize::from(a[7] > 1);
            }
            11 => {
                self.fills += usize::from(a[3] > 0);
                self.of_many += usize::from(a[3] > 4_096);
            }
            _ => self.ranks += usize::from(a[1] > 0),
        }
    }

    fn check(&self) {
        println!("{} answers in other TreeLings", self.differing);
        println!(
            "{} of higher rank, {} of frames in holes",
            self.ranks, self.in_holes
        );
        println!(
            "{} fills of TreeLings, {} of more than one",
            self.fills, self.of_many
        );
        println!(
            "{} trims returned TreeLings, {} of them several",
            self.trims, self.of_several
        );
        assert!(self.differing > 1_000 && self.ranks > 100 && self.in_holes > 500);
        assert!(self.fills > 300 && self.of_many > 30);
        assert!(self.trims > 100 && self.of_several > 10);
    }
}

#[test]
fn a_domain_is_answered_alike_whatever_the_others_do() {
    let mut compared = Compared::default();
    let (mut pairs, mut same, mut other_in_one, mut other_in_both) = (0, 0, 0, 0);
    for seed in 0..40 {
        let mut rng = Rng::new(seed);
        let setting = Setting::new(&mut rng);
        let own = own_requests(rng.word(), 1_500, &setting);
        let histories = [(); 2].map(|()| {
            let count = rng.between(100, 2_000);
            let others = others_requests(rng.word(), count, &setting);
            serve(&mut rng, &own, &others, &setting)
        });
        let no_place = |history: &Vec<(Request, Answer)>| history.iter().any(|(_, a)| a[0] == 13);
        if histories.iter().any(no_place) {
            continue;
        }
        let [one, other] = &histories;
        assert_eq!(one.len(), own.len());
        assert_eq!(other.len(), own.len());
        for (&(request, a), &(same, b)) in one.iter().zip(other) {
            assert_eq!(request, same);
            compared.add(request, a, b);
        }
        for (one, other) in restarts(one).into_iter().zip(restarts(other)) {
            match (one, other) {
                (true, true) => same += 1,
                (false, false) => other_in_both += 1,
                _ => other_in_one += 1,
            }
        }
        pairs += 1;
    }
    println!("{pairs} pairs");
    compared.check();
    println!("restarts {same} in the same TreeLing, {other_in_one} in another in one history");
    println!("and {other_in_both} in both");
    assert!(pairs >= 20 && same > 200 && other_in_one > 10);
}
