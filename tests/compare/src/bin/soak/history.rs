//! One random history, fixed by its seed: batches served by both, refused ones
//! among them, and at its end audits of damaged copies of the state.

use compare::beside::{self, Served, Totals};
use compare::damage;
use second::generate::{self, Author, History};
use second::rng::Rng;
use second::{Board, Sizes};

/// States of more words are damaged less often.
const LARGE: usize = 100_000;

/// Where the two differ.
pub struct Difference {
    pub seed: u64,
    pub why: String,
    pub shown_by: Shown,
}

/// What shows a difference besides its seed.
pub enum Shown {
    /// All batches that were served, up to the one that differs.
    Log(Box<History>),
    /// A state whose audits differ.
    State(Vec<u64>),
    Nothing,
}

/// What was compared, and the histories by the sizes of the audit's marks.
#[derive(Default)]
pub struct Compared {
    pub totals: Totals,
    pub tiers: [u64; 4],
}

/// Serves the history of this seed until `ended`, which is asked before each batch.
pub fn serve(
    seed: u64,
    compared: &mut Compared,
    ended: impl Fn() -> bool,
) -> Result<(), Difference> {
    let mut rng = Rng::new(seed);
    let sizes = sizes(seed, &mut rng);
    compared.tiers[tier(sizes)] += 1;
    let longest = longest_batch(sizes, &mut rng);
    let mut left = rng.between(1, 10) * longest;
    let holes = generate::holes(&mut rng, sizes.frames());
    let board = Board::new(sizes, &holes.words()).expect("holes below P");
    let mut pair = Pair::new(seed, board, rng, &mut compared.totals)?;
    while left > 0 {
        if ended() {
            return Ok(());
        }
        left -= pair.next_batch(longest.min(left))?;
    }
    pair.audit_damaged()
}

/// Mostly small; of fifty seeds in a row some have each size of marks.
fn sizes(seed: u64, rng: &mut Rng) -> Sizes {
    let ranges = match seed % 50 {
        1 => [1_025..=4_096, 1..=4_096, 1..=60_000],
        2 => [257..=1_024, 1..=300, 1..=60_000],
        3 => [17..=256, 1..=40, 1..=40_000],
        4 => [1..=16, 257..=4_096, 1..=20_000],
        5..=7 => [1..=16, 1..=256, 1..=20_000],
        8..=22 => [1..=4, 1..=4, 1..=64],
        _ => return generate::sizes(rng),
    };
    let [t, d, p] = ranges.map(|range| rng.between(*range.start(), *range.end()) as u64);
    Sizes::new(t, d, p).expect("sizes within their ranges")
}

/// The audit takes its marks in one of four sizes.
fn tier(sizes: Sizes) -> usize {
    match (sizes.treelings(), sizes.domains()) {
        (..=16, ..=256) => 0,
        (..=256, _) => 1,
        (..=1_024, _) => 2,
        _ => 3,
    }
}

fn longest_batch(sizes: Sizes, rng: &mut Rng) -> usize {
    if sizes.length() > LARGE {
        return rng.pick(&[500, 3_000]);
    }
    match rng.below(20) {
        0 | 1 => 40,
        2..=6 => 500,
        7..=17 => 3_000,
        18 => 16_000,
        _ => 65_536,
    }
}

/// The proved library's state beside the controller of an author of requests.
struct Pair<'a> {
    seed: u64,
    rng: Rng,
    state: Vec<u64>,
    author: Author,
    history: History,
    totals: &'a mut Totals,
}

impl Pair<'_> {
    fn new(
        seed: u64,
        board: Board,
        mut rng: Rng,
        totals: &mut Totals,
    ) -> Result<Pair<'_>, Difference> {
        let state = beside::new_state(board).map_err(|why| Difference {
            seed,
            why,
            shown_by: Shown::Nothing,
        })?;
        let author = Author::new(rng.word(), board);
        let batches = Vec::new();
        Ok(Pair {
            seed,
            rng,
            state,
            author,
            history: History { board, batches },
            totals,
        })
    }

    /// A batch of at most so many requests, and its length.
    fn next_batch(&mut self, longest: usize) -> Result<usize, Difference> {
        let length = generate::batch_length(&mut self.rng, longest);
        let answered = (0..length).map(|_| self.author.next_answered());
        let (requests, answers): (Vec<_>, Vec<_>) = answered.unzip();
        self.refused(requests.as_flattened())?;
        let served = Served {
            number: 0,
            answers: answers.into_flattened(),
            state: self.author.controller().render(),
        };
        let differs = beside::serve(&mut self.state, requests.as_flattened(), &served);
        self.history.batches.push(requests);
        differs.map_err(|why| {
            let why = format!("batch {}, {why}", self.history.batches.len());
            self.difference(why, Shown::Log(Box::new(self.history.clone())))
        })?;
        self.totals.batch(&served);
        Ok(length)
    }

    /// Now and then a batch that is refused. It changes nothing, so no log has it.
    fn refused(&mut self, requests: &[u64]) -> Result<(), Difference> {
        if let Some((requests, room)) = beside::refused(requests, &mut self.rng) {
            self.refuse(requests, room)?;
        }
        if self.rng.below(200) == 0 {
            let batch = generate::oversize_batch(&mut self.rng, self.history.board.sizes());
            self.refuse(batch.as_flattened(), 8 * batch.len())?;
        }
        Ok(())
    }

    fn refuse(&mut self, requests: &[u64], room: usize) -> Result<(), Difference> {
        let served = Served::new(&self.state, requests, room);
        beside::serve(&mut self.state, requests, &served).map_err(|why| {
            let (words, batch) = (requests.len(), self.history.batches.len() + 1);
            let why = format!("{words} words and room for {room} before batch {batch}: {why}");
            self.difference(why, Shown::Nothing)
        })?;
        self.totals.batch(&served);
        Ok(())
    }

    /// Changes the state without harm, then damages one to three of its words.
    fn audit_damaged(&mut self) -> Result<(), Difference> {
        let sizes = self.history.board.sizes();
        let rng = &mut self.rng;
        let kinds = damage::kinds(sizes);
        let ends = damage::ends(sizes);
        for _ in 0..if self.state.len() > LARGE { 2 } else { 12 } {
            let mut words = self.state.clone();
            (0..rng.below(3)).for_each(|_| damage::keep_sound(&mut words, sizes, rng));
            let kind = rng.percent(50).then(|| rng.pick(&kinds));
            (0..rng.between(1, 3)).for_each(|_| match kind {
                Some(kind) => damage::change(&mut words, kind, &ends, rng),
                None => generate::damage(&mut words, sizes, rng),
            });
            match beside::audit(&words) {
                Ok(number) => self.totals.audits[number as usize] += 1,
                Err(why) => {
                    let why = format!("the audit of a damaged state: {why}");
                    return Err(self.difference(why, Shown::State(words)));
                }
            }
        }
        Ok(())
    }

    fn difference(&self, why: String, shown_by: Shown) -> Difference {
        Difference {
            seed: self.seed,
            why,
            shown_by,
        }
    }
}
