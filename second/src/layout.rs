//! "The state: contents, then bodies": sizes, holes, starts, length, and new
//! states.

use crate::holes::Holes;

/// Words of the contents. "The count is word 8, the pairs words 9 to 24."
pub const CONTENTS: usize = 25;
/// The word with the number of holes.
pub const HOLE_COUNT: usize = 8;
/// The first word of the pairs.
pub const HOLE_PAIRS: usize = 9;
/// "Domains, 6 words each".
pub const DOMAIN_WORDS: usize = 6;
/// "TreeLings, 4 words each", and M-104: "a fifth word, the last owner + 1".
pub const TREELING_WORDS: usize = 5;
/// "512 words per TreeLing".
pub const NFL_WORDS: usize = 512;

/// T, D and P, always within their ranges.
#[derive(Clone, Copy, Debug, PartialEq, Eq)]
pub struct Sizes {
    treelings: usize,
    domains: usize,
    frames: usize,
}

impl Sizes {
    /// "T TreeLings (1 to 4,096), D domains (1 to 4,096), P page frames (1 to 8,388,608)".
    pub fn new(treelings: u64, domains: u64, frames: u64) -> Option<Sizes> {
        Some(Sizes {
            treelings: within(treelings, 4_096)?,
            domains: within(domains, 4_096)?,
            frames: within(frames, 8_388_608)?,
        })
    }

    /// T.
    pub fn treelings(self) -> usize {
        self.treelings
    }

    /// D.
    pub fn domains(self) -> usize {
        self.domains
    }

    /// P.
    pub fn frames(self) -> usize {
        self.frames
    }

    /// "the starts of the four bodies, which lie back to back"; "Bodies start
    /// at word 25".
    pub fn starts(self) -> [usize; 4] {
        let domains = CONTENTS;
        let treelings = domains + DOMAIN_WORDS * self.domains;
        let nfl = treelings + TREELING_WORDS * self.treelings;
        let leaf_map = nfl + NFL_WORDS * self.treelings;
        [domains, treelings, nfl, leaf_map]
    }

    /// "Length: 8 + 6D + 516T + P", "lengths grow by 17" and "lengths grow by T".
    pub fn length(self) -> usize {
        8 + 6 * self.domains + 516 * self.treelings + self.frames + 17 + self.treelings
    }
}

/// Sizes, and the holes below P.
#[derive(Clone, Copy, Debug, PartialEq, Eq)]
pub struct Board {
    sizes: Sizes,
    holes: Holes,
}

/// Without holes.
impl From<Sizes> for Board {
    fn from(sizes: Sizes) -> Board {
        let holes = Holes::default();
        Board { sizes, holes }
    }
}

impl Board {
    /// With these holes, two words each, if they are allowed.
    pub fn new(sizes: Sizes, holes: &[u64]) -> Option<Board> {
        let holes = Holes::new(holes, sizes.frames)?;
        Some(Board { sizes, holes })
    }

    pub fn sizes(self) -> Sizes {
        self.sizes
    }

    pub fn holes(self) -> Holes {
        self.holes
    }

    /// "A legal frame is now one below P outside all holes".
    pub fn is_legal(self, frame: usize) -> bool {
        frame < self.sizes.frames && !self.holes.contains(frame)
    }

    /// "Contents, words 0 to 7: T, D, P, pool hand, then the starts", the
    /// number of holes and their pairs.
    pub fn contents(self, hand: usize) -> [u64; CONTENTS] {
        let sizes = self.sizes;
        let [domains, treelings, nfl, leaf_map] = sizes.starts();
        let numbers = [
            sizes.treelings,
            sizes.domains,
            sizes.frames,
            hand,
            domains,
            treelings,
            nfl,
            leaf_map,
            self.holes.count(),
        ];
        let pairs = self.holes.words();
        let mut words = [0; CONTENTS];
        words[..HOLE_PAIRS].copy_from_slice(&numbers.map(|number| number as u64));
        words[HOLE_PAIRS..][..pairs.len()].copy_from_slice(&pairs);
        words
    }
}

fn within(word: u64, most: u64) -> Option<usize> {
    (1..=most).contains(&word).then_some(word as usize)
}

fn board([treelings, domains, frames]: [u64; 3], holes: &[u64]) -> Option<Board> {
    Board::new(Sizes::new(treelings, domains, frames)?, holes)
}

/// "T, D and P allowed? No: 1. Length exact? No: 2." and "bad holes count
/// under 1". The sizes are T, D and P; a hole has two words.
pub fn make(sizes: [u64; 3], holes: &[u64], length: usize) -> u64 {
    match board(sizes, holes) {
        None => 1,
        Some(board) if board.sizes.length() != length => 2,
        Some(_) => 0,
    }
}

/// The public call "make a state": "A new state has zeros after the contents
/// and hand 0"; "a refusal writes nothing".
pub fn make_words(sizes: [u64; 3], holes: &[u64], state: &mut [u64]) -> u64 {
    let number = make(sizes, holes, state.len());
    if let (0, Some(board)) = (number, board(sizes, holes)) {
        state.fill(0);
        state[..CONTENTS].copy_from_slice(&board.contents(0));
    }
    number
}
