//! The contents and the four bodies of a state.

/// Words of a domain's record.
pub const LIVE: usize = 0;
pub const FIRST: usize = 1;
pub const LAST: usize = 2;
pub const HEAD: usize = 3;
pub const BLOCK: usize = 4;
pub const PAGES: usize = 5;

/// Words of a TreeLing's record.
pub const OWNER: usize = 0;
pub const PREVIOUS: usize = 1;
pub const NEXT: usize = 2;
pub const RANK: usize = 3;
pub const FORMER: usize = 4;

/// Words of the contents before the pairs of the holes, and with them.
const BEFORE_HOLES: usize = 9;
const CONTENTS: usize = 25;

/// A first frame and a length.
pub type Hole = [u64; 2];
pub type Domain = [u64; 6];
pub type TreeLing = [u64; 5];
pub type Entries = [u64; 512];

/// T, D and P within their limits.
#[derive(Clone, Copy)]
pub struct Sizes {
    treelings: usize,
    domains: usize,
    frames: usize,
}

impl Sizes {
    pub fn new(treelings: u64, domains: u64, frames: u64) -> Option<Sizes> {
        let allowed = (1..=4_096).contains(&treelings)
            && (1..=4_096).contains(&domains)
            && (1..=8_388_608).contains(&frames);
        allowed.then_some(Sizes {
            treelings: treelings as usize,
            domains: domains as usize,
            frames: frames as usize,
        })
    }

    fn words(self) -> usize {
        CONTENTS + 6 * self.domains + 517 * self.treelings + self.frames
    }

    fn contents(self, hand: u64, holes: &[Hole]) -> [u64; CONTENTS] {
        let treelings = CONTENTS + 6 * self.domains;
        let entries = treelings + 5 * self.treelings;
        let leaves = entries + 512 * self.treelings;
        let mut words = [0; CONTENTS];
        let (before, pairs) = words.split_at_mut(BEFORE_HOLES);
        before.copy_from_slice(&[
            self.treelings as u64,
            self.domains as u64,
            self.frames as u64,
            hand,
            CONTENTS as u64,
            treelings as u64,
            entries as u64,
            leaves as u64,
            holes.len() as u64,
        ]);
        pairs[..2 * holes.len()].copy_from_slice(holes.as_flattened());
        words
    }
}

/// Are at most eight holes ascending, disjoint, not empty and below P?
fn holes_allowed(holes: &[Hole], frames: u64) -> bool {
    let mut end = 0;
    let mut fits = |&[first, length]: &Hole| {
        let fits = end <= first && first < frames && (1..=frames - first).contains(&length);
        end = first.wrapping_add(length);
        fits
    };
    holes.len() <= 8 && holes.iter().all(&mut fits)
}

/// Makes a state with these holes, two words each: 0, 1 or 2.
pub fn make([treelings, domains, frames]: [u64; 3], holes: &[u64], state: &mut [u64]) -> u64 {
    let (holes, half) = holes.as_chunks();
    let Some(sizes) = Sizes::new(treelings, domains, frames) else {
        return 1;
    };
    if !half.is_empty() || !holes_allowed(holes, frames) {
        return 1;
    }
    if state.len() != sizes.words() {
        return 2;
    }
    let (contents, bodies) = state.split_at_mut(CONTENTS);
    contents.copy_from_slice(&sizes.contents(0, holes));
    bodies.fill(0);
    0
}

/// The holes and the bodies of a state, to read.
pub struct View<'a> {
    pub holes: &'a [Hole],
    pub domains: &'a [Domain],
    pub treelings: &'a [TreeLing],
    pub entries: &'a [Entries],
    pub leaves: &'a [u64],
}

impl<'a> View<'a> {
    /// None where the contents or the length are not as laid out.
    pub fn new(state: &'a [u64]) -> Option<View<'a>> {
        let (contents, bodies) = state.split_first_chunk::<CONTENTS>()?;
        let &[treelings, domains, frames, hand, ..] = contents;
        let sizes = Sizes::new(treelings, domains, frames)?;
        let (before, pairs) = contents.split_at(BEFORE_HOLES);
        let count = usize::try_from(before[BEFORE_HOLES - 1]).ok()?;
        let holes = pairs.as_chunks().0.get(..count)?;
        if hand >= treelings
            || !holes_allowed(holes, frames)
            || *contents != sizes.contents(hand, holes)
            || state.len() != sizes.words()
        {
            return None;
        }
        let (domains, rest) = bodies.split_at(6 * sizes.domains);
        let (treelings, rest) = rest.split_at(5 * sizes.treelings);
        let (entries, leaves) = rest.split_at(512 * sizes.treelings);
        Some(View {
            holes,
            domains: domains.as_chunks().0,
            treelings: treelings.as_chunks().0,
            entries: entries.as_chunks().0,
            leaves,
        })
    }
}

/// The pool hand and the bodies of a state, to write, and its holes.
pub struct State<'a> {
    pub hand: &'a mut u64,
    pub holes: &'a [Hole],
    pub domains: &'a mut [Domain],
    pub treelings: &'a mut [TreeLing],
    pub entries: &'a mut [Entries],
    pub leaves: &'a mut [u64],
}

impl<'a> State<'a> {
    /// Of a state that passed the audit.
    pub fn new(state: &'a mut [u64]) -> State<'a> {
        let (contents, bodies) = state.split_at_mut(CONTENTS);
        let (contents, pairs) = contents.split_at_mut(BEFORE_HOLES);
        let count = contents[BEFORE_HOLES - 1] as usize;
        let (domains, rest) = bodies.split_at_mut(6 * contents[1] as usize);
        let (treelings, rest) = rest.split_at_mut(5 * contents[0] as usize);
        let (entries, leaves) = rest.split_at_mut(512 * contents[0] as usize);
        State {
            hand: &mut contents[3],
            holes: &pairs.as_chunks().0[..count],
            domains: domains.as_chunks_mut().0,
            treelings: treelings.as_chunks_mut().0,
            entries: entries.as_chunks_mut().0,
            leaves,
        }
    }
}
