//! The domain controller: "Calls" and the questions of a request.

use std::collections::BTreeMap;
use std::ops::Range;

use crate::domain::Domain;
use crate::geometry::Place;
use crate::layout::{Board, Sizes};
use crate::pool::Pool;
use crate::refusal::Refusal;

/// "A request is 4 words: call, domain, frame, count."
pub type Request = [u64; 4];
/// "An answer is 8: number, rank, path nodes of levels 1 to 4, position, pages."
pub type Answer = [u64; 8];

/// Request M-109: "The count limit becomes 2,048."
pub const LONGEST_RUN: usize = 2_048;

/// A call with its frames, after the questions 7 to 9.
enum Call {
    Open,
    Close,
    Map(usize),
    Unmap(usize),
    Path(usize),
    MapRun(Range<usize>),
    UnmapRun(Range<usize>),
    Trim,
    Fill,
}

impl Call {
    /// "Calls 3, 4 and 5 name their frame. Calls 6 and 7 name as many frames as
    /// their count says".
    fn named(&self) -> Range<usize> {
        match self {
            Call::Open | Call::Close | Call::Trim | Call::Fill => 0..0,
            &(Call::Map(frame) | Call::Unmap(frame) | Call::Path(frame)) => frame..frame + 1,
            Call::MapRun(frames) | Call::UnmapRun(frames) => frames.clone(),
        }
    }
}

/// The whole state, as structures.
#[derive(Clone, Debug, PartialEq, Eq)]
pub struct Controller {
    pub(crate) board: Board,
    pub(crate) pool: Pool,
    /// A dead domain is none.
    pub(crate) domains: Vec<Option<Domain>>,
    /// Frame to place; an unmapped frame is not in it.
    pub(crate) leaf_map: BTreeMap<usize, Place>,
}

impl Controller {
    /// A new state: all domains dead, all TreeLings unowned and held by none
    /// before, hand 0.
    pub fn new(board: impl Into<Board>) -> Controller {
        let board = board.into();
        let sizes = board.sizes();
        Controller {
            board,
            pool: Pool::new(sizes.treelings(), 0),
            domains: vec![None; sizes.domains()],
            leaf_map: BTreeMap::new(),
        }
    }

    pub fn board(&self) -> Board {
        self.board
    }

    pub fn sizes(&self) -> Sizes {
        self.board.sizes()
    }

    pub fn pool(&self) -> &Pool {
        &self.pool
    }

    /// The domain of this number, if it is live.
    pub fn domain(&self, id: usize) -> Option<&Domain> {
        self.domains.get(id)?.as_ref()
    }

    /// Where a frame is mapped.
    pub fn place(&self, frame: usize) -> Option<Place> {
        self.leaf_map.get(&frame).copied()
    }

    /// Which domain has this frame mapped.
    pub fn mapper(&self, frame: usize) -> Option<usize> {
        let place = self.place(frame)?;
        self.pool.owner(place.treeling).map(|owner| owner.domain)
    }

    /// The frames a domain has mapped, in frame order, with their places.
    pub fn mapped_by(&self, id: usize) -> Vec<(usize, Place)> {
        let own = |place: &Place| self.pool.is_owned_by(place.treeling, id);
        self.leaf_map
            .iter()
            .map(|(&frame, &place)| (frame, place))
            .filter(|(_, place)| own(place))
            .collect()
    }

    /// Answers one request. "A refused answer has zeros after its number."
    pub fn answer(&mut self, request: Request) -> Answer {
        match self.perform(request) {
            Ok(answer) => answer,
            Err(refusal) => [refusal.number(), 0, 0, 0, 0, 0, 0, 0],
        }
    }

    fn perform(&mut self, request: Request) -> Result<Answer, Refusal> {
        let (id, call) = self.ask(request)?;
        match call {
            Call::Open => {
                self.domains[id] = Some(Domain::default());
                Ok(done(0))
            }
            Call::Close => Ok(done(self.close(id))),
            Call::Map(frame) => self.map(id, frame).map(|place| self.full(place, 1)),
            Call::Unmap(frame) => self.unmap(id, frame).map(|_| done(1)),
            Call::Path(frame) => self.own(id, frame).map(|place| self.full(place, 0)),
            Call::MapRun(frames) => self.run(id, frames, Controller::map),
            Call::UnmapRun(frames) => self.run(id, frames, Controller::unmap),
            Call::Trim => Ok(done(self.trim(id))),
            Call::Fill => self.domain(id).map(fill).ok_or(Refusal::NotLive),
        }
    }

    /// The questions 7 to 11, in sequence; "16, a named frame lies in a hole,
    /// asked right after 9; for a run, any of its frames".
    fn ask(&self, [call, domain, frame, count]: Request) -> Result<(usize, Call), Refusal> {
        if !well_formed(call, frame, count) {
            return Err(Refusal::Malformed);
        }
        let id = below(domain, self.sizes().domains()).ok_or(Refusal::Domain)?;
        let call = self.call(call, frame, count).ok_or(Refusal::Frame)?;
        let holes = self.board.holes();
        if call.named().any(|frame| holes.contains(frame)) {
            return Err(Refusal::Hole);
        }
        match (&call, self.domain(id)) {
            (Call::Open, Some(_)) => Err(Refusal::Live),
            (Call::Open, None) | (_, Some(_)) => Ok((id, call)),
            (_, None) => Err(Refusal::NotLive),
        }
    }

    /// A well-formed call with its frames, or none if question 9 refuses them.
    fn call(&self, call: u64, frame: u64, count: u64) -> Option<Call> {
        let single = || below(frame, self.sizes().frames());
        Some(match call {
            1 => Call::Open,
            2 => Call::Close,
            3 => Call::Map(single()?),
            4 => Call::Unmap(single()?),
            5 => Call::Path(single()?),
            6 => Call::MapRun(self.frames(frame, count)?),
            8 => Call::Trim,
            11 => Call::Fill,
            _ => Call::UnmapRun(self.frames(frame, count)?),
        })
    }

    /// "Frame below P; for runs count at least 1, at most P − frame and at most 2,048".
    fn frames(&self, frame: u64, count: u64) -> Option<Range<usize>> {
        let start = below(frame, self.sizes().frames())?;
        let most = LONGEST_RUN.min(self.sizes().frames() - start);
        let count = usize::try_from(count).ok()?;
        (1..=most).contains(&count).then(|| start..start + count)
    }

    /// "close (pages released; its records, NFL words and leaf IDs become 0)",
    /// but for the fifth word of its TreeLings, which the pool keeps.
    fn close(&mut self, id: usize) -> usize {
        let before = self.leaf_map.len();
        let pool = &self.pool;
        self.leaf_map
            .retain(|_, place| !pool.is_owned_by(place.treeling, id));
        if let Some(domain) = self.domains[id].take() {
            for treeling in domain.treelings {
                self.pool.give_back(treeling.number);
            }
        }
        before - self.leaf_map.len()
    }

    /// Request M-100: "It unowns each of the domain's TreeLings without a mapped
    /// page"; how many. The hand stays.
    fn trim(&mut self, id: usize) -> usize {
        let used = self.leaf_map.values().map(|place| place.treeling).collect();
        let domain = self.domains[id].as_mut();
        domain.map_or(0, |domain| domain.trim(id, &used, &mut self.pool))
    }

    /// "Map: frame unmapped by anyone? No: 12. Place found? No: 13."
    fn map(&mut self, id: usize, frame: usize) -> Result<Place, Refusal> {
        if self.leaf_map.contains_key(&frame) {
            return Err(Refusal::Mapped);
        }
        let domain = self.domains[id].as_mut().ok_or(Refusal::NotLive)?;
        let Some(place) = domain.place(id, &mut self.pool) else {
            return Err(Refusal::NoPlace);
        };
        domain.pages += 1;
        self.leaf_map.insert(frame, place);
        Ok(place)
    }

    /// "Unmap, path: mapped by this domain? No: 14."
    fn own(&self, id: usize, frame: usize) -> Result<Place, Refusal> {
        self.place(frame)
            .filter(|place| self.pool.is_owned_by(place.treeling, id))
            .ok_or(Refusal::NotMapped)
    }

    fn unmap(&mut self, id: usize, frame: usize) -> Result<Place, Refusal> {
        let place = self.own(id, frame)?;
        let domain = self.domains[id].as_mut().ok_or(Refusal::NotLive)?;
        domain.release(place);
        domain.pages -= 1;
        self.leaf_map.remove(&frame);
        Ok(place)
    }

    /// "A run is its single calls in frame order, whole or not at all; the
    /// first frame refused gives the number." What the single calls may change
    /// is kept first: the domain, the pool, and each frame's place.
    fn run(
        &mut self,
        id: usize,
        frames: Range<usize>,
        single: fn(&mut Controller, usize, usize) -> Result<Place, Refusal>,
    ) -> Result<Answer, Refusal> {
        let domain = self.domains[id].clone();
        let pool = self.pool.clone();
        let mut places = Vec::new();
        for frame in frames.clone() {
            let place = self.place(frame);
            if let Err(refusal) = single(self, id, frame) {
                self.domains[id] = domain;
                self.pool = pool;
                self.put_back(frames.start, &places);
                return Err(refusal);
            }
            places.push(place);
        }
        Ok(done(frames.len()))
    }

    /// Gives the frames from `start` on the places they had.
    fn put_back(&mut self, start: usize, places: &[Option<Place>]) {
        for (frame, place) in (start..).zip(places) {
            match place {
                Some(place) => self.leaf_map.insert(frame, *place),
                None => self.leaf_map.remove(&frame),
            };
        }
    }

    /// "Map and path fill every word": the rank is that of the place's TreeLing.
    fn full(&self, place: Place, pages: u64) -> Answer {
        let rank = self
            .pool
            .owner(place.treeling)
            .map_or(0, |owner| owner.rank);
        let [one, two, three, four] = place.path().map(|node| node as u64);
        let position = place.position() as u64;
        [0, rank as u64, one, two, three, four, position, pages]
    }
}

/// "other done calls give number 0 and pages, and zeros between"; of a trim "The
/// pages word counts TreeLings returned".
fn done(pages: usize) -> Answer {
    [0, 0, 0, 0, 0, 0, 0, pages as u64]
}

/// Request M-107: "Call 11 answers quotient, remainder and slots in the rank, root
/// and level 2 words"; "Without TreeLings all are 0, as are the other words always."
fn fill(domain: &Domain) -> Answer {
    let [quotient, remainder, slots] = domain.fill();
    [0, quotient, remainder, slots, 0, 0, 0, 0]
}

/// "Call 1 to 7, and words it does not use 0? (Calls 1 and 2 use neither frame
/// nor count; 3, 4, 5 no count.)", "call 8 passes question 7" and "call 11 passes
/// 7": "A call added later uses the domain word, and others only where its ticket
/// names them."
fn well_formed(call: u64, frame: u64, count: u64) -> bool {
    match call {
        1 | 2 => frame == 0 && count == 0,
        3..=5 => count == 0,
        6 | 7 => true,
        8 | 11 => frame == 0 && count == 0,
        _ => false,
    }
}

fn below(word: u64, limit: usize) -> Option<usize> {
    usize::try_from(word).ok().filter(|&number| number < limit)
}
