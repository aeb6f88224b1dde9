//! Request M-101, "Holes in the frame space". Quotations are from it.

/// "a hole count (0 to 8)".
pub const MOST_HOLES: usize = 8;

/// "first frame and length".
#[derive(Clone, Copy, Debug, Default, PartialEq, Eq)]
pub struct Hole {
    pub first: usize,
    pub length: usize,
}

impl Hole {
    /// "not empty and below P".
    fn below(first: u64, length: u64, frames: usize) -> Option<Hole> {
        let first = usize::try_from(first).ok()?;
        let length = usize::try_from(length).ok()?;
        let fits = length > 0 && first.checked_add(length)? <= frames;
        fits.then_some(Hole { first, length })
    }

    /// The frame after its last one.
    pub fn end(self) -> usize {
        self.first + self.length
    }

    pub fn contains(self, frame: usize) -> bool {
        (self.first..self.end()).contains(&frame)
    }
}

/// The holes of a board; "unused pairs are 0".
#[derive(Clone, Copy, Debug, Default, PartialEq, Eq)]
pub struct Holes([Hole; MOST_HOLES]);

impl Holes {
    /// Two words a hole. "Holes are ascending, disjoint, not empty and below
    /// P." Side by side is disjoint.
    pub fn new(words: &[u64], frames: usize) -> Option<Holes> {
        let (pairs, rest) = words.as_chunks::<2>();
        if !rest.is_empty() || pairs.len() > MOST_HOLES {
            return None;
        }
        let mut holes = Holes::default();
        let mut end = 0;
        for (hole, &[first, length]) in holes.0.iter_mut().zip(pairs) {
            *hole = Hole::below(first, length, frames)?;
            if hole.first < end {
                return None;
            }
            end = hole.end();
        }
        Some(holes)
    }

    pub fn iter(&self) -> impl Iterator<Item = Hole> + '_ {
        self.0.iter().copied().filter(|hole| hole.length > 0)
    }

    pub fn count(&self) -> usize {
        self.iter().count()
    }

    pub fn is_empty(&self) -> bool {
        self.count() == 0
    }

    /// Does the frame lie in one of them?
    pub fn contains(&self, frame: usize) -> bool {
        self.iter().any(|hole| hole.contains(frame))
    }

    /// Two words a hole, without the unused pairs.
    pub fn words(&self) -> Vec<u64> {
        self.iter()
            .flat_map(|hole| [hole.first as u64, hole.length as u64])
            .collect()
    }
}
