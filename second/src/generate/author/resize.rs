//! Trims, and phases that give them something to return: a domain grows by
//! TreeLings, some of them lose their pages, and it is trimmed. The draws are from
//! the author's numbers for trims, but for the scattering at the end of some.

use std::cmp::Reverse;

use super::{is_full, lengthen, Author, MOST_STRETCHES};
use crate::controller::{Request, LONGEST_RUN};
use crate::domain::Domain;
use crate::geometry::SLOTS;

/// The most domains that close before one grows.
const MOST_CLOSED: usize = 8;
/// The most gaps that a domain grows into.
const MOST_GAPS: usize = 40;
/// The most stretches that a domain loses at once.
const MOST_LOST: usize = 200;

/// What a domain does next.
pub(super) enum Next {
    Grow(usize),
    Shrink(usize),
    Scatter(usize),
}

impl Author {
    /// Now and then a trim, more often of a domain in which the last request left
    /// a TreeLing's slots free.
    pub(super) fn trim(&mut self) -> Option<Request> {
        let last = self.controller.domain(self.last);
        if last.is_some_and(may_shrink) && self.trims.percent(5) {
            return Some([8, self.last as u64, 0, 0]);
        }
        if !self.trims.percent(2) {
            return None;
        }
        Some([8, self.trimmed() as u64, 0, 0])
    }

    /// A domain that is dead, without TreeLings, full or with a TreeLing's slots
    /// free, if there is one; or any, or the favourite.
    fn trimmed(&mut self) -> usize {
        let kind = self.trims.below(8);
        let domains = self.domains(|domain| match (kind, domain) {
            (0, domain) => domain.is_none(),
            (1, Some(domain)) => domain.slots() == 0,
            (2, Some(domain)) => is_full(domain),
            (3..=5, Some(domain)) => may_shrink(domain),
            (6, _) => true,
            _ => false,
        });
        if domains.is_empty() {
            return self.favourite;
        }
        self.trims.pick(&domains)
    }

    /// Goes on with a phase in which a domain grows and shrinks, or now and then
    /// begins one, more often where it may have several TreeLings; was it so?
    pub(super) fn resize(&mut self) -> bool {
        let sizes = self.controller.sizes();
        let share = match sizes.treelings().min(sizes.frames().div_ceil(SLOTS)) {
            1 => 3,
            2 => 10,
            _ => 20,
        };
        match self.next.take() {
            Some(Next::Grow(domain)) => self.grow(domain),
            Some(Next::Shrink(domain)) => self.shrink(domain),
            Some(Next::Scatter(domain)) => self.scatter(domain),
            None if self.trims.percent(share) => self.make_room(),
            None => return false,
        }
        true
    }

    /// A domain is to grow; perhaps it closes before that, or the others do.
    fn make_room(&mut self) {
        let domain = self.growing();
        let mut closed = self.domains(|domain| domain.is_some());
        let [anew, alone] = [50, 30].map(|percent| self.trims.percent(percent));
        closed.retain(|&id| if id == domain { anew } else { alone });
        closed.truncate(MOST_CLOSED);
        for id in closed {
            self.add(2, id, 0, 0);
        }
        self.add(1, domain, 0, 0);
        self.next = Some(Next::Grow(domain));
    }

    /// The domain with the most TreeLings, the favourite, or any.
    fn growing(&mut self) -> usize {
        let count = self.controller.sizes().domains();
        let slots = |&id: &usize| self.controller.domain(id).map_or(0, Domain::slots);
        match self.trims.below(3) {
            0 => (0..count).max_by_key(slots).unwrap_or(0),
            1 => self.favourite,
            _ => self.trims.below(count),
        }
    }

    /// Maps runs in the longest gaps, up to a goal or as many as there are places,
    /// or a run more, which is refused by 13. Perhaps it is trimmed, in vain.
    fn grow(&mut self, domain: usize) {
        let pages = self.controller.domain(domain).map_or(0, |d| d.pages);
        let most = self.places(domain) + self.trims.pick(&[0, 0, LONGEST_RUN]);
        let mut left = self.goal().saturating_sub(pages).min(most);
        let mut gaps = self.gaps();
        gaps.sort_by_key(|&(_, length)| Reverse(length));
        for (start, length) in gaps.into_iter().take(MOST_GAPS) {
            let length = length.min(left);
            self.runs(6, domain, start, length);
            left -= length;
        }
        if self.trims.percent(30) {
            self.add(8, domain, 0, 0);
        }
        self.next = Some(Next::Shrink(domain));
    }

    /// A few pages, as many as there are, or as many as one to six TreeLings hold,
    /// or a few more.
    fn goal(&mut self) -> usize {
        let few = self.trims.between(1, 700);
        let more = self.trims.pick(&[0, 0, 1, few]);
        match self.trims.below(8) {
            0 => few,
            1 => SLOTS + more,
            2 | 3 => usize::MAX,
            _ => SLOTS * self.trims.between(2, 6) + more,
        }
    }

    /// Runs over a stretch of frames, as long as may be or one frame shorter.
    fn runs(&mut self, call: u64, domain: usize, start: usize, length: usize) {
        let longest = LONGEST_RUN - self.trims.below(2);
        for done in (0..length).step_by(longest) {
            self.add(call, domain, start + done, longest.min(length - done));
        }
    }

    /// Some TreeLings of a domain lose their pages, the others a few, and it is
    /// trimmed, sometimes also while one page is left.
    fn shrink(&mut self, domain: usize) {
        let sparse = self.trims.percent(25);
        let (mut lost, mut kept) = self.lost_and_kept(domain, sparse);
        self.thin_out(domain, &mut kept);
        let late = match lost.len() {
            pages @ 1.. if self.trims.percent(25) => Some(lost.remove(self.trims.below(pages))),
            _ => None,
        };
        let stretches = self.lose(domain, &lost);
        self.thin_out(domain, &mut kept);
        self.add(8, domain, 0, 0);
        if let Some(frame) = late {
            self.add(4, domain, frame, 0);
            self.add(8, domain, 0, 0);
        }
        if sparse {
            self.next = Some(Next::Scatter(domain));
        } else {
            self.after_trim(domain, kept, &stretches);
        }
    }

    /// The frames in TreeLings that lose their pages, and those in the others. If
    /// these are to be sparse, they keep the first few of their frames.
    fn lost_and_kept(&mut self, domain: usize, sparse: bool) -> (Vec<usize>, Vec<usize>) {
        let treelings = self.frames_by_rank(domain);
        let emptied = self.emptied(treelings.len());
        let (mut lost, mut kept) = (Vec::new(), Vec::new());
        for (mut frames, emptied) in treelings.into_iter().zip(emptied) {
            let few = self.trims.between(1, 300).min(frames.len());
            if emptied {
                lost.extend(frames);
            } else {
                lost.extend(frames.split_off(if sparse { few } else { frames.len() }));
                kept.extend(frames);
            }
        }
        (lost, kept)
    }

    /// The frames in each TreeLing of a domain, by rank.
    fn frames_by_rank(&self, domain: usize) -> Vec<Vec<usize>> {
        let found = self.controller.domain(domain);
        let mut frames = vec![Vec::new(); found.map_or(0, |d| d.treelings.len())];
        for (frame, place) in self.controller.mapped_by(domain) {
            if let Some(owner) = self.controller.pool().owner(place.treeling) {
                frames[owner.rank].push(frame);
            }
        }
        frames
    }

    /// Which of so many TreeLings lose their pages: the first, the last, one
    /// between, all, all but one, or any.
    fn emptied(&mut self, treelings: usize) -> Vec<bool> {
        let kind = self.trims.below(8);
        let one = self.trims.below(treelings);
        let between = self.trims.between(1, treelings.saturating_sub(2));
        let ranks = 0..treelings;
        ranks
            .map(|rank| match kind {
                0 => rank == 0,
                1 => rank + 1 == treelings,
                2 | 3 => rank == between,
                4 => true,
                5 => rank != one,
                _ => self.trims.percent(50),
            })
            .collect()
    }

    /// Releases a few pages one by one, or none. While the head is near the end,
    /// their entries come to stand in the last TreeLings.
    fn thin_out(&mut self, domain: usize, frames: &mut Vec<usize>) {
        let most = self.trims.pick(&[0, 0, 3, 30]);
        for _ in 0..most.min(frames.len()) {
            let frame = frames.swap_remove(self.trims.below(frames.len()));
            self.add(4, domain, frame, 0);
        }
    }

    /// Releases these frames in runs, upward, downward or in any order; the
    /// stretches that they were.
    fn lose(&mut self, domain: usize, frames: &[usize]) -> Vec<(usize, usize)> {
        let mut stretches = Vec::new();
        for &frame in frames {
            lengthen(&mut stretches, frame);
        }
        match self.trims.below(3) {
            0 => stretches.reverse(),
            1 => self.trims.shuffle(&mut stretches),
            _ => {}
        }
        stretches.truncate(MOST_LOST);
        for &(start, length) in &stretches {
            self.runs(7, domain, start, length);
        }
        stretches
    }

    /// Paths under the new ranks; perhaps another domain takes a TreeLing, the
    /// domain maps again what it lost, and it is trimmed again.
    fn after_trim(&mut self, domain: usize, mut kept: Vec<usize>, lost: &[(usize, usize)]) {
        for _ in 0..self.trims.below(4).min(kept.len()) {
            let frame = self.trims.pick(&kept);
            self.add(5, domain, frame, 0);
        }
        let other = self.trims.below(self.controller.sizes().domains());
        if let (true, Some(&(frame, _))) = (self.trims.percent(30), lost.first()) {
            self.add(1, other, 0, 0);
            self.add(3, other, frame, 0);
        }
        if self.trims.percent(60) {
            for &(start, length) in lost.iter().rev().take(MOST_STRETCHES) {
                self.runs(6, domain, start, length);
            }
        }
        if self.trims.percent(40) {
            self.thin_out(domain, &mut kept);
            self.add(8, domain, 0, 0);
        }
    }
}

/// Has it so many free slots that one of its TreeLings may have no page?
fn may_shrink(domain: &Domain) -> bool {
    domain.slots() >= SLOTS + domain.pages
}
