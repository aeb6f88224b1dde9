//! The calls. An error is the number of the question that was answered no.

use crate::layout::*;

pub type Answer = Result<[u64; 8], u64>;

fn done(pages: u64) -> [u64; 8] {
    [0, 0, 0, 0, 0, 0, 0, pages]
}

impl State<'_> {
    pub fn open(&mut self, d: usize) -> Answer {
        self.domains[d][LIVE] = 1;
        Ok(done(0))
    }

    /// Its records, NFL words and leaf IDs become 0, but its TreeLings keep it as the former owner.
    pub fn close(&mut self, d: usize) -> Answer {
        let pages = self.domains[d][PAGES];
        for id in self.leaves.iter_mut() {
            if *id != 0 && self.treelings[(*id - 1) as usize / 4_096][OWNER] == d as u64 + 1 {
                *id = 0;
            }
        }
        for t in self.chain(d) {
            self.clear(t);
        }
        self.domains[d].fill(0);
        Ok(done(pages))
    }

    pub fn map(&mut self, d: usize, frame: usize) -> Answer {
        if self.leaves[frame] != 0 {
            return Err(12);
        }
        let id = self.place(d, frame).ok_or(13_u64)?;
        Ok(self.page(id, 1))
    }

    pub fn unmap(&mut self, d: usize, frame: usize) -> Answer {
        if !self.owns(d, self.leaves[frame]) {
            return Err(14);
        }
        self.release(d, frame);
        Ok(done(1))
    }

    pub fn path(&self, d: usize, frame: usize) -> Answer {
        let id = self.leaves[frame];
        if !self.owns(d, id) {
            return Err(14);
        }
        Ok(self.page(id, 0))
    }

    /// From a sound state the first mapped frame and the places left decide.
    pub fn map_run(&mut self, d: usize, frame: usize, count: usize) -> Answer {
        let run = frame..frame + count;
        let unmapped = self.leaves[run.clone()]
            .iter()
            .take_while(|&&id| id == 0)
            .count();
        if !self.has_places(d, unmapped as u64) {
            return Err(13);
        }
        if unmapped < count {
            return Err(12);
        }
        for frame in run {
            self.place(d, frame).ok_or(13_u64)?;
        }
        Ok(done(count as u64))
    }

    pub fn unmap_run(&mut self, d: usize, frame: usize, count: usize) -> Answer {
        let run = frame..frame + count;
        if !self.leaves[run.clone()].iter().all(|&id| self.owns(d, id)) {
            return Err(14);
        }
        for frame in run {
            self.release(d, frame);
        }
        Ok(done(count as u64))
    }

    /// The pages word counts TreeLings returned.
    pub fn trim(&mut self, d: usize) -> Answer {
        Ok(done(self.return_empty(d) as u64))
    }

    /// Thousandths of the domain's slots in use, and what is left over.
    pub fn fill(&self, d: usize) -> Answer {
        let slots = 4_096 * self.owned(d);
        if slots == 0 {
            return Ok(done(0));
        }
        let thousands = 1_000 * self.domains[d][PAGES];
        Ok([0, thousands / slots, thousands % slots, slots, 0, 0, 0, 0])
    }

    /// Are so many places left in the domain's own TreeLings and in the pool? A run has fewer frames
    /// than a TreeLing has slots, so one unowned TreeLing is enough.
    fn has_places(&self, d: usize, count: u64) -> bool {
        let own = 4_096 * self.owned(d) - self.domains[d][PAGES];
        count <= own || self.unowned().is_some()
    }

    /// Does a leaf ID name a slot of the domain?
    fn owns(&self, d: usize, id: u64) -> bool {
        id != 0 && self.treelings[(id - 1) as usize / 4_096][OWNER] == d as u64 + 1
    }

    fn page(&self, id: u64, pages: u64) -> [u64; 8] {
        let slot = id - 1;
        let node = slot / 8;
        let rank = self.treelings[(slot / 4_096) as usize][RANK];
        [
            0,
            rank,
            node >> 9,
            node >> 6,
            node >> 3,
            node,
            slot % 8,
            pages,
        ]
    }
}
