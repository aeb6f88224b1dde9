//! Placing a page.

use std::ops::Range;

use crate::layout::*;

impl State<'_> {
    /// Gives a frame a place of the domain: its leaf ID, or none.
    pub fn place(&mut self, d: usize, frame: usize) -> Option<u64> {
        let (t, k) = match self.own_place(d) {
            Some(place) => place,
            None => (self.take(d)?, 0),
        };
        let entry = &mut self.entries[t][k];
        let id = *entry / 256 * 8 + u64::from(entry.trailing_zeros()) + 1;
        *entry &= *entry - 1;
        let domain = &mut self.domains[d];
        domain[HEAD] = t as u64 + 1;
        domain[BLOCK] = k as u64 / 8;
        domain[PAGES] += 1;
        self.leaves[frame] = id;
        Some(id)
    }

    /// The first entry with a free position from the head block on: a TreeLing and an index. After
    /// the head block every entry has one.
    fn own_place(&self, d: usize) -> Option<(usize, usize)> {
        let domain = &self.domains[d];
        let t = domain[HEAD].checked_sub(1)? as usize;
        let from = 8 * domain[BLOCK] as usize;
        let free = self.entries[t][from..]
            .iter()
            .position(|&entry| entry as u8 != 0);
        if let Some(k) = free {
            return Some((t, from + k));
        }
        let next = self.treelings[t][NEXT].checked_sub(1)?;
        Some((next as usize, 0))
    }

    /// The first of some TreeLings that fits.
    fn first(&self, some: Range<usize>, fits: impl Fn(&TreeLing) -> bool) -> Option<usize> {
        let found = self.treelings[some.clone()].iter().position(fits)?;
        Some(some.start + found)
    }

    /// The first unowned TreeLing from the hand upward and around.
    pub fn unowned(&self) -> Option<usize> {
        let hand = *self.hand as usize;
        let unowned = |treeling: &TreeLing| treeling[OWNER] == 0;
        let above = self.first(hand..self.treelings.len(), unowned);
        above.or_else(|| self.first(0..hand, unowned))
    }

    /// The first unowned TreeLing that the domain owned last, else the first unowned one: one pass,
    /// which looks for the former where it has found the latter.
    #[cold]
    fn choose(&self, d: usize) -> Option<usize> {
        let own = d as u64 + 1;
        let hand = *self.hand as usize;
        let any = self.unowned()?;
        let former = |treeling: &TreeLing| treeling[FORMER] == own && treeling[OWNER] == 0;
        let found = if any < hand {
            self.first(any..hand, former)
        } else {
            let above = self.first(any..self.treelings.len(), former);
            above.or_else(|| self.first(0..hand, former))
        };
        found.or(Some(any))
    }

    /// The domain takes an unowned TreeLing.
    fn take(&mut self, d: usize) -> Option<usize> {
        let t = self.choose(d)?;
        let number = t as u64 + 1;
        *self.hand = number % self.treelings.len() as u64;
        let last = self.domains[d][LAST];
        self.treelings[t] = [d as u64 + 1, last, 0, self.owned(d), d as u64 + 1];
        match last {
            0 => self.domains[d][FIRST] = number,
            last => self.treelings[last as usize - 1][NEXT] = number,
        }
        self.domains[d][LAST] = number;
        for (entry, node) in self.entries[t].iter_mut().zip(512 * t as u64..) {
            *entry = 256 * node + 255;
        }
        Some(t)
    }

    /// The number of TreeLings of the domain.
    pub fn owned(&self, d: usize) -> u64 {
        match self.domains[d][LAST] {
            0 => 0,
            last => self.treelings[last as usize - 1][RANK] + 1,
        }
    }
}
