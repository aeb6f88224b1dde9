//! The audit: one pass over the records, one over the NFL words, one over the
//! leaf map, with a byte of marks for each leaf node.

use std::cmp::Ordering;

use crate::layout::*;

/// Audits a state: 0, 3 or 4.
pub fn audit(state: &[u64]) -> u64 {
    match View::new(state) {
        None => 3,
        Some(view) if view.is_sound() => 0,
        Some(_) => 4,
    }
}

impl View<'_> {
    fn is_sound(&self) -> bool {
        self.records_in_range()
            && (0..self.domains.len()).all(|d| self.domain_chained(d))
            && (0..self.treelings.len()).all(|t| self.treeling_chained(t))
            && self.holes_unmapped()
            && self.slots_counted()
    }

    fn holes_unmapped(&self) -> bool {
        self.holes.iter().all(|&[first, length]| {
            let frames = &self.leaves[first as usize..][..length as usize];
            frames.iter().all(|&id| id == 0)
        })
    }

    fn records_in_range(&self) -> bool {
        let treelings = self.treelings.len() as u64;
        let domains = self.domains.len() as u64;
        let domain_fits = |domain: &Domain| {
            domain[LIVE] <= 1
                && domain[FIRST] <= treelings
                && domain[LAST] <= treelings
                && domain[HEAD] <= treelings
                && domain[BLOCK] <= 63
        };
        let treeling_fits = |treeling: &TreeLing| {
            treeling[OWNER] <= domains
                && treeling[PREVIOUS] <= treelings
                && treeling[NEXT] <= treelings
                && treeling[FORMER] <= domains
        };
        self.domains.iter().all(domain_fits) && self.treelings.iter().all(treeling_fits)
    }

    fn domain_chained(&self, d: usize) -> bool {
        let domain = &self.domains[d];
        if domain[LIVE] == 0 {
            return *domain == [0; 6];
        }
        if domain[FIRST] == 0 {
            return domain[LAST..] == [0; 4];
        }
        let head = domain[HEAD] as usize;
        self.follows_chain(d) && head != 0 && self.treelings[head - 1][OWNER] == d as u64 + 1
    }

    /// Ranks, owners and links from the first TreeLing of a domain to its last.
    fn follows_chain(&self, d: usize) -> bool {
        let domain = &self.domains[d];
        let mut previous = 0;
        let mut link = domain[FIRST];
        let mut rank = 0;
        while link != 0 {
            let treeling = &self.treelings[link as usize - 1];
            if [treeling[OWNER], treeling[PREVIOUS], treeling[RANK]]
                != [d as u64 + 1, previous, rank]
            {
                return false;
            }
            previous = link;
            link = treeling[NEXT];
            rank += 1;
        }
        domain[LAST] == previous
    }

    /// A TreeLing is zero but for its former owner; or it is its owner's first, or the next of its
    /// previous one, and its owner is the former one.
    fn treeling_chained(&self, t: usize) -> bool {
        let treeling = &self.treelings[t];
        let number = t as u64 + 1;
        if treeling[OWNER] == 0 {
            return treeling[..FORMER] == [0; 4];
        }
        if treeling[FORMER] != treeling[OWNER] {
            return false;
        }
        if self.domains[treeling[OWNER] as usize - 1][FIRST] == number {
            return true;
        }
        if treeling[PREVIOUS] == 0 {
            return false;
        }
        let previous = &self.treelings[treeling[PREVIOUS] as usize - 1];
        previous[OWNER] == treeling[OWNER]
            && previous[NEXT] == number
            && treeling[RANK].checked_sub(1) == Some(previous[RANK])
    }

    /// Each slot of an owned TreeLing is free once or named once, and pages mapped are those left.
    fn slots_counted(&self) -> bool {
        let mut marks = vec![0; 512 * self.treelings.len()];
        let mut pages = vec![0; self.domains.len()];
        self.entries_marked(&mut marks, &mut pages)
            && self.leaves_marked(&mut marks)
            && self.marks_full(&marks)
            && self
                .domains
                .iter()
                .zip(pages)
                .all(|(domain, pages)| domain[PAGES] == pages)
    }

    fn entries_marked(&self, marks: &mut [u8], pages: &mut [u64]) -> bool {
        for (treeling, entries) in self.treelings.iter().zip(self.entries) {
            if treeling[OWNER] == 0 {
                if entries.iter().any(|&entry| entry != 0) {
                    return false;
                }
                continue;
            }
            let Some(free) = self.treeling_marked(treeling, entries, marks) else {
                return false;
            };
            pages[treeling[OWNER] as usize - 1] += 4_096 - u64::from(free);
        }
        true
    }

    /// The free positions of an owned TreeLing's entries, or none where one of them is at fault.
    fn treeling_marked(
        &self,
        treeling: &TreeLing,
        entries: &Entries,
        marks: &mut [u8],
    ) -> Option<u32> {
        let (before, after) = self.around_head(treeling);
        let mut free = 0;
        for (k, &entry) in entries.iter().enumerate() {
            let (node, availability) = ((entry / 256) as usize, entry as u8);
            let mark = marks.get_mut(node)?;
            let fits = self.treelings[node / 512][OWNER] == treeling[OWNER]
                && (k >= before || availability == 0)
                && (k < after || availability != 0);
            if !fits || *mark & availability != 0 {
                return None;
            }
            *mark |= availability;
            free += availability.count_ones();
        }
        Some(free)
    }

    /// How many entries of a TreeLing lie before its domain's head block, and where those after it begin.
    fn around_head(&self, treeling: &TreeLing) -> (usize, usize) {
        let domain = &self.domains[treeling[OWNER] as usize - 1];
        let head = &self.treelings[domain[HEAD] as usize - 1];
        let block = 8 * domain[BLOCK] as usize;
        match treeling[RANK].cmp(&head[RANK]) {
            Ordering::Less => (512, 512),
            Ordering::Equal => (block, block + 8),
            Ordering::Greater => (0, 0),
        }
    }

    fn leaves_marked(&self, marks: &mut [u8]) -> bool {
        self.leaves.iter().filter(|&&id| id != 0).all(|&id| {
            let slot = id - 1;
            let bit = 1 << (slot % 8);
            match marks.get_mut((slot / 8) as usize) {
                Some(mark) if *mark & bit == 0 => {
                    *mark |= bit;
                    true
                }
                _ => false,
            }
        })
    }

    fn marks_full(&self, marks: &[u8]) -> bool {
        let (marks, _) = marks.as_chunks::<512>();
        self.treelings.iter().zip(marks).all(|(treeling, marks)| {
            let want = if treeling[OWNER] == 0 { 0 } else { 255 };
            *marks == [want; 512]
        })
    }
}
