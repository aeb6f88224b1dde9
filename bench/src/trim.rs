//! Returning TreeLings without a page.

use crate::layout::*;
use crate::release::link;

/// The leaf nodes of a TreeLing without a page.
const ALL_FREE: [u8; 512] = [255; 512];

impl State<'_> {
    /// Returns the domain's TreeLings without a page and regathers the rest: how many. Nothing is
    /// written where there is none.
    pub fn return_empty(&mut self, d: usize) -> usize {
        let chain = self.chain(d);
        let free = self.free_by_rank(&chain);
        let rows = chain.into_iter().zip(free.chunks(512));
        let (empty, kept): (Vec<_>, Vec<_>) = rows.partition(|(_, row)| *row == ALL_FREE);
        if empty.is_empty() {
            return 0;
        }
        empty.iter().for_each(|&(t, _)| self.clear(t));
        let (kept, rows): (Vec<_>, Vec<_>) = kept.into_iter().unzip();
        self.renumber(d, &kept);
        self.settle(d, &kept, rows.concat());
        empty.len()
    }

    /// A TreeLing becomes unowned, and its former owner is kept.
    pub fn clear(&mut self, t: usize) {
        self.entries[t].fill(0);
        self.treelings[t][..FORMER].fill(0);
    }

    /// These TreeLings of the domain get ranks 0, 1, 2 and are linked one to another.
    fn renumber(&mut self, d: usize, chain: &[usize]) {
        let mut last = 0;
        for (rank, &t) in chain.iter().enumerate() {
            let next = link(chain.get(rank + 1));
            self.treelings[t][PREVIOUS..=RANK].copy_from_slice(&[last, next, rank as u64]);
            last = link(Some(&t));
        }
        self.domains[d][FIRST] = link(chain.first());
        self.domains[d][LAST] = last;
    }
}
