//! Releasing a page.

use crate::layout::*;

/// A TreeLing's number + 1, or 0.
pub fn link(treeling: Option<&usize>) -> u64 {
    treeling.map_or(0, |&t| t as u64 + 1)
}

/// The entry of a block that takes back a position of the node: one with its tag, else one without
/// a free position.
fn taker(block: &[u64], node: u64) -> Option<usize> {
    let tagged = block.iter().position(|entry| entry / 256 == node);
    tagged.or_else(|| block.iter().position(|&entry| entry as u8 == 0))
}

impl State<'_> {
    /// Releases the page of a frame that the domain has mapped.
    pub fn release(&mut self, d: usize, frame: usize) {
        let slot = self.leaves[frame] - 1;
        let (node, bit) = (slot / 8, 1 << (slot % 8));
        match self.entry_for(d, node) {
            Some((t, k)) => {
                let entry = &mut self.entries[t][k];
                *entry = 256 * node + *entry % 256 + bit;
                self.domains[d][HEAD] = t as u64 + 1;
                self.domains[d][BLOCK] = k as u64 / 8;
            }
            None => self.regather(d, node, bit as u8),
        }
        self.leaves[frame] = 0;
        self.domains[d][PAGES] -= 1;
    }

    /// Steps 1 to 3: a TreeLing and the index of an entry, or none at block 0 of rank 0. Before the
    /// head block no entry has a free position, so the block moved into has one to take it.
    fn entry_for(&self, d: usize, node: u64) -> Option<(usize, usize)> {
        let domain = &self.domains[d];
        let (t, from) = (domain[HEAD] as usize - 1, 8 * domain[BLOCK] as usize);
        if let Some(k) = taker(&self.entries[t][from..from + 8], node) {
            return Some((t, from + k));
        }
        let (t, from) = match (from, self.treelings[t][PREVIOUS]) {
            (0, 0) => return None,
            (0, previous) => (previous as usize - 1, 504),
            _ => (t, from - 8),
        };
        let k = taker(&self.entries[t][from..from + 8], node)?;
        Some((t, from + k))
    }

    /// Step 4: the NFL is regathered, and one more position of a node is free.
    fn regather(&mut self, d: usize, node: u64, bit: u8) {
        let chain = self.chain(d);
        let mut free = self.free_by_rank(&chain);
        free[self.index(node)] |= bit;
        self.settle(d, &chain, free);
    }

    /// Every leaf node of the domain's chain once, those without a free position first. The head is
    /// the block of the first of the others, or the last block.
    pub fn settle(&mut self, d: usize, chain: &[usize], free: Vec<u8>) {
        let nodes = chain
            .iter()
            .flat_map(|&t| 512 * t as u64..512 * t as u64 + 512);
        let (spent, others): (Vec<_>, Vec<_>) = nodes.zip(free).partition(|&(_, free)| free == 0);
        let head = spent.len().min((512 * chain.len()).saturating_sub(1));
        let word = |(node, free)| 256 * node + u64::from(free);
        let mut words = spent.into_iter().chain(others).map(word);
        for &t in chain {
            self.entries[t].fill_with(|| words.next().expect("a word for each entry"));
        }
        self.domains[d][HEAD] = link(chain.get(head / 512));
        self.domains[d][BLOCK] = (head % 512 / 8) as u64;
    }

    /// The whole availability of each leaf node of a chain.
    pub fn free_by_rank(&self, chain: &[usize]) -> Vec<u8> {
        let mut free = vec![0; 512 * chain.len()];
        for &entry in chain.iter().flat_map(|&t| &self.entries[t]) {
            free[self.index(entry / 256)] |= entry as u8;
        }
        free
    }

    /// The TreeLings of the domain by rank.
    pub fn chain(&self, d: usize) -> Vec<usize> {
        let treeling = |link: u64| (link as usize).checked_sub(1);
        let first = treeling(self.domains[d][FIRST]);
        std::iter::successors(first, |&t| treeling(self.treelings[t][NEXT])).collect()
    }

    /// A leaf node's index among its domain's, by rank.
    fn index(&self, node: u64) -> usize {
        let node = node as usize;
        512 * self.treelings[node / 512][RANK] as usize + node % 512
    }
}
