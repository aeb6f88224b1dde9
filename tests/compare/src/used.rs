//! Sound states of any size, written as words without a history: chains in any
//! order, heads anywhere, nodes with no entry, one or two.

use second::rng::Rng;
use second::{Board, Sizes};

/// What a state is to look like. `owned`, `full`, `mapped` and `doubled` are
/// percentages.
#[derive(Clone, Copy, Debug)]
pub struct Plan {
    pub treelings: usize,
    pub domains: usize,
    /// Domains among which the owned TreeLings are spread.
    pub owners: usize,
    /// TreeLings that are owned.
    pub owned: usize,
    /// Blocks before the head, whose entries have no free position.
    pub full: usize,
    /// Positions that are mapped, in the nodes of the other entries.
    pub mapped: usize,
    /// Entries that share their node with the next one.
    pub doubled: usize,
    /// Chains, tags and leaf IDs in any order, not in ascending order.
    pub shuffled: bool,
}

/// The bodies but for the leaf map, and the leaf IDs that are to stand there.
pub struct Used {
    plan: Plan,
    domains: Vec<[u64; 6]>,
    treelings: Vec<[u64; 5]>,
    entries: Vec<u64>,
    leaf_ids: Vec<u64>,
}

impl Used {
    pub fn new(plan: Plan, rng: &mut Rng) -> Used {
        let mut used = Used {
            plan,
            domains: vec![[0; 6]; plan.domains],
            treelings: vec![[0; 5]; plan.treelings],
            entries: vec![0; 512 * plan.treelings],
            leaf_ids: Vec::new(),
        };
        let mut domains: Vec<usize> = (0..plan.domains).collect();
        rng.shuffle(&mut domains);
        let (owners, others) = domains.split_at(plan.owners);
        for (&domain, chain) in owners.iter().zip(chains(plan, rng)) {
            used.own(domain, &chain, rng);
        }
        // Some of the others are live without TreeLings.
        for &domain in others {
            used.domains[domain][0] = rng.below(2) as u64;
        }
        // Some of the unowned TreeLings had an owner.
        for treeling in used.treelings.iter_mut().filter(|record| record[0] == 0) {
            let former = rng.between(1, plan.domains) as u64;
            treeling[4] = rng.pick(&[0, former]);
        }
        if !plan.shuffled {
            used.leaf_ids.sort_unstable();
        }
        used
    }

    /// The pages mapped in all, which is the least number of frames.
    pub fn pages(&self) -> usize {
        self.leaf_ids.len()
    }

    /// The words, with so many frames, without holes and with any hand.
    pub fn words(&self, frames: usize, rng: &mut Rng) -> Vec<u64> {
        let [treelings, domains, frames] =
            [self.plan.treelings, self.plan.domains, frames].map(|size| size as u64);
        let sizes = Sizes::new(treelings, domains, frames).expect("sizes within their ranges");
        let mut words = Vec::with_capacity(sizes.length());
        words.extend(Board::from(sizes).contents(rng.below(sizes.treelings())));
        words.extend(self.domains.iter().flatten());
        words.extend(self.treelings.iter().flatten());
        words.extend(&self.entries);
        let leaf_map = words.len();
        words.extend(&self.leaf_ids);
        assert!(words.len() <= sizes.length(), "more pages than frames");
        words.resize(sizes.length(), 0);
        if self.plan.shuffled {
            rng.shuffle(&mut words[leaf_map..]);
        }
        words
    }

    /// The records, entries and leaf IDs of a live domain.
    fn own(&mut self, domain: usize, chain: &[usize], rng: &mut Rng) {
        self.domains[domain][0] = 1;
        let (Some(first), Some(last)) = (chain.first(), chain.last()) else {
            return;
        };
        let number = |treeling: Option<&usize>| treeling.map_or(0, |t| t + 1);
        for (rank, &treeling) in chain.iter().enumerate() {
            let previous = number(rank.checked_sub(1).map(|r| &chain[r]));
            let next = number(chain.get(rank + 1));
            let record = [domain + 1, previous, next, rank, domain + 1];
            self.treelings[treeling] = record.map(|w| w as u64);
        }
        let mut nodes: Vec<usize> = chain.iter().flat_map(|t| 512 * t..512 * t + 512).collect();
        if self.plan.shuffled {
            rng.shuffle(&mut nodes);
        }
        let blocks = 64 * chain.len();
        let head = (blocks * self.plan.full / 100).min(blocks - 1);
        let free = self.free(chain, &nodes, head, rng);
        let before = self.leaf_ids.len();
        for (node, free) in nodes.iter().zip(free) {
            let mapped = (0..8).filter(|position| free >> position & 1 == 0);
            let leaf_ids = mapped.map(|position| (8 * node + position + 1) as u64);
            self.leaf_ids.extend(leaf_ids);
        }
        let pages = self.leaf_ids.len() - before;
        let record = [
            1,
            first + 1,
            last + 1,
            chain[head / 64] + 1,
            head % 64,
            pages,
        ];
        self.domains[domain] = record.map(|w| w as u64);
    }

    /// Writes a domain's entries: none free before the head, some free after
    /// it, either or both in the head block. The answer is what is free of each node.
    fn free(&mut self, chain: &[usize], nodes: &[usize], head: usize, rng: &mut Rng) -> Vec<u8> {
        let plan = self.plan;
        let mut free = vec![0; nodes.len()];
        let mut unused = (8 * head..nodes.len()).chain(0..8 * head);
        let mut half = None;
        let none_in_head = rng.pick(&[0, 50, 100]);
        for index in 0..nodes.len() {
            let none = index / 8 < head || index / 8 == head && rng.percent(none_in_head);
            let (node, bits) = if none {
                let any = if plan.shuffled {
                    rng.below(nodes.len())
                } else {
                    index
                };
                (any, 0)
            } else if let Some(entry) = half.take() {
                entry
            } else {
                let node = unused.next().expect("no more entries than nodes");
                let bits = some_free(plan.mapped, rng);
                let lowest = bits & bits.wrapping_neg();
                if bits != lowest && rng.percent(plan.doubled) {
                    half = Some((node, lowest));
                    (node, bits - lowest)
                } else {
                    (node, bits)
                }
            };
            free[node] |= bits;
            self.entries[512 * chain[index / 512] + index % 512] =
                (256 * nodes[node]) as u64 + u64::from(bits);
        }
        free
    }
}

/// The TreeLings of each owner, by rank.
fn chains(plan: Plan, rng: &mut Rng) -> Vec<Vec<usize>> {
    let mut chains = vec![Vec::new(); plan.owners];
    let mut treelings: Vec<usize> = (0..plan.treelings).collect();
    if plan.shuffled {
        rng.shuffle(&mut treelings);
    }
    for treeling in treelings {
        if rng.percent(plan.owned) {
            chains[rng.below(plan.owners)].push(treeling);
        }
    }
    chains
}

/// At least one free position; each is mapped with a chance in percent.
fn some_free(mapped: usize, rng: &mut Rng) -> u8 {
    let free = (0..8).filter(|_| !rng.percent(mapped));
    match free.fold(0, |bits, position| bits | 1 << position) {
        0 => 1 << rng.below(8),
        bits => bits,
    }
}
