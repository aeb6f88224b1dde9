//! A live domain: its TreeLings in rank order, its NFL and head block.
//! "Placing" and "Releasing" are here, trimming, and how full a domain is.

use std::collections::BTreeSet;

use crate::geometry::{Place, LEAF_NODES, SLOTS};
use crate::pool::{Owner, Pool};

/// "A block is eight entries".
pub const BLOCK: usize = 8;
/// "a TreeLing has 64 blocks".
pub const BLOCKS: usize = 64;

/// An NFL entry. The tag of the entry is the node's level 4 number;
/// "bit i set means position i is free".
#[derive(Clone, Copy, Debug, PartialEq, Eq)]
pub struct Entry {
    pub node: usize,
    pub availability: u8,
}

impl Entry {
    pub fn has_free(&self) -> bool {
        self.availability != 0
    }
}

/// A TreeLing of a domain, with the 512 entries of its NFL.
#[derive(Clone, Debug, PartialEq, Eq)]
pub struct TreeLing {
    pub number: usize,
    pub nfl: Vec<Entry>,
}

impl TreeLing {
    /// "NFL entry k becomes tag 512t + k, availability 255".
    fn fresh(number: usize) -> TreeLing {
        let nfl = leaf_nodes(number)
            .map(|node| Entry {
                node,
                availability: 255,
            })
            .collect();
        TreeLing { number, nfl }
    }
}

fn leaf_nodes(treeling: usize) -> std::ops::Range<usize> {
    512 * treeling..512 * treeling + LEAF_NODES
}

/// A block of a domain: the rank of its TreeLing, then the block within it.
/// The derived order is the order of blocks "in rank order".
#[derive(Clone, Copy, Debug, Default, PartialEq, Eq, PartialOrd, Ord)]
pub struct Head {
    pub rank: usize,
    pub block: usize,
}

impl Head {
    /// The block of this index, counted over all the domain's TreeLings.
    fn of_index(index: usize) -> Head {
        Head {
            rank: index / BLOCKS,
            block: index % BLOCKS,
        }
    }

    fn index(self) -> usize {
        self.rank * BLOCKS + self.block
    }

    /// "back one block, into the previous TreeLing's block 63 if need be";
    /// none from block 0 of rank 0.
    fn back(self) -> Option<Head> {
        self.index().checked_sub(1).map(Head::of_index)
    }
}

/// A live domain. The head of a domain without TreeLings is rank 0, block 0.
#[derive(Clone, Debug, Default, PartialEq, Eq)]
pub struct Domain {
    pub treelings: Vec<TreeLing>,
    pub head: Head,
    pub pages: usize,
}

impl Domain {
    /// "Placing": the place, or none and nothing changed.
    pub fn place(&mut self, id: usize, pool: &mut Pool) -> Option<Place> {
        // Steps 2 and 3: the head block, then the next ones.
        for index in self.head.index()..self.treelings.len() * BLOCKS {
            let head = Head::of_index(index);
            if let Some(place) = self.place_in(head) {
                self.head = head;
                return Some(place);
            }
        }
        // Step 1, or step 3 past the last block: the domain takes a TreeLing.
        let head = self.take(id, pool)?;
        self.head = head;
        self.place_in(head)
    }

    /// Step 2: "the first entry with a free position gives its lowest one,
    /// which is cleared".
    fn place_in(&mut self, head: Head) -> Option<Place> {
        let entry = self.block_mut(head).iter_mut().find(|e| e.has_free())?;
        let position = entry.availability.trailing_zeros() as usize;
        entry.availability &= !(1 << position);
        Some(Place::at(entry.node, position))
    }

    /// "Rank is the number already owned"; the answer is the new TreeLing's block 0.
    fn take(&mut self, id: usize, pool: &mut Pool) -> Option<Head> {
        let rank = self.treelings.len();
        let number = pool.take(Owner { domain: id, rank })?;
        self.treelings.push(TreeLing::fresh(number));
        Some(Head { rank, block: 0 })
    }

    /// "Releasing node N, position i". From a sound state the head moves back
    /// one block at most: the block entered has entries without a free position.
    pub fn release(&mut self, place: Place) {
        let start = self.head;
        while !self.release_in_head(place) {
            debug_assert_eq!(self.head, start, "the block entered has no entry for it");
            match self.head.back() {
                Some(back) => self.head = back,
                None => return self.regather_with(place),
            }
        }
    }

    /// Steps 1 and 2: did the head block have an entry for it?
    fn release_in_head(&mut self, place: Place) -> bool {
        let node = place.node();
        let bit = 1 << place.position();
        let block = self.block_mut(self.head);
        if let Some(entry) = block.iter_mut().find(|e| e.node == node) {
            entry.availability |= bit;
            return true;
        }
        if let Some(entry) = block.iter_mut().find(|e| !e.has_free()) {
            *entry = Entry {
                node,
                availability: bit,
            };
            return true;
        }
        false
    }

    /// Step 4: "and N's bit included".
    fn regather_with(&mut self, place: Place) {
        let mut whole = self.whole_availability();
        whole[place.node()] |= 1 << place.position();
        self.regather(&whole);
    }

    /// "every leaf node of the domain once, by rank then node, those without a
    /// free position first, then the others, each with its whole availability".
    fn regather(&mut self, whole: &[u8]) {
        let nodes = self.treelings.iter().flat_map(|t| leaf_nodes(t.number));
        let (none, some): (Vec<Entry>, Vec<Entry>) = nodes
            .map(|node| Entry {
                node,
                availability: whole[node],
            })
            .partition(|entry| !entry.has_free());
        // "The head is the block of the first entry with a free position"; "if no
        // slot is free the head is the last block".
        let last = (BLOCKS * self.treelings.len()).saturating_sub(1);
        self.head = Head::of_index(last.min(none.len() / BLOCK));
        let mut entries = none.into_iter().chain(some);
        for treeling in &mut self.treelings {
            treeling.nfl = entries.by_ref().take(LEAF_NODES).collect();
        }
    }

    /// All free positions of each node, over all its entries; by node number.
    fn whole_availability(&self) -> Vec<u8> {
        let last = self.treelings.iter().map(|t| t.number).max();
        let mut whole = vec![0; last.map_or(0, |number| leaf_nodes(number).end)];
        for entry in self.treelings.iter().flat_map(|t| &t.nfl) {
            whole[entry.node] |= entry.availability;
        }
        whole
    }

    /// Request M-100: the TreeLings that are not used, without a mapped page, go
    /// back to the pool; how many. The others get new ranks and are regathered
    /// from all entries, also those in the TreeLings returned.
    pub fn trim(&mut self, id: usize, used: &BTreeSet<usize>, pool: &mut Pool) -> usize {
        let whole = self.whole_availability();
        let empty = |treeling: &mut TreeLing| !used.contains(&treeling.number);
        let returned: Vec<TreeLing> = self.treelings.extract_if(.., empty).collect();
        // "If none is empty nothing changes."
        if returned.is_empty() {
            return 0;
        }
        for treeling in &returned {
            pool.give_back(treeling.number);
        }
        for (rank, treeling) in self.treelings.iter().enumerate() {
            pool.set_owner(treeling.number, Owner { domain: id, rank });
        }
        self.regather(&whole);
        returned.len()
    }

    fn block_mut(&mut self, head: Head) -> &mut [Entry] {
        &mut self.treelings[head.rank].nfl[head.block * BLOCK..][..BLOCK]
    }

    /// Request M-107: "slots are 4,096 per TreeLing".
    pub fn slots(&self) -> usize {
        SLOTS * self.treelings.len()
    }

    /// Quotient, remainder and slots, "with 1,000 × pages mapped = quotient ×
    /// slots + remainder and remainder below slots"; "Without TreeLings all are 0".
    pub fn fill(&self) -> [u64; 3] {
        let [pages, slots] = [self.pages, self.slots()].map(|number| number as u64);
        match slots {
            0 => [0; 3],
            _ => [1_000 * pages / slots, 1_000 * pages % slots, slots],
        }
    }
}

#[cfg(test)]
mod tests {
    use super::*;
    use crate::geometry::POSITIONS;

    /// Two TreeLings, with no free position before the head block and every
    /// position free from it on.
    fn full_up_to(head: Head) -> Domain {
        let mut domain = Domain {
            treelings: vec![TreeLing::fresh(0), TreeLing::fresh(1)],
            head,
            pages: head.index() * BLOCK * POSITIONS,
        };
        for index in 0..head.index() {
            for entry in domain.block_mut(Head::of_index(index)) {
                entry.availability = 0;
            }
        }
        domain
    }

    #[test]
    fn the_head_moves_back_into_block_63_of_the_previous_treeling() {
        let mut domain = full_up_to(Head { rank: 1, block: 0 });
        let mut expected = domain.clone();
        expected.head = Head { rank: 0, block: 63 };
        expected.treelings[0].nfl[504] = Entry {
            node: 5,
            availability: 0b1000,
        };
        domain.release(Place::at(5, 3));
        assert_eq!(domain, expected);
    }

    #[test]
    fn the_entry_with_the_tag_comes_first_in_the_block_entered_too() {
        let mut domain = full_up_to(Head { rank: 1, block: 0 });
        let mut expected = domain.clone();
        expected.head = Head { rank: 0, block: 63 };
        expected.treelings[0].nfl[506].availability = 0b100;
        domain.release(Place::at(506, 2));
        assert_eq!(domain, expected);
    }

    #[test]
    fn the_head_moves_back_one_block_within_a_treeling() {
        let mut domain = full_up_to(Head { rank: 1, block: 7 });
        let mut expected = domain.clone();
        expected.head = Head { rank: 1, block: 6 };
        expected.treelings[1].nfl[48] = Entry {
            node: 3,
            availability: 0b1,
        };
        domain.release(Place::at(3, 0));
        assert_eq!(domain, expected);
    }

    /// "Regathering one entry of a node and dropping its other."
    #[test]
    fn regathering_joins_both_entries_of_a_node() {
        let mut domain = Domain {
            treelings: vec![TreeLing::fresh(0)],
            head: Head::default(),
            pages: 0,
        };
        for entry in &mut domain.treelings[0].nfl {
            entry.availability = 1;
        }
        domain.treelings[0].nfl[3] = Entry {
            node: 500,
            availability: 6,
        };
        domain.release(Place::at(400, 7));
        let nfl = &domain.treelings[0].nfl;
        // Node 3 has no entry left, so no free position: it comes first.
        assert_eq!((nfl[0].node, nfl[0].availability), (3, 0));
        assert_eq!((nfl[400].node, nfl[400].availability), (400, 129));
        assert_eq!((nfl[500].node, nfl[500].availability), (500, 7));
        assert_eq!(domain.head, Head::default());
    }

    fn entry(node: usize, availability: u8) -> Entry {
        Entry { node, availability }
    }

    /// Domain 1 has TreeLings 3, 0 and 2. TreeLing 0 has no page and its entries
    /// stand in the NFL of TreeLing 2. The other nodes have a page in each slot, but
    /// for what `availability` says of node 1,545, whose entry stands last in the
    /// NFL of TreeLing 0. The hand is at 1.
    fn with_an_empty_one(availability: u8) -> (Domain, Pool) {
        let mut pool = Pool::new(4, 1);
        let mut domain = Domain {
            treelings: [3, 0, 2].map(TreeLing::fresh).to_vec(),
            head: Head { rank: 1, block: 63 },
            pages: 2 * SLOTS - availability.count_ones() as usize,
        };
        for (rank, treeling) in domain.treelings.iter_mut().enumerate() {
            pool.set_owner(treeling.number, Owner { domain: 1, rank });
            treeling.nfl.iter_mut().for_each(|e| e.availability = 0);
        }
        domain.treelings[1].nfl[511] = entry(1_545, availability);
        domain.treelings[2].nfl = (0..512).map(|node| entry(node, 255)).collect();
        (domain, pool)
    }

    fn trim(domain: &mut Domain, pool: &mut Pool, used: &[usize]) -> usize {
        domain.trim(1, &used.iter().copied().collect(), pool)
    }

    /// The nodes of TreeLing 3, then those of TreeLing 2, each without a free
    /// position; node 1,545 comes last.
    #[test]
    fn a_trim_finds_the_entries_in_the_treeling_returned() {
        let (mut domain, mut pool) = with_an_empty_one(0b101);
        assert_eq!(trim(&mut domain, &mut pool, &[2, 3]), 1);
        let full = (1_536..2_048).chain(1_024..1_536).filter(|n| *n != 1_545);
        let mut entries: Vec<Entry> = full.map(|node| entry(node, 0)).collect();
        entries.push(entry(1_545, 0b101));
        let [first, second] = [entries[..512].to_vec(), entries[512..].to_vec()];
        let kept = [(3, first), (2, second)].map(|(number, nfl)| TreeLing { number, nfl });
        let expected = Domain {
            treelings: kept.to_vec(),
            head: Head { rank: 1, block: 63 },
            pages: 8_190,
        };
        assert_eq!(domain, expected);
        assert_eq!(domain.place(1, &mut pool), Some(Place::at(1_545, 0)));
    }

    /// TreeLing 0 is unowned, TreeLing 2 has rank 1, and the hand stays.
    #[test]
    fn a_trim_gives_new_ranks_and_leaves_the_hand() {
        let (mut domain, mut pool) = with_an_empty_one(0b101);
        assert_eq!(trim(&mut domain, &mut pool, &[2, 3]), 1);
        let owner = |rank| Some(Owner { domain: 1, rank });
        let owners = [0, 1, 2, 3].map(|treeling| pool.owner(treeling));
        assert_eq!(owners, [None, None, owner(1), owner(0)]);
        let formers = [0, 1, 2, 3].map(|treeling| pool.former(treeling));
        assert_eq!(formers, [Some(1), None, Some(1), Some(1)]);
        assert_eq!(pool.hand(), 1);
    }

    /// "if no slot is free the head is the last block"; the next place is in the
    /// TreeLing just returned, though TreeLing 1 is nearer to the hand.
    #[test]
    fn a_trim_that_leaves_no_free_slot() {
        let (mut domain, mut pool) = with_an_empty_one(0);
        assert_eq!(trim(&mut domain, &mut pool, &[2, 3]), 1);
        assert_eq!(domain.head, Head { rank: 1, block: 63 });
        let mut entries = domain.treelings.iter().flat_map(|t| &t.nfl);
        assert!(entries.all(|e| !e.has_free()));
        assert_eq!(domain.place(1, &mut pool), Some(Place::at(0, 0)));
        assert_eq!(domain.head, Head { rank: 2, block: 0 });
        assert_eq!(pool.hand(), 1);
    }

    #[test]
    fn a_trim_to_nothing_leaves_an_opened_domain() {
        let (mut domain, mut pool) = with_an_empty_one(0);
        domain.pages = 0;
        assert_eq!(trim(&mut domain, &mut pool, &[1]), 3);
        assert_eq!(domain, Domain::default());
        assert!((0..4).all(|treeling| pool.owner(treeling).is_none()));
        assert_eq!(trim(&mut domain, &mut pool, &[1]), 0);
        assert_eq!(domain, Domain::default());
    }

    /// "If none is empty nothing changes": the NFL is not regathered.
    #[test]
    fn a_trim_without_an_empty_treeling_changes_nothing() {
        let (mut domain, mut pool) = with_an_empty_one(0b101);
        let before = (domain.clone(), pool.clone());
        assert_eq!(trim(&mut domain, &mut pool, &[0, 1, 2, 3]), 0);
        assert_eq!((domain, pool), before);
    }

    /// So many TreeLings and pages; the fill does not look at the entries.
    fn filled(treelings: usize, pages: usize) -> Domain {
        let bare = |number| TreeLing {
            number,
            nfl: Vec::new(),
        };
        Domain {
            treelings: (0..treelings).map(bare).collect(),
            head: Head::default(),
            pages,
        }
    }

    #[test]
    fn fills_by_hand() {
        for (treelings, pages, fill) in [
            (0, 0, [0, 0, 0]),
            (1, 0, [0, 0, 4_096]),
            (1, 1, [0, 1_000, 4_096]),
            (1, 4, [0, 4_000, 4_096]),
            (1, 5, [1, 904, 4_096]),
            (1, 512, [125, 0, 4_096]),
            (1, 4_095, [999, 3_096, 4_096]),
            (1, 4_096, [1_000, 0, 4_096]),
            (2, 4_096, [500, 0, 8_192]),
            (2, 4_097, [500, 1_000, 8_192]),
            (2, 5_120, [625, 0, 8_192]),
            (3, 8_192, [666, 8_192, 12_288]),
            // As many TreeLings as a board may have, and as many frames.
            (4_096, 8_388_608, [500, 0, 16_777_216]),
            (4_096, 8_388_607, [499, 16_776_216, 16_777_216]),
            (2_048, 8_388_608, [1_000, 0, 8_388_608]),
        ] {
            assert_eq!(filled(treelings, pages).fill(), fill);
        }
    }

    #[test]
    fn no_part_of_a_fill_is_rounded_away() {
        for treelings in 1..=3 {
            for pages in 0..=4_096 * treelings {
                let [quotient, remainder, slots] = filled(treelings, pages).fill();
                assert_eq!(slots, 4_096 * treelings as u64);
                assert_eq!(1_000 * pages as u64, quotient * slots + remainder);
                assert!(remainder < slots);
            }
        }
    }
}
