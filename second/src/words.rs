//! Rendering a controller as words, and "The audit": parsing words into a
//! controller. Parsing succeeds on precisely the word lists that pass.

use std::collections::BTreeMap;

use crate::controller::Controller;
use crate::domain::{Domain, Entry, Head, TreeLing, BLOCK, BLOCKS};
use crate::geometry::{Place, LEAF_NODES};
use crate::holes::MOST_HOLES;
use crate::layout::{
    Board, Sizes, CONTENTS, DOMAIN_WORDS, HOLE_COUNT, HOLE_PAIRS, NFL_WORDS, TREELING_WORDS,
};
use crate::pool::{Owner, Pool};

/// The public call "audit (0, 3 or 4)". Any words at all may be given.
pub fn audit(words: &[u64]) -> u64 {
    match Controller::from_words(words) {
        Ok(_) => 0,
        Err(number) => number,
    }
}

impl Controller {
    /// The controller these words stand for, or 3 or 4.
    pub fn from_words(words: &[u64]) -> Result<Controller, u64> {
        let (board, hand) = contents(words).ok_or(3_u64)?;
        controller(board, hand, words).ok_or(4)
    }

    /// The words of the state, as document 01 lays them out.
    pub fn render(&self) -> Vec<u64> {
        let sizes = self.sizes();
        let mut words = Vec::with_capacity(sizes.length());
        words.extend(self.board.contents(self.pool.hand()));
        words.extend(self.domains.iter().flat_map(domain_words));
        words.extend((0..sizes.treelings()).flat_map(|t| self.treeling_words(t)));
        for treeling in 0..sizes.treelings() {
            match self.owned(treeling) {
                Some((owner, domain)) => {
                    words.extend(domain.treelings[owner.rank].nfl.iter().map(entry_word));
                }
                None => words.extend([0; NFL_WORDS]),
            }
        }
        let start = words.len();
        words.resize(start + sizes.frames(), 0);
        for (frame, place) in &self.leaf_map {
            words[start + frame] = place.leaf_id();
        }
        words
    }

    fn owned(&self, treeling: usize) -> Option<(Owner, &Domain)> {
        let owner = self.pool.owner(treeling)?;
        Some((owner, self.domain(owner.domain)?))
    }

    /// "TreeLings, 4 words each: owner, previous, next, rank", then "a fifth
    /// word, the last owner + 1, kept while the rest of an unowned record is zero".
    fn treeling_words(&self, treeling: usize) -> [u64; TREELING_WORDS] {
        let former = self.pool.former(treeling).map_or(0, |id| id as u64 + 1);
        let Some((owner, domain)) = self.owned(treeling) else {
            return [0, 0, 0, 0, former];
        };
        let rank = owner.rank;
        let previous = rank.checked_sub(1).and_then(|r| domain.treelings.get(r));
        let next = domain.treelings.get(rank + 1);
        [
            owner.domain as u64 + 1,
            plus_one(previous),
            plus_one(next),
            rank as u64,
            former,
        ]
    }
}

/// "Domains, 6 words each: live (0 or 1), first TreeLing, last, head TreeLing,
/// head block (0 to 63), pages mapped."
fn domain_words(domain: &Option<Domain>) -> [u64; DOMAIN_WORDS] {
    let Some(domain) = domain else {
        return [0; DOMAIN_WORDS];
    };
    [
        1,
        plus_one(domain.treelings.first()),
        plus_one(domain.treelings.last()),
        plus_one(domain.treelings.get(domain.head.rank)),
        domain.head.block as u64,
        domain.pages as u64,
    ]
}

/// "hold number + 1; 0 is none".
fn plus_one(treeling: Option<&TreeLing>) -> u64 {
    treeling.map_or(0, |t| t.number as u64 + 1)
}

/// "256 × tag + availability".
fn entry_word(entry: &Entry) -> u64 {
    256 * entry.node as u64 + u64::from(entry.availability)
}

/// "contents as laid out and within their ranges, length exact?" and "question
/// 3 wants at least 25 words"; "unused pairs are 0" is a part of the layout.
fn contents(words: &[u64]) -> Option<(Board, usize)> {
    let found = words.get(..CONTENTS)?;
    let sizes = Sizes::new(found[0], found[1], found[2])?;
    let hand = usize::try_from(found[3]).ok()?;
    let holes = at_most(found[HOLE_COUNT], MOST_HOLES)?;
    let board = Board::new(sizes, &found[HOLE_PAIRS..][..2 * holes])?;
    let sound =
        hand < sizes.treelings() && found == board.contents(hand) && words.len() == sizes.length();
    sound.then_some((board, hand))
}

/// A domain's record with its words in range; the default is all zeros.
#[derive(Clone, Copy, Default, PartialEq, Eq)]
struct DomainRecord {
    live: bool,
    first: Option<usize>,
    last: Option<usize>,
    head: Option<usize>,
    block: usize,
    pages: u64,
}

impl DomainRecord {
    /// "Every word lies in the range given above."
    fn read(words: &[u64], sizes: Sizes) -> Option<DomainRecord> {
        let &[live, first, last, head, block, pages] = words else {
            return None;
        };
        Some(DomainRecord {
            live: at_most(live, 1)? == 1,
            first: number(first, sizes.treelings())?,
            last: number(last, sizes.treelings())?,
            head: number(head, sizes.treelings())?,
            block: at_most(block, BLOCKS - 1)?,
            pages,
        })
    }
}

/// A TreeLing's record with its words in range; the default is all zeros.
#[derive(Clone, Copy, Default, PartialEq, Eq)]
struct TreeLingRecord {
    owner: Option<usize>,
    previous: Option<usize>,
    next: Option<usize>,
    rank: u64,
    former: Option<usize>,
}

impl TreeLingRecord {
    /// "Every word lies in the range given above"; "The audit allows 0 to D" in
    /// the fifth.
    fn read(words: &[u64], sizes: Sizes) -> Option<TreeLingRecord> {
        let &[owner, previous, next, rank, former] = words else {
            return None;
        };
        Some(TreeLingRecord {
            owner: number(owner, sizes.domains())?,
            previous: number(previous, sizes.treelings())?,
            next: number(next, sizes.treelings())?,
            rank,
            former: number(former, sizes.domains())?,
        })
    }

    /// "the rest of an unowned record is zero".
    fn is_unowned(&self) -> bool {
        let unowned = TreeLingRecord {
            former: self.former,
            ..TreeLingRecord::default()
        };
        *self == unowned
    }
}

/// The number a word holds plus one, none for 0; no answer if past the limit.
fn number(word: u64, limit: usize) -> Option<Option<usize>> {
    at_most(word, limit).map(|word| word.checked_sub(1))
}

fn at_most(word: u64, most: usize) -> Option<usize> {
    usize::try_from(word).ok().filter(|&word| word <= most)
}

/// "The tag is a level 4 node number. Availability is 8 bits".
fn entry(word: u64, treelings: usize) -> Option<Entry> {
    let node = usize::try_from(word / 256).ok()?;
    (node < LEAF_NODES * treelings).then_some(Entry {
        node,
        availability: (word % 256) as u8,
    })
}

/// Everything under "The audit", building the controller on the way.
fn controller(board: Board, hand: usize, words: &[u64]) -> Option<Controller> {
    let sizes = board.sizes();
    let [domains, treelings, nfl, leaf_map] = sizes.starts();
    let domain_records = words[domains..treelings]
        .chunks_exact(DOMAIN_WORDS)
        .map(|record| DomainRecord::read(record, sizes))
        .collect::<Option<Vec<_>>>()?;
    let treeling_records = words[treelings..nfl]
        .chunks_exact(TREELING_WORDS)
        .map(|record| TreeLingRecord::read(record, sizes))
        .collect::<Option<Vec<_>>>()?;
    let mut entries = words[nfl..leaf_map]
        .chunks_exact(NFL_WORDS)
        .map(|nfl| {
            nfl.iter()
                .map(|&word| entry(word, sizes.treelings()))
                .collect()
        })
        .collect::<Option<Vec<Vec<Entry>>>>()?;

    let (mut pool, chains) = chains(sizes, hand, &domain_records, &treeling_records)?;
    for (treeling, record) in treeling_records.iter().enumerate() {
        if pool.owner(treeling).is_some() {
            continue;
        }
        // "the record and NFL words of unowned TreeLings, are zero";
        // "no other TreeLing is owned".
        if !record.is_unowned() || !entries[treeling].iter().all(is_zero) {
            return None;
        }
        pool.set_former(treeling, record.former);
    }

    let mut slots = Slots::new(sizes);
    let mut domains = Vec::with_capacity(sizes.domains());
    for (id, (record, chain)) in domain_records.iter().zip(chains).enumerate() {
        let treelings = chain.into_iter().map(|number| TreeLing {
            number,
            nfl: std::mem::take(&mut entries[number]),
        });
        let domain = domain(id, record, treelings.collect(), &pool)?;
        slots.free_all(&domain)?;
        domains.push(record.live.then_some(domain));
    }

    let leaf_map = frames(&words[leaf_map..], &pool, board, &mut slots)?;
    let sound = slots.complete(&pool) && pages_agree(&domain_records, &leaf_map, &pool);
    sound.then_some(Controller {
        board,
        pool,
        domains,
        leaf_map,
    })
}

fn is_zero(entry: &Entry) -> bool {
    entry.node == 0 && entry.availability == 0
}

/// Each domain's TreeLings in rank order, and the pool that follows from them.
fn chains(
    sizes: Sizes,
    hand: usize,
    domains: &[DomainRecord],
    treelings: &[TreeLingRecord],
) -> Option<(Pool, Vec<Vec<usize>>)> {
    let mut pool = Pool::new(sizes.treelings(), hand);
    let mut all = Vec::with_capacity(domains.len());
    for (domain, record) in domains.iter().enumerate() {
        // "Records of dead domains are zero."
        if !record.live && *record != DomainRecord::default() {
            return None;
        }
        let chain = chain(domain, record, treelings)?;
        for (rank, &treeling) in chain.iter().enumerate() {
            pool.set_owner(treeling, Owner { domain, rank });
        }
        all.push(chain);
    }
    Some((pool, all))
}

/// "Following next from first gives a live domain's TreeLings with ranks 0, 1,
/// 2 up to last, whose next is 0; previous is the reverse, 0 at first; owners
/// agree", and the fifth word has "the owner while owned". A loop comes back to
/// a TreeLing of a lower rank, and ends there.
fn chain(id: usize, domain: &DomainRecord, treelings: &[TreeLingRecord]) -> Option<Vec<usize>> {
    let mut chain = Vec::new();
    let mut previous = None;
    let mut at = domain.first;
    while let Some(treeling) = at {
        let record = treelings[treeling];
        let agrees = record.owner == Some(id)
            && record.previous == previous
            && record.rank == chain.len() as u64
            && record.former == Some(id);
        if !agrees {
            return None;
        }
        chain.push(treeling);
        previous = at;
        at = record.next;
    }
    (domain.last == previous).then_some(chain)
}

/// One domain's own sentences: head, tags, and the order of its blocks.
fn domain(
    id: usize,
    record: &DomainRecord,
    treelings: Vec<TreeLing>,
    pool: &Pool,
) -> Option<Domain> {
    if treelings.is_empty() {
        return without_treelings(record);
    }
    // "Its head block is in a TreeLing of its own."
    let owner = pool.owner(record.head?)?;
    if owner.domain != id {
        return None;
    }
    let domain = Domain {
        treelings,
        head: Head {
            rank: owner.rank,
            block: record.block,
        },
        pages: usize::try_from(record.pages).ok()?,
    };
    (tags_are_own(id, &domain, pool) && blocks_in_order(&domain)).then_some(domain)
}

/// "A domain without TreeLings has zeros after live."
fn without_treelings(record: &DomainRecord) -> Option<Domain> {
    let zeros = DomainRecord {
        live: record.live,
        ..DomainRecord::default()
    };
    (*record == zeros).then(Domain::default)
}

/// "Its NFL tags name its own leaf nodes."
fn tags_are_own(id: usize, domain: &Domain, pool: &Pool) -> bool {
    let mut entries = domain.treelings.iter().flat_map(|t| &t.nfl);
    entries.all(|entry| pool.is_owned_by(entry.node / LEAF_NODES, id))
}

/// "In rank order, entries of blocks before the head have no free position and
/// entries of blocks after it have at least one."
fn blocks_in_order(domain: &Domain) -> bool {
    domain.treelings.iter().enumerate().all(|(rank, treeling)| {
        treeling.nfl.iter().enumerate().all(|(index, entry)| {
            let block = Head {
                rank,
                block: index / BLOCK,
            };
            match block.cmp(&domain.head) {
                std::cmp::Ordering::Less => !entry.has_free(),
                std::cmp::Ordering::Equal => true,
                std::cmp::Ordering::Greater => entry.has_free(),
            }
        })
    })
}

/// Which positions of each leaf node were seen free, and which mapped.
struct Slots {
    free: Vec<u8>,
    mapped: Vec<u8>,
}

impl Slots {
    fn new(sizes: Sizes) -> Slots {
        let nodes = LEAF_NODES * sizes.treelings();
        Slots {
            free: vec![0; nodes],
            mapped: vec![0; nodes],
        }
    }

    /// "free in precisely one entry".
    fn free_all(&mut self, domain: &Domain) -> Option<()> {
        let mut entries = domain.treelings.iter().flat_map(|t| &t.nfl);
        entries.try_for_each(|entry| once(&mut self.free[entry.node], entry.availability))
    }

    /// "named by precisely one leaf map word".
    fn map(&mut self, place: Place) -> Option<()> {
        once(&mut self.mapped[place.node()], 1 << place.position())
    }

    /// "Each slot of an owned TreeLing is either free or named".
    fn complete(&self, pool: &Pool) -> bool {
        let pairs = self.free.iter().zip(&self.mapped);
        pairs.enumerate().all(|(node, (free, mapped))| {
            pool.owner(node / LEAF_NODES).is_none() || free ^ mapped == 255
        })
    }
}

/// Adds bits none of which was seen before.
fn once(seen: &mut u8, bits: u8) -> Option<()> {
    let fresh = *seen & bits == 0;
    *seen |= bits;
    fresh.then_some(())
}

/// The leaf map: each word 0, or the leaf ID of a slot of an owned TreeLing,
/// named once. "Other leaf map words are 0"; "the audit wants 0 in the leaf map
/// of a hole".
fn frames(
    words: &[u64],
    pool: &Pool,
    board: Board,
    slots: &mut Slots,
) -> Option<BTreeMap<usize, Place>> {
    let mut places = Vec::new();
    for (frame, &leaf_id) in words.iter().enumerate() {
        if leaf_id != 0 {
            let place = Place::of_leaf_id(leaf_id, board.sizes().treelings())?;
            if !board.is_legal(frame) {
                return None;
            }
            pool.owner(place.treeling)?;
            slots.map(place)?;
            places.push((frame, place));
        }
    }
    Some(places.into_iter().collect())
}

/// "'Pages mapped' is the true number."
fn pages_agree(records: &[DomainRecord], leaf_map: &BTreeMap<usize, Place>, pool: &Pool) -> bool {
    let mut pages = vec![0; records.len()];
    for owner in leaf_map.values().filter_map(|p| pool.owner(p.treeling)) {
        pages[owner.domain] += 1;
    }
    records.iter().zip(pages).all(|(r, pages)| r.pages == pages)
}
