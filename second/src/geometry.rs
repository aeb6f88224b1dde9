//! "Tree geometry": places, leaf IDs and path nodes.

/// "512 leaf nodes (level 4)".
pub const LEAF_NODES: usize = 512;
/// "A leaf node has 8 slots".
pub const POSITIONS: usize = 8;
/// "a TreeLing holds 4,096 pages".
pub const SLOTS: usize = LEAF_NODES * POSITIONS;

/// One slot of one TreeLing: where a page lies.
#[derive(Clone, Copy, Debug, PartialEq, Eq, PartialOrd, Ord)]
pub struct Place {
    pub treeling: usize,
    pub slot: usize,
}

impl Place {
    /// The place at a position of a level 4 node.
    pub fn at(node: usize, position: usize) -> Place {
        Place {
            treeling: node / LEAF_NODES,
            slot: node % LEAF_NODES * POSITIONS + position,
        }
    }

    /// "position s mod 8".
    pub fn position(self) -> usize {
        self.slot % POSITIONS
    }

    /// "level 4 512t + n".
    pub fn node(self) -> usize {
        512 * self.treeling + self.slot / POSITIONS
    }

    /// "Path nodes: level 1 t; level 2 8t + n/64; level 3 64t + n/8; level 4 512t + n".
    pub fn path(self) -> [usize; 4] {
        let (t, n) = (self.treeling, self.slot / POSITIONS);
        [t, 8 * t + n / 64, 64 * t + n / 8, 512 * t + n]
    }

    /// "A leaf ID is 4096t + s + 1".
    pub fn leaf_id(self) -> u64 {
        (SLOTS * self.treeling + self.slot + 1) as u64
    }

    /// The place a leaf ID names among so many TreeLings. "0 means unmapped"
    /// and names none, as does a leaf ID past the last TreeLing.
    pub fn of_leaf_id(leaf_id: u64, treelings: usize) -> Option<Place> {
        let index = usize::try_from(leaf_id.checked_sub(1)?).ok()?;
        let place = Place {
            treeling: index / SLOTS,
            slot: index % SLOTS,
        };
        (place.treeling < treelings).then_some(place)
    }
}

/// "leaf ID and level in, node number out, or 2^64 − 1 for a leaf ID outside
/// 1 to 2^24 or a level outside 1 to 4".
pub fn node_number(leaf_id: u64, level: u64) -> u64 {
    let level = match level {
        1..=4 => level as usize - 1,
        _ => return u64::MAX,
    };
    match Place::of_leaf_id(leaf_id, 4096) {
        Some(place) => place.path()[level] as u64,
        None => u64::MAX,
    }
}
