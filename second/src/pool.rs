//! The pool of TreeLings and its hand.

/// Who owns a TreeLing, and as which of its TreeLings.
#[derive(Clone, Copy, Debug, PartialEq, Eq)]
pub struct Owner {
    pub domain: usize,
    pub rank: usize,
}

/// A TreeLing of the pool; while it is owned, `former` is its owner's domain.
#[derive(Clone, Copy, Debug, Default, PartialEq, Eq)]
struct Pooled {
    owner: Option<Owner>,
    former: Option<usize>,
}

/// Every TreeLing's owner and former domain, and the pool hand.
#[derive(Clone, Debug, PartialEq, Eq)]
pub struct Pool {
    treelings: Vec<Pooled>,
    hand: usize,
}

impl Pool {
    /// A pool of TreeLings that nobody has owned.
    pub fn new(treelings: usize, hand: usize) -> Pool {
        Pool {
            treelings: vec![Pooled::default(); treelings],
            hand,
        }
    }

    pub fn hand(&self) -> usize {
        self.hand
    }

    pub fn owner(&self, treeling: usize) -> Option<Owner> {
        self.treelings.get(treeling)?.owner
    }

    pub fn is_owned_by(&self, treeling: usize, domain: usize) -> bool {
        self.owner(treeling)
            .is_some_and(|owner| owner.domain == domain)
    }

    /// "the last owner": the domain that holds a TreeLing or held it last.
    pub fn former(&self, treeling: usize) -> Option<usize> {
        self.treelings.get(treeling)?.former
    }

    pub fn set_owner(&mut self, treeling: usize, owner: Owner) {
        self.treelings[treeling] = Pooled {
            owner: Some(owner),
            former: Some(owner.domain),
        };
    }

    /// An unowned TreeLing, last held by this domain.
    pub fn set_former(&mut self, treeling: usize, former: Option<usize>) {
        self.treelings[treeling] = Pooled {
            owner: None,
            former,
        };
    }

    /// The unowned TreeLings "from the pool hand upward and around".
    pub fn unowned(&self) -> impl Iterator<Item = usize> + '_ {
        let around = (self.hand..self.treelings.len()).chain(0..self.hand);
        around.filter(|&treeling| self.owner(treeling).is_none())
    }

    /// "Taking now first seeks, from the hand around, an unowned TreeLing last
    /// held by the same domain, then any"; "the hand becomes the number after
    /// it, modulo T".
    pub fn take(&mut self, owner: Owner) -> Option<usize> {
        let same = |&treeling: &usize| self.former(treeling) == Some(owner.domain);
        let taken = self
            .unowned()
            .find(same)
            .or_else(|| self.unowned().next())?;
        self.set_owner(taken, owner);
        self.hand = (taken + 1) % self.treelings.len();
        Some(taken)
    }

    /// The TreeLing becomes unowned; its former domain and the hand stay.
    pub fn give_back(&mut self, treeling: usize) {
        self.treelings[treeling].owner = None;
    }
}
