//! Owner lists, sets of buyers, and the economies in which lots are dealt out. Written from the
//! rules alone (docs/RULES.md), never from the Rattle code; the comments name the rules that are
//! met.

use super::sheet::{MOST_BUYERS, MOST_LOTS};

/// The owner of each lot, 0 for a lot that is unsold or absent (rule 1.8).
pub type Owners = [u8; MOST_LOTS];

/// A set of buyers, as its number (rule 4.9).
pub type Buyers = u8;

/// The set of one buyer.
pub fn only(buyer: usize) -> Buyers {
    1 << (buyer - 1)
}

/// Whether one set has every member of the other.
pub fn includes(set: Buyers, members: Buyers) -> bool {
    members & !set == 0
}

/// An owner list, with the bundle that each buyer owns there.
#[derive(Clone, Debug, Default)]
pub struct Allocation {
    pub owners: Owners,
    pub(super) bundles: [u8; MOST_BUYERS],
}

impl Allocation {
    /// What a buyer owns (rule 5.6).
    pub fn bundle(&self, buyer: usize) -> usize {
        self.bundles[buyer - 1].into()
    }

    /// The same list with one lot more given to its owner.
    fn with(&self, lot: usize, owner: usize) -> Self {
        let mut list = self.clone();
        list.owners[lot - 1] = owner as u8;
        if owner != 0 {
            list.bundles[owner - 1] |= 1 << (lot - 1);
        }
        list
    }
}

/// All allocations of some lots, from those of one lot fewer (rule 1.9), in the order of rule 1.10.
pub fn allocations(buyers: usize, lots: usize) -> Vec<Allocation> {
    let mut lists = vec![Allocation::default()];
    for lot in 1..=lots {
        let with_each = |list| (0..=buyers).map(move |owner| Allocation::with(list, lot, owner));
        lists = lists.iter().flat_map(with_each).collect();
    }
    lists
}

/// The buyers present, and the places of their allocations in the list of all.
pub struct Economy {
    pub present: Buyers,
    pub allocations: Vec<usize>,
}

impl Economy {
    /// The allocations whose owners are present or nobody (rules 4.4 and 5.6).
    fn new(present: Buyers, lists: &[Allocation]) -> Self {
        let may_own = |owner: u8| owner == 0 || includes(present, only(owner.into()));
        let among_present = |&at: &usize| lists[at].owners.into_iter().all(may_own);
        Economy {
            present,
            allocations: (0..lists.len()).filter(among_present).collect(),
        }
    }
}

/// The economies (rule 4.4): that of all buyers at place 0, and the one without buyer i at place i.
pub fn economies(buyers: usize, lists: &[Allocation]) -> Vec<Economy> {
    let all: Buyers = (1..=buyers).map(only).sum();
    let mut economies = vec![Economy::new(all, lists)];
    economies.extend((1..=buyers).map(|absent| Economy::new(all - only(absent), lists)));
    economies
}
