//! What the functions answer of a sheet that is not refused.

use crate::raw;
use crate::refusal::Refusal;

/// Sixteen numbers for each of six buyers: that of buyer i and bundle S stands at `[i - 1][S]`.
/// Entries for absent buyers, absent bundles and the empty bundle are 0 in answers, and never read
/// in prices that are lent.
pub type Table = [[u16; 16]; 6];

/// One field.
#[derive(Clone, Debug, PartialEq, Eq)]
pub struct Field {
    /// The next column.
    pub next: usize,
    /// The field's number, or its fault ([`Refusal::Fault`]).
    pub number: Result<usize, Refusal>,
}

/// The size of a sheet.
#[derive(Clone, Debug, PartialEq, Eq)]
pub struct Size {
    /// The number of buyers, 1 to 6.
    pub buyers: usize,
    /// The number of lots, 1 to 4.
    pub lots: usize,
}

/// The size of a sheet, and its worths.
#[derive(Clone, Debug, PartialEq, Eq)]
pub struct Worths {
    /// The number of buyers, 1 to 6.
    pub buyers: usize,
    /// The number of lots, 1 to 4.
    pub lots: usize,
    /// What each bundle is worth to each buyer.
    pub worths: Table,
}

/// What one buyer demands.
#[derive(Clone, Debug, PartialEq, Eq)]
pub struct Demand {
    /// The demand set: the sum of 2^S over the bundles S of greatest payoff.
    pub bundles: u16,
    /// Whether that payoff is above 0.
    pub keen: bool,
}

/// A settled sale.
#[derive(Clone, Debug, PartialEq, Eq)]
pub struct Sale {
    /// The number of buyers, 1 to 6.
    pub buyers: usize,
    /// The number of lots, 1 to 4.
    pub lots: usize,
    /// The number of rounds: as many bytes are recorded.
    pub rounds: usize,
    /// The last prices.
    pub prices: Table,
    /// Of lots 1 to 4: a buyer, or 0 for unsold or absent.
    pub owners: [usize; 4],
    /// Of buyers 1 to 6, 0 for absent ones.
    pub discounts: [u32; 6],
    /// Of buyers 1 to 6, 0 for absent ones: price of its bundle less discount.
    pub payments: [u32; 6],
}

/// What the direct way answers.
#[derive(Clone, Debug, PartialEq, Eq)]
pub struct Direct {
    /// The greatest total worth of an allocation.
    pub total: u32,
    /// Of lots 1 to 4: a buyer, or 0 for unsold or absent.
    pub owners: [usize; 4],
    /// Of buyers 1 to 6, 0 for absent ones.
    pub payments: [u32; 6],
}

impl Field {
    pub(crate) fn new(answer: &raw::Field) -> Self {
        let refused = Refusal::check(answer.number, answer.value);
        Field {
            next: answer.next,
            number: refused.map(|()| answer.value),
        }
    }
}

impl Size {
    pub(crate) fn new(answer: &raw::Read) -> Result<Self, Refusal> {
        Refusal::check(answer.number, answer.place as usize)?;
        Ok(Size {
            buyers: answer.buyers.into(),
            lots: answer.lots.into(),
        })
    }
}

impl Worths {
    pub(crate) fn new(answer: &raw::Worths) -> Result<Self, Refusal> {
        Refusal::check(answer.number, answer.place as usize)?;
        Ok(Worths {
            buyers: answer.buyers.into(),
            lots: answer.lots.into(),
            worths: table(&answer.worths),
        })
    }

    /// What a bundle is worth to a buyer, each by its number. Panics where the buyer is not 1 to 6
    /// or the bundle is above 15.
    pub fn worth(&self, buyer: usize, bundle: usize) -> u16 {
        self.worths[buyer - 1][bundle]
    }
}

impl Demand {
    pub(crate) fn new(answer: &raw::Demand) -> Result<Self, Refusal> {
        Refusal::check(answer.number, answer.place as usize)?;
        Ok(Demand {
            bundles: answer.bundles,
            keen: answer.keen,
        })
    }
}

impl Sale {
    pub(crate) fn new(answer: &raw::Sale) -> Result<Self, Refusal> {
        Refusal::check(answer.number, answer.place as usize)?;
        Ok(Sale {
            buyers: answer.buyers.into(),
            lots: answer.lots.into(),
            rounds: answer.rounds as usize,
            prices: table(&answer.prices),
            owners: answer.owners.map(usize::from),
            discounts: answer.discounts,
            payments: answer.payments,
        })
    }

    /// The last price of a bundle for a buyer, each by its number. Panics where the buyer is not 1
    /// to 6 or the bundle is above 15.
    pub fn price(&self, buyer: usize, bundle: usize) -> u16 {
        self.prices[buyer - 1][bundle]
    }
}

impl Direct {
    pub(crate) fn new(answer: &raw::Direct) -> Result<Self, Refusal> {
        Refusal::check(answer.number, answer.place as usize)?;
        Ok(Direct {
            total: answer.total,
            owners: answer.owners.map(usize::from),
            payments: answer.payments,
        })
    }
}

/// The ninety-six numbers by buyers.
fn table(numbers: &[u16; 96]) -> Table {
    let mut table = Table::default();
    table.as_flattened_mut().copy_from_slice(numbers);
    table
}

/// The numbers by buyers, in a row.
pub(crate) fn flat(table: &Table) -> [u16; 96] {
    let mut numbers = [0; 96];
    numbers.copy_from_slice(table.as_flattened());
    numbers
}
