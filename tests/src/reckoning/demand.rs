//! What a buyer demands at given prices: payoffs, the demand set, who is keen. Written from the
//! rules alone (docs/RULES.md), never from the Rattle code; the comments name the rules that are
//! met.

use super::sheet::{bundles, read_sheet, refuse, Refusal, Sheet, MOST_BUNDLES, MOST_BUYERS};

/// Ninety-six prices (rule 1.6). They stand as worths do in their table.
pub type Prices = [[u16; MOST_BUNDLES]; MOST_BUYERS];

/// A buyer's demand set as one number (rule 4.2), and its greatest payoff.
#[derive(Clone, Debug, PartialEq, Eq)]
pub struct Demand {
    pub bundles: u16,
    pub payoff: i64,
}

impl Demand {
    /// Whether the buyer is keen (rule 4.3).
    pub fn keen(&self) -> bool {
        self.payoff > 0
    }

    /// Whether the bundle is in the demand set.
    pub fn holds(&self, bundle: usize) -> bool {
        self.bundles & 1 << bundle != 0
    }
}

/// The answer to a demand question, with question 10 (rule 3.10).
pub fn buyer_demand(sheet: &[u8], buyer: u32, prices: &Prices) -> Result<Demand, Refusal> {
    let sheet = read_sheet(sheet)?;
    let buyer = buyer as usize;
    if !(1..=sheet.buyers).contains(&buyer) {
        return refuse(10, 0);
    }
    Ok(demand(&sheet, prices, buyer))
}

/// The bundles of greatest payoff, among all bundles and the empty one (rule 4.2).
pub fn demand(sheet: &Sheet, prices: &Prices, buyer: usize) -> Demand {
    let mut demand = Demand {
        bundles: 0,
        payoff: i64::MIN,
    };
    for bundle in 0..=bundles(sheet.lots) {
        let payoff = payoff(sheet, prices, buyer, bundle);
        if payoff > demand.payoff {
            demand = Demand { bundles: 0, payoff };
        }
        if payoff == demand.payoff {
            demand.bundles |= 1 << bundle;
        }
    }
    demand
}

/// Worth minus price, which may be below 0 (rule 4.1).
pub(super) fn payoff(sheet: &Sheet, prices: &Prices, buyer: usize, bundle: usize) -> i64 {
    i64::from(sheet.worths[buyer - 1][bundle]) - i64::from(price(prices, buyer, bundle))
}

/// A buyer's price for a bundle, 0 for the empty one (rule 1.5).
pub fn price(prices: &Prices, buyer: usize, bundle: usize) -> u16 {
    match bundle {
        0 => 0,
        _ => prices[buyer - 1][bundle],
    }
}
