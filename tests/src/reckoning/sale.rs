//! A whole sale: question 9, the rounds with their record, and the closing. Written from the rules
//! alone (docs/RULES.md), never from the Rattle code; the comments name the rules that are met.

use super::allocation::Owners;
use super::demand::{price, Prices};
use super::round::{Market, Round};
use super::sheet::{bundles, read_sheet, refuse, Refusal, Sheet, MOST_BUYERS};

/// What a settled sale answers (rule 5.4), and what else is known of it.
#[derive(Clone, Debug, PartialEq, Eq)]
pub struct Sale {
    pub buyers: usize,
    pub lots: usize,
    pub rounds: usize,
    pub prices: Prices,
    pub closing: Closing,
    /// Question 9's sum.
    pub record_needed: usize,
    /// One raise for each member of each round's set (rule 4.11).
    pub raises: u32,
    /// The sum of the buyers' greatest payoffs at the last prices.
    pub payoffs: i64,
}

/// What the last prices come to.
#[derive(Clone, Debug, Default, PartialEq, Eq)]
pub struct Closing {
    pub owners: Owners,
    /// The price of each buyer's bundle.
    pub charges: [u32; MOST_BUYERS],
    pub discounts: [u32; MOST_BUYERS],
    pub payments: [u32; MOST_BUYERS],
}

/// The sale of a sheet. Each round writes a byte of the record, and the others stay (rule 4.12);
/// after a refusal all do (rule 3.14).
pub fn run_sale(sheet: &[u8], record: &mut [u8]) -> Result<Sale, Refusal> {
    let sheet = read_sheet(sheet)?;
    let record_needed = record_needed(&sheet);
    if record.len() < record_needed {
        return refuse(9, 0);
    }
    let market = Market::new(&sheet);
    let mut prices = Prices::default();
    let (mut rounds, mut raises) = (0, 0);
    loop {
        let round = Round::new(&market, &prices);
        let Some(set) = round.lowest_undersupplied() else {
            return Ok(Sale {
                buyers: sheet.buyers,
                lots: sheet.lots,
                rounds,
                prices,
                closing: close(&market, &round, &prices),
                record_needed,
                raises,
                payoffs: round.payoffs(),
            });
        };
        round.raise(set, &mut prices);
        record[rounds] = set;
        rounds += 1;
        raises += set.count_ones();
    }
}

/// Question 9's sum (rule 3.9).
pub fn record_needed(sheet: &Sheet) -> usize {
    let rows = &sheet.worths[..sheet.buyers];
    let worths = rows.iter().map(|row| row[bundles(sheet.lots)]);
    worths.map(usize::from).sum()
}

/// The owners (rule 5.1), discounts (rule 5.2) and payments (rule 5.3).
pub(super) fn close(market: &Market, round: &Round, prices: &Prices) -> Closing {
    let all = &market.economies[0];
    let first = round
        .fitting(all)
        .find(|&at| round.serves(at, round.keen()))
        .map(|at| &market.allocations[at])
        .expect("no set is undersupplied, so that of all keen buyers is not");
    let mut closing = Closing {
        owners: first.owners,
        ..Closing::default()
    };
    for (buyer, without) in (1..).zip(&market.economies[1..]) {
        let charge = u32::from(price(prices, buyer, first.bundle(buyer)));
        let discount = round.revenue(all) - round.revenue(without);
        closing.charges[buyer - 1] = charge;
        closing.discounts[buyer - 1] = discount;
        closing.payments[buyer - 1] = charge - discount;
    }
    closing
}
