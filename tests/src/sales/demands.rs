//! Demand answers at prices brought from outside.

use crate::generator::{bytes_of, sizes, Generator};
use crate::prices::{choose, Choice, NEVER_READ};
use crate::reckoning::demand::{buyer_demand, Demand, Prices};
use crate::reckoning::sheet::Sheet;
use crate::sales::document::TABLE_3;
use crate::sales::refusals::refused;
use crate::tally::Tally;

/// Sheets drawn for each size.
const DRAWN: usize = 50;

/// Refused sheets drawn.
const REFUSED: usize = 5_000;

/// A row of table 4: each buyer's prices of bundles 1, 2 and 3, and its demand set with its
/// greatest payoff.
pub(crate) type Row = [([u16; 3], u16, i64); 3];

/// Table 4 of the paper. At payoff 0 the empty bundle is demanded too.
pub(crate) const TABLE_4: [Row; 8] = [
    [([0, 0, 0], 10, 3), ([0, 0, 0], 12, 6), ([0, 0, 0], 8, 4)],
    [([1, 0, 1], 10, 2), ([0, 0, 0], 12, 6), ([0, 0, 1], 8, 3)],
    [([1, 0, 1], 10, 2), ([0, 1, 1], 12, 5), ([0, 0, 1], 8, 3)],
    [([1, 0, 1], 10, 2), ([0, 1, 1], 12, 5), ([0, 0, 2], 12, 2)],
    [([1, 0, 1], 10, 2), ([0, 2, 2], 12, 4), ([0, 0, 2], 12, 2)],
    [([2, 0, 2], 10, 1), ([0, 2, 2], 12, 4), ([0, 0, 2], 12, 2)],
    [([2, 0, 2], 10, 1), ([0, 3, 3], 12, 3), ([0, 1, 3], 12, 1)],
    [([2, 0, 2], 10, 1), ([0, 4, 4], 12, 2), ([0, 2, 4], 15, 0)],
];

/// How the entries that are read are chosen.
pub(crate) const READ: [Choice; 9] = [
    Choice::Only(0),
    Choice::Only(u16::MAX),
    Choice::Any,
    Choice::Below(10_000),
    Choice::Near(1),
    Choice::Near(20),
    Choice::Less(0),
    Choice::Less(1),
    Choice::Less(100),
];

pub fn compare(tally: &mut Tally, generator: &mut Generator) {
    tally.group("demand answers of table 4", table_4);
    tally.group("demand answers at prices from outside", |tally| {
        for (buyers, lots) in sizes() {
            for _ in 0..DRAWN {
                let top = generator.pick(&[3, 100, 9_999]);
                let sheet = generator.monotone_up_to(buyers, lots, top);
                for choice in READ {
                    ask(tally, generator, &sheet, choice);
                }
            }
        }
    });
    tally.group("demand answers to refused sheets", |tally| {
        for _ in 0..REFUSED {
            let sheet = refused(generator);
            let mut prices = Prices::default();
            prices
                .as_flattened_mut()
                .fill_with(|| generator.draw() as u16);
            for buyer in [0, 1, 6, 7, u32::MAX] {
                tally.demand(&sheet, buyer, &prices);
            }
        }
    });
}

fn table_4(tally: &mut Tally) {
    for row in TABLE_4 {
        let prices = prices_of(&row);
        for (buyer, (_, bundles, payoff)) in (1..).zip(row) {
            let known = Ok(Demand { bundles, payoff });
            tally.known_demand(TABLE_3.as_bytes(), buyer, &prices, &known);
        }
    }
}

/// The table of a row's prices.
pub(crate) fn prices_of(row: &Row) -> Prices {
    let mut prices = Prices::default();
    for (buyer, (bundles, _, _)) in row.iter().enumerate() {
        prices[buyer][1..=3].copy_from_slice(bundles);
    }
    prices
}

/// Asks about the buyers present and some that are not, whatever stands in the entries that are
/// never read: the answer has to be the same.
fn ask(tally: &mut Tally, generator: &mut Generator, sheet: &Sheet, choice: Choice) {
    let bytes = bytes_of(sheet);
    let mut prices = Prices::default();
    choose(generator, sheet, &mut prices, true, choice);
    let clean = prices;
    for rubbish in NEVER_READ {
        choose(generator, sheet, &mut prices, false, rubbish);
        for buyer in asked(sheet.buyers as u32) {
            let known = buyer_demand(&bytes, buyer, &clean);
            tally.known_demand(&bytes, buyer, &prices, &known);
        }
    }
}

/// The buyers from 0 to one more than there are, the first past six, the greatest number, and one
/// whose lowest byte is 1.
fn asked(buyers: u32) -> impl Iterator<Item = u32> {
    (0..=buyers + 1).chain([7, 257, u32::MAX])
}
