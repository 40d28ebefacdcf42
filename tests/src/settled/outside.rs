//! Prices that are brought from outside, for sheets of every size.

use super::Answers;
use crate::generator::{bytes_of, sizes, Generator};
use crate::prices::{choose, Choice, NEVER_READ};
use crate::reckoning::demand::Prices;
use crate::reckoning::sheet::{bundles, Refusal, Sheet};
use crate::sales::demands::READ;
use crate::tally::Tally;

/// Sheets drawn for each size.
const DRAWN: usize = 60;

/// Tables drawn for each size at which a buyer has one payoff from all bundles.
const LEVEL: usize = 3_000;

/// The greatest worths. With the least of them most bundles tie.
const TOPS: [u16; 4] = [1, 3, 100, 9_999];

/// Each answer is given so many times at least: in all, and of level payoffs for each size.
const LEAST: usize = 1_000;
const LEAST_LEVEL: usize = 100;

pub fn compare(tally: &mut Tally, generator: &mut Generator) {
    tally.group("settled at prices from outside", |tally| {
        let mut answers = Answers::default();
        for (buyers, lots) in sizes() {
            for _ in 0..DRAWN {
                let top = generator.pick(&TOPS);
                let sheet = generator.monotone_up_to(buyers, lots, top);
                for choice in READ {
                    answers.add(ask(tally, generator, &sheet, choice));
                }
            }
        }
        answers.occur(tally, "prices from outside", LEAST);
    });
    tally.group("settled with level payoffs", |tally| {
        for (buyers, lots) in sizes() {
            let mut answers = Answers::default();
            for _ in 0..LEVEL {
                let top = generator.pick(&TOPS);
                let sheet = generator.monotone_up_to(buyers, lots, top);
                let prices = level(generator, &sheet, top.into());
                answers.add(tally.settled(&bytes_of(&sheet), &prices));
            }
            // A sole buyer always gets what it demands.
            if buyers > 1 {
                answers.occur(tally, &format!("{buyers} × {lots}"), LEAST_LEVEL);
            }
        }
    });
    tally.group("settled where nothing is worth anything", |tally| {
        for (buyers, lots) in sizes() {
            let sheet = bytes_of(&generator.monotone_up_to(buyers, lots, 0));
            tally.known_settled(&sheet, &Prices::default(), &Ok(true));
            for row in 0..buyers {
                for bundle in 1..=bundles(lots) {
                    // Nobody is keen, and no allocation fits.
                    let mut prices = Prices::default();
                    prices[row][bundle] = 1;
                    tally.known_settled(&sheet, &prices, &Ok(false));
                }
            }
        }
    });
}

/// Asks at one table, whatever stands in the entries that are never read: the answer has to be the
/// same. At prices that are the worths it is yes, and at the greatest ones no.
fn ask(
    tally: &mut Tally,
    generator: &mut Generator,
    sheet: &Sheet,
    choice: Choice,
) -> Result<bool, Refusal> {
    let bytes = bytes_of(sheet);
    let mut prices = Prices::default();
    choose(generator, sheet, &mut prices, true, choice);
    let settled = tally.settled(&bytes, &prices);
    match choice {
        Choice::Less(0) => tally.known_settled(&bytes, &prices, &Ok(true)),
        Choice::Only(u16::MAX) => tally.known_settled(&bytes, &prices, &Ok(false)),
        _ => {}
    }
    for rubbish in NEVER_READ {
        choose(generator, sheet, &mut prices, false, rubbish);
        tally.known_settled(&bytes, &prices, &settled);
    }
    settled
}

/// Prices at which all bundles bring a buyer the same payoff, or their worth if that is less: most
/// buyers 0, the others any up to the top.
fn level(generator: &mut Generator, sheet: &Sheet, top: usize) -> Prices {
    let mut prices = sheet.worths;
    for row in &mut prices[..sheet.buyers] {
        let payoffs = [0, 0, 0, generator.below(1 + top)];
        let payoff = generator.pick(&payoffs) as u16;
        for price in row {
            *price = price.saturating_sub(payoff);
        }
    }
    prices
}
