//! The prices of sales of every size: after each round, and the last ones with an entry changed.

use super::Answers;
use crate::generator::{bytes_of, sizes, Generator};
use crate::reckoning::demand::Prices;
use crate::reckoning::round::{Market, Round};
use crate::reckoning::settled::without_equilibrium;
use crate::reckoning::sheet::{bundles, Sheet, MOST_BUYERS};
use crate::tally::Tally;

/// Sheets drawn for each size.
const DRAWN: usize = 100;

/// The greatest worths.
const TOPS: [u16; 4] = [1, 3, 6, 12];

/// Times that an entry is changed of the last prices, and of the worths taken as prices.
const CHANGED: usize = 10;

/// Each answer is given so many times at least, at the tables of a size with an entry changed.
const LEAST: usize = 200;

/// With each number of buyers, each economy is so many times at least the only one without an
/// equilibrium. The economy of all hardly ever is with more buyers than these.
const ALONE: usize = 5;
const FEW_BUYERS: usize = 4;

pub fn compare(tally: &mut Tally, generator: &mut Generator) {
    tally.group("settled at the prices of sales", |tally| {
        let mut alone = [[0; 1 + MOST_BUYERS]; MOST_BUYERS];
        for (buyers, lots) in sizes() {
            let mut answers = Answers::default();
            for _ in 0..DRAWN {
                let top = generator.pick(&TOPS);
                let sheet = generator.monotone_up_to(buyers, lots, top);
                let market = Market::new(&sheet);
                let mut tables = rounds(&market);
                ask(tally, &sheet, &tables);
                tables.extend(ask_changed(tally, generator, &sheet, &mut answers, &tables));
                for prices in &tables {
                    if let [place] = without_equilibrium(&market, prices)[..] {
                        alone[buyers - 1][place] += 1;
                    }
                }
            }
            answers.occur(tally, &format!("{buyers} × {lots}"), LEAST);
        }
        for (buyers, counts) in (1..).zip(&alone) {
            occur(tally, buyers, counts);
        }
    });
}

/// Asks at the prices after each round: none but the last are settled.
fn ask(tally: &mut Tally, sheet: &Sheet, tables: &[Prices]) {
    for (place, prices) in (1..).zip(tables) {
        let settled = place == tables.len();
        tally.known_settled(&bytes_of(sheet), prices, &Ok(settled));
    }
}

/// Asks at tables that differ in one entry from the last prices of a sale, or from the worths, which
/// both are settled; and answers these tables.
fn ask_changed(
    tally: &mut Tally,
    generator: &mut Generator,
    sheet: &Sheet,
    answers: &mut Answers,
    tables: &[Prices],
) -> Vec<Prices> {
    let mut asked = Vec::new();
    for prices in tables.last().into_iter().chain([&sheet.worths]) {
        for _ in 0..CHANGED {
            let prices = changed(generator, sheet, prices);
            answers.add(tally.settled(&bytes_of(sheet), &prices));
            asked.push(prices);
        }
    }
    asked
}

/// Counts whether economies were alone without an equilibrium, with a number of buyers. Without a
/// sole buyer there always is one.
fn occur(tally: &mut Tally, buyers: usize, counts: &[usize]) {
    let all = (buyers <= FEW_BUYERS).then_some(0);
    let others = (1..=buyers).filter(|_| buyers > 1);
    for place in all.into_iter().chain(others) {
        let what = format_args!("economy {place} of {buyers} buyers alone");
        tally.occurs(what, counts[place], ALONE);
    }
}

/// The prices of a sale, from the zeros to the last.
fn rounds(market: &Market) -> Vec<Prices> {
    let mut tables = Vec::new();
    let mut prices = Prices::default();
    loop {
        tables.push(prices);
        let round = Round::new(market, &prices);
        let Some(set) = round.lowest_undersupplied() else {
            return tables;
        };
        round.raise(set, &mut prices);
    }
}

/// The table with one entry 1 higher, or 1 lower if it is not 0.
fn changed(generator: &mut Generator, sheet: &Sheet, prices: &Prices) -> Prices {
    let row = generator.below(sheet.buyers);
    let bundle = 1 + generator.below(bundles(sheet.lots));
    let higher = generator.below(2) == 1;
    let mut changed = *prices;
    let price = &mut changed[row][bundle];
    *price = if higher {
        *price + 1
    } else {
        price.saturating_sub(1)
    };
    changed
}
