//! A search for a gain: pairs of sheets, with a buyer's true table and with another in its place.
//! By the true table the first answer brings it no less than the second (rule 5.15).

use crate::generator::Generator;
use crate::reckoning::sale::record_needed;
use crate::reckoning::sheet::{bundles, MOST_BUNDLES};
use crate::tally::{Pair, Tally};

/// Buyers, lots and the greatest worth of sheets whose sales are short.
const SIZES: [(usize, usize, u16); 10] = [
    (1, 2, 12),
    (2, 1, 12),
    (2, 2, 3),
    (2, 2, 12),
    (3, 1, 12),
    (3, 2, 3),
    (3, 2, 12),
    (2, 3, 12),
    (4, 3, 3),
    (4, 3, 12),
];

/// Pairs drawn.
const DRAWN: usize = 100_000;

pub fn compare(tally: &mut Tally, generator: &mut Generator) {
    tally.group("gains by another table", |tally| {
        for _ in 0..DRAWN {
            let pair = pair(generator);
            let needed = [&pair.first, &pair.second].map(record_needed);
            tally.pair(&pair, needed.map(|length| generator.bytes(length)));
        }
    });
}

/// A sheet, and the same with another table for one of its buyers.
fn pair(generator: &mut Generator) -> Pair {
    let (buyers, lots, top) = generator.pick(&SIZES);
    let first = generator.monotone_up_to(buyers, lots, top);
    let buyer = 1 + generator.below(buyers);
    let mut second = first.clone();
    alter(generator, &mut second.worths[buyer - 1], lots, top);
    Pair {
        buyer,
        first,
        second,
    }
}

/// Draws the row anew; or makes all bundles worth more, or less, by the same; or makes one bundle
/// worth no less than a number, or no more. Question 8 still gets a yes.
fn alter(generator: &mut Generator, row: &mut [u16; MOST_BUNDLES], lots: usize, top: u16) {
    let number = generator.below(1 + usize::from(top)) as u16;
    let chosen = 1 + generator.below(bundles(lots));
    let way = generator.below(5);
    if way == 0 {
        *row = generator.monotone_up_to(1, lots, top).worths[0];
        return;
    }
    for (bundle, worth) in row[..=bundles(lots)].iter_mut().enumerate().skip(1) {
        match way {
            1 => *worth += number,
            2 => *worth = worth.saturating_sub(number),
            // With the bundles that hold the chosen one.
            3 if bundle & chosen == chosen => *worth = number.max(*worth),
            // With the bundles that the chosen one holds.
            4 if bundle & chosen == bundle => *worth = number.min(*worth),
            _ => {}
        }
    }
}
