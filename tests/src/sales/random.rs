//! Random sheets of every size with small worths, sheets of every size with worths all 0, and small
//! sizes with large worths.

use crate::generator::{bytes_of, sizes, Generator};
use crate::reckoning::sale::record_needed;
use crate::tally::Tally;

/// The greatest worths of the sheets of every size. With the least of them most bundles tie.
const TOPS: [u16; 5] = [1, 2, 3, 6, 12];

/// Sheets drawn for each size and greatest worth.
const DRAWN: usize = 300;

/// The bytes of the records of sales that have no round.
const SPARE: usize = 8;

/// Buyers, lots and the greatest worth of sheets whose sales stay short enough.
pub const LARGE: [(usize, usize, u16); 8] = [
    (1, 4, 9_999),
    (2, 1, 9_999),
    (3, 1, 9_999),
    (6, 1, 2_000),
    (2, 2, 2_000),
    (2, 4, 300),
    (3, 2, 500),
    (3, 3, 100),
];

/// Sheets drawn for each of these.
const LARGE_DRAWN: usize = 100;

pub fn compare(tally: &mut Tally, generator: &mut Generator) {
    tally.group("sales of random sheets of every size", |tally| {
        for (buyers, lots) in sizes() {
            for top in TOPS {
                for _ in 0..DRAWN {
                    sell(tally, generator, (buyers, lots, top));
                }
            }
        }
    });
    tally.group("sales of sheets with worths all 0", |tally| {
        for (buyers, lots) in sizes() {
            let sheet = bytes_of(&generator.monotone_up_to(buyers, lots, 0));
            for length in [0, SPARE] {
                tally.sale(&sheet, &generator.bytes(length));
            }
        }
    });
    tally.group("sales of random sheets with large worths", |tally| {
        for size in LARGE {
            for _ in 0..LARGE_DRAWN {
                sell(tally, generator, size);
            }
        }
    });
}

fn sell(tally: &mut Tally, generator: &mut Generator, (buyers, lots, top): (usize, usize, u16)) {
    let sheet = generator.monotone_up_to(buyers, lots, top);
    let record = generator.bytes(record_needed(&sheet));
    tally.sale(&bytes_of(&sheet), &record);
}
