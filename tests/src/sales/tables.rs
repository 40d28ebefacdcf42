//! Every sheet of a size with worths up to a small top, accepted or not.

use crate::generator::{bytes_of, Generator};
use crate::reckoning::sale::record_needed;
use crate::reckoning::sheet::{bundles, Sheet, Table};
use crate::tally::Tally;

/// Buyers, lots and the greatest worth.
const SIZES: [(usize, usize, usize); 3] = [(2, 2, 3), (3, 1, 5), (3, 2, 2)];

pub fn compare(tally: &mut Tally, generator: &mut Generator) {
    for (buyers, lots, top) in SIZES {
        let name = format!("sales of all tables of {buyers} × {lots} up to {top}");
        tally.group(&name, |tally| {
            let fields = (buyers * bundles(lots)) as u32;
            for arrangement in 0..(top + 1).pow(fields) {
                let sheet = sheet(buyers, lots, top, arrangement);
                let record = generator.bytes(record_needed(&sheet));
                tally.sale(&bytes_of(&sheet), &record);
            }
        });
    }
}

/// The sheet whose worths are the arrangement's digits, base top + 1.
pub(crate) fn sheet(buyers: usize, lots: usize, top: usize, arrangement: usize) -> Sheet {
    let mut rest = arrangement;
    let mut worths = Table::default();
    for row in &mut worths[..buyers] {
        for worth in &mut row[1..=bundles(lots)] {
            *worth = (rest % (top + 1)) as u16;
            rest /= top + 1;
        }
    }
    Sheet {
        buyers,
        lots,
        worths,
    }
}
