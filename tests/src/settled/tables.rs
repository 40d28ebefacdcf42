//! Every sheet of a size with worths up to a small top, accepted or not, at every table of prices up
//! to a small one.

use super::Answers;
use crate::generator::bytes_of;
use crate::reckoning::sheet::bundles;
use crate::sales::tables::sheet;
use crate::tally::Tally;

/// Buyers, lots, the greatest worth and the greatest price.
const SIZES: [(usize, usize, usize, usize); 5] = [
    (1, 1, 6, 8),
    (2, 1, 6, 7),
    (3, 1, 3, 4),
    (1, 2, 3, 4),
    (2, 2, 1, 2),
];

/// Each answer is given so many times at least.
const LEAST: usize = 20;

pub fn compare(tally: &mut Tally) {
    for (buyers, lots, top, most) in SIZES {
        let name = format!("all prices up to {most} of {buyers} × {lots} up to {top}");
        tally.group(&name, |tally| {
            let fields = (buyers * bundles(lots)) as u32;
            let mut answers = Answers::default();
            for worths in 0..(top + 1).pow(fields) {
                let bytes = bytes_of(&sheet(buyers, lots, top, worths));
                for arrangement in 0..(most + 1).pow(fields) {
                    // Prices stand as worths do.
                    let prices = sheet(buyers, lots, most, arrangement).worths;
                    answers.add(tally.settled(&bytes, &prices));
                }
            }
            answers.occur(tally, &name, LEAST);
        });
    }
}
