//! Every top, and some above the greatest (question 7, rule 12.5), each with sheets of two sizes.

use super::trial;
use crate::generator::Generator;
use crate::reckoning::sheet::{refuse, GREATEST_WORTH};
use crate::tally::Tally;
use crate::writing::LONGEST;

/// Past those that are asked about.
const TOPS: u32 = 10_100;

/// Buyers and lots: one worth, and some of which many are cut to 9,999.
const SIZES: [(usize, usize); 2] = [(1, 1), (2, 3)];

/// Sheet numbers are below this.
const NUMBERS: usize = 10;

pub fn compare(tally: &mut Tally, generator: &mut Generator) {
    tally.group("trial sheets of every top", |tally| {
        for top in 0..TOPS {
            for size in SIZES {
                let trial = trial(generator.below(NUMBERS) as u16, size, top);
                let buffer = generator.bytes(LONGEST);
                if top > u32::from(GREATEST_WORTH) {
                    tally.known_trial(&trial, &buffer, &refuse(7, 0));
                } else {
                    tally.trial(&trial, &buffer);
                }
            }
        }
    });
}
