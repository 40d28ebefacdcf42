//! The sales of trial sheets of every size (rule 12.7): most with small tops, some with great ones.

use super::trial;
use crate::generator::{sizes, Generator};
use crate::reckoning::print::LONGEST_RECORD;
use crate::reckoning::sale::record_needed;
use crate::reckoning::trial::{draw_sheet, Trial};
use crate::tally::Tally;

/// Tops, with the sheets of each size: some 5,000 in all. Sales with great tops are the longest.
const TOPS: [(u32, usize); 8] = [
    (0, 34),
    (1, 34),
    (2, 34),
    (5, 34),
    (12, 34),
    (100, 34),
    (4_000, 3),
    (9_999, 3),
];

/// Sheet numbers are below this.
const NUMBERS: usize = 200;

pub fn compare(tally: &mut Tally, generator: &mut Generator) {
    tally.group("sales of trial sheets", |tally| {
        for size in sizes() {
            for (top, drawn) in TOPS {
                for _ in 0..drawn {
                    sell(tally, generator, size, top);
                }
            }
        }
    });
}

/// With a record of exactly question 9's sum, or of the length that is enough for every sheet.
fn sell(tally: &mut Tally, generator: &mut Generator, size: (usize, usize), top: u32) {
    let trial = trial(generator.below(NUMBERS) as u16, size, top);
    let length = generator.pick(&[needed(&trial), LONGEST_RECORD]);
    tally.trial_sale(&trial, generator.bytes(length));
}

/// Question 9's sum.
fn needed(trial: &Trial) -> usize {
    let sheet = draw_sheet(trial).expect("the numbers are in range");
    record_needed(&sheet)
}
