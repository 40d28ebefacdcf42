//! Buffers of every length, for trial sheets of every size and for numbers that are refused. The
//! bytes after a sheet stay as they were, and with a refusal all do (rule 12.6).

use super::{any_top, trial};
use crate::generator::{sizes, Generator};
use crate::reckoning::sheet::refuse;
use crate::reckoning::trial::{drawn_sheet, Trial};
use crate::tally::{Tally, Written};
use crate::writing::buffers::every_length;

/// Sheet numbers are below this.
const NUMBERS: usize = 20;

/// Buyers, lots and a top that are refused by a number.
const REFUSED: [((usize, usize), u32, u8); 6] = [
    ((0, 2), 5, 3),
    ((7, 2), 5, 3),
    ((2, 0), 5, 4),
    ((2, 5), 5, 4),
    ((2, 2), 10_000, 7),
    ((6, 4), 10_000, 7),
];

pub fn compare(tally: &mut Tally, generator: &mut Generator) {
    tally.group("trial sheets in buffers of every length", |tally| {
        for size in sizes() {
            let number = generator.below(NUMBERS) as u16;
            let trial = trial(number, size, any_top(generator));
            write(tally, generator, &trial, &drawn_sheet(&trial));
        }
        for (size, top, number) in REFUSED {
            let trial = trial(generator.below(NUMBERS) as u16, size, top);
            write(tally, generator, &trial, &refuse(number, 0));
        }
    });
}

/// Writes a trial sheet into buffers of every length; what would be written is known.
fn write(tally: &mut Tally, generator: &mut Generator, trial: &Trial, known: &Written) {
    every_length(generator, known, |buffer, known| {
        tally.known_trial(trial, buffer, known);
    });
}
