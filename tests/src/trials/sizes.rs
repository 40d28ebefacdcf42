//! Trial sheets of every size, with the first sheet numbers and each of some tops.

use super::{trial, TOPS};
use crate::generator::{sizes, Generator};
use crate::tally::Tally;
use crate::writing::LONGEST;

/// Sheet numbers from 0 on.
const NUMBERS: u16 = 200;

/// One in so many sheet numbers is drawn into the crate's own buffer too.
const OWN: u16 = 10;

pub fn compare(tally: &mut Tally, generator: &mut Generator) {
    tally.group("trial sheets of every size", |tally| {
        for size in sizes() {
            for number in 0..NUMBERS {
                for top in TOPS {
                    let trial = trial(number, size, top);
                    tally.trial(&trial, &generator.bytes(LONGEST));
                    if number % OWN == 0 {
                        tally.own_trial(&trial);
                    }
                }
            }
        }
    });
}
