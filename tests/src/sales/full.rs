//! Sheets of six buyers and four lots with worths up to 9,999, whose sales are of the longest.

use crate::generator::{bytes_of, Generator};
use crate::reckoning::sale::record_needed;
use crate::tally::Tally;

/// Sheets drawn.
const DRAWN: usize = 2;

pub fn compare(tally: &mut Tally, generator: &mut Generator) {
    tally.group("sales of full sheets", |tally| {
        for _ in 0..DRAWN {
            let sheet = generator.full();
            let record = generator.bytes(record_needed(&sheet));
            tally.sale(&bytes_of(&sheet), &record);
        }
    });
}
