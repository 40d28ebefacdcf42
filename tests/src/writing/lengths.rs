//! Lists of every length for sheets of every size, and of lengths that would be right if they were
//! narrowed (question 5, rule 11.4).

use super::{refused, LONGEST};
use crate::generator::{bytes_of, sizes, Generator};
use crate::reckoning::sheet::Sheet;
use crate::reckoning::writing::List;
use crate::tally::Tally;

/// Past the longest list that can be written, which has 90 numbers.
const MOST: usize = 100;

/// What the lists are made longer with: a worth, and numbers that question 7 would refuse.
const PADDING: [u32; 3] = [0, 10_000, u32::MAX];

pub fn compare(tally: &mut Tally, generator: &mut Generator) {
    tally.group("writing lists of every length", |tally| {
        for (buyers, lots) in sizes() {
            let sheet = generator.monotone(buyers, lots);
            for length in 0..=MOST {
                resized(tally, generator, &sheet, length);
            }
            let right = List::of(&sheet).worths.len();
            for more in [1 << 8, 1 << 16] {
                resized(tally, generator, &sheet, right + more);
            }
        }
    });
}

/// The sheet's list, cut or made longer to this length.
fn resized(tally: &mut Tally, generator: &mut Generator, sheet: &Sheet, length: usize) {
    let right = List::of(sheet);
    if length == right.worths.len() {
        tally.known_writing(&right, &generator.bytes(LONGEST), &Ok(bytes_of(sheet)));
        return;
    }
    for number in PADDING {
        let mut list = right.clone();
        list.worths.resize(length, number);
        refused(tally, generator, &list, 5);
    }
}
