//! Buffers of every length, for sheets of every size and for lists that are refused. The bytes after
//! a sheet stay as they were, and with a refusal all do (rule 11.5).

use super::LONGEST;
use crate::generator::{bytes_of, sizes, Generator};
use crate::reckoning::sheet::refuse;
use crate::reckoning::writing::List;
use crate::tally::{Tally, Written};

/// Lengths that would be too short if they were narrowed to 16 bits.
const MORE: [usize; 2] = [1 << 16, (1 << 16) + 13];

/// Sheets drawn for each size.
const DRAWN: usize = 2;

/// Two buyers and two lots, or other numbers of them, and worths that are refused by a number.
const REFUSED: [(u32, u32, &[u32], u8); 7] = [
    (7, 2, &[2, 0, 2, 0, 1, 3], 3),
    (2, 5, &[2, 0, 2, 0, 1, 3], 4),
    (2, 2, &[2, 0, 2, 0, 1], 5),
    (2, 2, &[2, 0, 2, 0, 1, 3, 3], 5),
    (2, 2, &[2, 0, 2, 0, 1, 10_000], 7),
    (2, 2, &[2, 0, 1, 0, 1, 3], 8),
    (2, 2, &[2, 0, 2, 0, 1, 0], 8),
];

pub fn compare(tally: &mut Tally, generator: &mut Generator) {
    tally.group("writing into buffers of every length", |tally| {
        for (buyers, lots) in sizes() {
            for _ in 0..DRAWN {
                let sheet = generator.monotone(buyers, lots);
                write(tally, generator, &List::of(&sheet), &Ok(bytes_of(&sheet)));
            }
        }
        for (buyers, lots, worths, number) in REFUSED {
            let list = List::new(buyers, lots, worths);
            write(tally, generator, &list, &refuse(number, 0));
        }
    });
}

/// Writes a list into buffers of every length; what would be written is known.
fn write(tally: &mut Tally, generator: &mut Generator, list: &List, known: &Written) {
    every_length(generator, known, |buffer, known| {
        tally.known_writing(list, buffer, known);
    });
}

/// Buffers of every length, each with what is known of writing into it; the sheet, or the refusal,
/// is known. Question 11 comes after all others (rules 11.3, 11.4 and 12.5).
pub fn every_length(
    generator: &mut Generator,
    known: &Written,
    mut compare: impl FnMut(&[u8], &Written),
) {
    let too_short = refuse(11, 0);
    for length in (0..=LONGEST).chain(MORE) {
        let fits = known.as_ref().map_or(true, |sheet| sheet.len() <= length);
        let known = if fits { known } else { &too_short };
        compare(&generator.bytes(length), known);
    }
}
