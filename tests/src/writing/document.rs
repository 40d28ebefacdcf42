//! The sheets of the rules (sections 6 and 7), written from their worths (rules 11.2 and 11.5), and
//! lists with the refusals of rules 11.3 and 11.4.

use crate::generator::Generator;
use crate::reckoning::sheet::Refusal;
use crate::reckoning::writing::List;
use crate::sheets::document::{sheet_of, ACCEPTED};
use crate::tally::Tally;
use crate::writing::LONGEST;

/// Refused lists: buyers, lots, worths, the length of the buffer, and the number.
const REFUSED: [(u32, u32, &[u32], usize, u8); 22] = [
    (0, 1, &[], LONGEST, 3),
    (0, 0, &[], LONGEST, 3),
    (7, 1, &[0; 7], LONGEST, 3),
    (u32::MAX, u32::MAX, &[], LONGEST, 3),
    (1, 0, &[], LONGEST, 4),
    (6, 5, &[0; 186], LONGEST, 4),
    (1, u32::MAX, &[], LONGEST, 4),
    (1, 1, &[], LONGEST, 5),
    (1, 1, &[7, 7], LONGEST, 5),
    (2, 2, &[2, 0, 2, 0, 1], LONGEST, 5),
    (1, 1, &[10_000, 10_000], LONGEST, 5),
    (1, 1, &[10_000], LONGEST, 7),
    (1, 1, &[65_541], LONGEST, 7),
    (1, 1, &[u32::MAX], LONGEST, 7),
    // Question 7 is put to all of the list before question 8 is (rule 11.3).
    (2, 2, &[4, 0, 3, 0, 0, 10_000], LONGEST, 7),
    (1, 1, &[10_000], 0, 7),
    (2, 2, &[4, 0, 3, 0, 1, 3], LONGEST, 8),
    (2, 2, &[2, 0, 2, 0, 4, 3], LONGEST, 8),
    (1, 2, &[4, 0, 3], 0, 8),
    (1, 1, &[7], 19, 11),
    (1, 1, &[7], 0, 11),
    (6, 4, &[7; 90], 558, 11),
];

pub fn compare(tally: &mut Tally, generator: &mut Generator) {
    tally.group("writing the sheets of the rules", |tally| {
        for (text, lots, rows) in ACCEPTED {
            let list = List::of(&sheet_of(lots, rows));
            let known = Ok(Vec::from(text));
            for length in [text.len(), LONGEST] {
                tally.known_writing(&list, &generator.bytes(length), &known);
            }
            tally.own_buffer(&list);
        }
        for (buyers, lots, worths, length, number) in REFUSED {
            let list = List::new(buyers, lots, worths);
            let known = Err(Refusal { number, place: 0 });
            tally.known_writing(&list, &generator.bytes(length), &known);
            tally.own_buffer(&list);
        }
    });
}
