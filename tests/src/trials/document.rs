//! Draws and trial sheets that are known: the draws of rule 12.2 and some later ones, and sheets
//! that follow from draws by hand (rules 12.3 and 12.4).

use super::trial;
use crate::generator::Generator;
use crate::reckoning::sheet::refuse;
use crate::reckoning::trial::Trial;
use crate::tally::Tally;
use crate::writing::LONGEST;

/// Draws by their places, from 1 on.
const DRAWS: [(u32, u32); 5] = [
    (1, 246_875_399),
    (2, 3_690_007_200),
    (3, 1_264_581_005),
    (101, 2_231_749_138),
    (6_553_501, 3_575_719_274),
];

/// Trial sheets: the sheet number, buyers and lots, the top, and the bytes.
const DRAWN: [(u16, (usize, usize), u32, &str); 9] = [
    (0, (1, 1), 9_999, "     1     1\n  5399\n"),
    (1, (1, 1), 9_999, "     1     1\n  9138\n"),
    (65_535, (1, 1), 9_999, "     1     1\n  9274\n"),
    (0, (3, 1), 9_999, "     3     1\n  5399\n  7200\n  1005\n"),
    (0, (1, 2), 9_999, "     1     2\n  5399  7200  8205\n"),
    // Draws 4 to 6 have the remainders 1041, 7943 and 5219, and the last worth is cut.
    (
        0,
        (2, 2),
        9_999,
        "     2     2\n  5399  7200  8205\n  1041  7943  9999\n",
    ),
    (0, (1, 2), 3_999, "     1     2\n  3399  3200  4404\n"),
    (0, (1, 2), 0, "     1     2\n     0     0     0\n"),
    (
        1,
        (2, 2),
        5,
        "     2     2\n     4     2     7\n     1     4     9\n",
    ),
];

/// Refused numbers: buyers, lots, the top, the length of the buffer, and the number.
const REFUSED: [(u32, u32, u32, usize, u8); 12] = [
    (0, 1, 5, LONGEST, 3),
    (7, 1, 5, LONGEST, 3),
    (0, 0, 10_000, 0, 3),
    (u32::MAX, 5, 5, LONGEST, 3),
    (1, 0, 5, LONGEST, 4),
    (6, 5, 5, LONGEST, 4),
    (6, u32::MAX, u32::MAX, 0, 4),
    (1, 1, 10_000, LONGEST, 7),
    (1, 1, u32::MAX, LONGEST, 7),
    (1, 1, 10_000, 0, 7),
    (1, 1, 9_999, 19, 11),
    (6, 4, 5, 558, 11),
];

pub fn compare(tally: &mut Tally, generator: &mut Generator) {
    tally.group("draws that are known", |tally| {
        for (place, known) in DRAWS {
            tally.known_draw(place, known);
        }
    });
    tally.group("trial sheets that are known", |tally| {
        for (number, size, top, text) in DRAWN {
            let trial = trial(number, size, top);
            for length in [text.len(), LONGEST] {
                tally.known_trial(&trial, &generator.bytes(length), &Ok(Vec::from(text)));
            }
            tally.own_trial(&trial);
        }
        for (buyers, lots, top, length, number) in REFUSED {
            let trial = Trial {
                number: 1,
                buyers,
                lots,
                top,
            };
            tally.known_trial(&trial, &generator.bytes(length), &refuse(number, 0));
            tally.own_trial(&trial);
        }
    });
}
