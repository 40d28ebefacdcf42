//! Sheet numbers spread up to the greatest, and those at the edges of narrower numbers, with sheets
//! of any size and top. Draws are thrown away by the million (rule 12.3).

use super::{any_top, trial};
use crate::generator::Generator;
use crate::tally::Tally;
use crate::writing::LONGEST;

/// Numbers as far from each other as can be, the last of which is the greatest.
const SPREAD: u32 = 35;

const EDGES: [u16; 5] = [255, 256, 32_767, 32_768, 65_534];

/// Sheets of each number.
const DRAWN: usize = 4;

pub fn compare(tally: &mut Tally, generator: &mut Generator) {
    let spread = (1..=SPREAD).map(|part| (u32::from(u16::MAX) * part / SPREAD) as u16);
    tally.group("trial sheets of high numbers", |tally| {
        for number in spread.chain(EDGES) {
            for _ in 0..DRAWN {
                let trial = trial(number, generator.size(), any_top(generator));
                tally.trial(&trial, &generator.bytes(LONGEST));
            }
        }
    });
}
