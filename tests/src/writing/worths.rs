//! Every worth by itself, and worths at the edges of question 7 at every place of a list (rules 3.7
//! and 11.4).

use super::{refused, LONGEST, TOO_HIGH};
use crate::generator::{bytes_of, sizes, Generator};
use crate::reckoning::sheet::{bundles, Sheet, Table, GREATEST_WORTH};
use crate::reckoning::writing::List;
use crate::tally::Tally;

/// Numbers of one list each, past those that 16 bits can have.
const NUMBERS: u32 = 70_000;

pub fn compare(tally: &mut Tally, generator: &mut Generator) {
    tally.group("writing every worth", |tally| {
        for number in 0..NUMBERS {
            let list = List::new(1, 1, [number]);
            if number > u32::from(GREATEST_WORTH) {
                refused(tally, generator, &list, 7);
                continue;
            }
            let sheet = format!("     1     1\n{number:6}\n");
            let buffer = generator.bytes(LONGEST);
            tally.known_writing(&list, &buffer, &Ok(sheet.into_bytes()));
        }
    });
    tally.group("writing worths at the edge at every place", |tally| {
        for (buyers, lots) in sizes() {
            for place in 0..buyers * bundles(lots) {
                one_high(tally, generator, buyers, lots, place);
            }
        }
    });
}

/// One worth at the edge among zeros, where no bundle with its lots is worth less; and one too high
/// among zeros, and among the greatest worths.
fn one_high(
    tally: &mut Tally,
    generator: &mut Generator,
    buyers: usize,
    lots: usize,
    place: usize,
) {
    let (row, bundle) = (place / bundles(lots), place % bundles(lots) + 1);
    let mut worths = Table::default();
    for larger in (bundle..=bundles(lots)).filter(|larger| larger & bundle == bundle) {
        worths[row][larger] = GREATEST_WORTH;
    }
    let sheet = Sheet {
        buyers,
        lots,
        worths,
    };
    let edge = List::of(&sheet);
    tally.known_writing(&edge, &generator.bytes(LONGEST), &Ok(bytes_of(&sheet)));
    for worth in [0, GREATEST_WORTH] {
        let mut list = edge.clone();
        list.worths.fill(worth.into());
        for high in TOO_HIGH {
            list.worths[place] = high;
            refused(tally, generator, &list, 7);
        }
    }
}
