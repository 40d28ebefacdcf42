//! Refused sheets, damaged at random, with records of any length. A refusal has zeros but for its
//! number and place, and leaves the record as it was (rule 3.14).

use crate::generator::{bytes_of, field, Generator};
use crate::reckoning::sheet::{bundles, place, read_sheet, FIELD, FIRST_LINE, LINE_END};
use crate::tally::Tally;

/// Sheets drawn.
const DRAWN: usize = 20_000;

/// Records are shorter than this.
const LONGEST: usize = 400;

pub fn compare(tally: &mut Tally, generator: &mut Generator) {
    tally.group("sales of refused sheets", |tally| {
        for _ in 0..DRAWN {
            let sheet = refused(generator);
            let length = generator.below(LONGEST);
            tally.sale(&sheet, &generator.bytes(length));
            tally.sale(&sheet, &[]);
        }
    });
}

/// A good sheet, damaged until one of questions 1 to 8 refuses it.
pub fn refused(generator: &mut Generator) -> Vec<u8> {
    let (buyers, lots) = generator.size();
    let mut sheet = bytes_of(&generator.monotone_up_to(buyers, lots, 12));
    loop {
        damage(generator, &mut sheet, buyers, lots);
        if read_sheet(&sheet).is_err() {
            return sheet;
        }
    }
}

/// Gives one byte any value, one field any number, or the sheet another length.
fn damage(generator: &mut Generator, sheet: &mut Vec<u8>, buyers: usize, lots: usize) {
    match generator.below(5) {
        0 => {
            let at = generator.below(sheet.len());
            sheet[at] = generator.draw() as u8;
        }
        1 => {
            let at = generator.pick(&[0, FIELD]);
            write(generator, sheet, at, 10);
        }
        2 => {
            let (buyer, bundle) = (generator.below(buyers), generator.below(bundles(lots)));
            write(generator, sheet, place(lots, 1 + buyer, 1 + bundle), 20);
        }
        3 => {
            let (buyer, bundle) = (generator.below(buyers), generator.below(bundles(lots)));
            write(generator, sheet, place(lots, 1 + buyer, 1 + bundle), 20_000);
        }
        _ => {
            let length = generator.below(sheet.len() + FIRST_LINE);
            sheet.resize(length, LINE_END);
        }
    }
}

/// Writes the field of a number below the bound, if the sheet is still that long.
fn write(generator: &mut Generator, sheet: &mut [u8], at: usize, bound: usize) {
    let number = field(generator.below(bound));
    if let Some(columns) = sheet.get_mut(at..at + FIELD) {
        columns.copy_from_slice(&number);
    }
}
