//! Good sheets cut short or made longer, to every length.

use crate::generator::{bytes_of, sizes, Generator};
use crate::reckoning::sheet::{line, LINE_END};
use crate::tally::Tally;

/// Past the longest sheet that can be accepted.
const LONGEST: usize = 600;

/// The bytes that sheets are padded with.
const PADDING: [u8; 5] = [b' ', LINE_END, b'0', 0, 0xff];

pub fn compare(tally: &mut Tally, generator: &mut Generator) {
    tally.group("sheets cut or padded to every length", |tally| {
        for (buyers, lots) in sizes() {
            let sheet = bytes_of(&generator.monotone(buyers, lots));
            for length in 0..=sheet.len() {
                tally.sheet(&sheet[..length]);
            }
            for byte in PADDING {
                lengthen(tally, &sheet, &[byte]);
            }
            lengthen(tally, &sheet, &sheet[sheet.len() - line(lots)..]);
        }
    });
}

/// Pads the sheet to every further length by a pattern repeated.
fn lengthen(tally: &mut Tally, sheet: &[u8], pattern: &[u8]) {
    let longer: Vec<u8> = sheet
        .iter()
        .chain(pattern.iter().cycle())
        .copied()
        .take(LONGEST)
        .collect();
    for length in sheet.len() + 1..=LONGEST {
        tally.sheet(&longer[..length]);
    }
}
