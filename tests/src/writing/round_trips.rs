//! Sheets of every size, written from their worths and read again, and read and written again (rule
//! 11.6).

use crate::generator::{bytes_of, sizes, Generator};
use crate::reckoning::sheet::{length, Sheet};
use crate::tally::Tally;

/// Sheets drawn for each size and each way round: some 200,000 of all sizes.
const DRAWN: usize = 8_400;

/// Buffers have fewer bytes than this beyond the sheet.
const SPARE: usize = 30;

pub fn compare(tally: &mut Tally, generator: &mut Generator) {
    tally.group("sheets written and read", |tally| {
        each_sheet(generator, |sheet, buffer| tally.written_read(sheet, buffer));
    });
    tally.group("sheets read and written", |tally| {
        each_sheet(generator, |sheet, buffer| {
            tally.read_written(&bytes_of(sheet), buffer);
        });
    });
}

/// Sheets of every size, each with a buffer that has room for it.
fn each_sheet(generator: &mut Generator, mut compare: impl FnMut(&Sheet, &[u8])) {
    for (buyers, lots) in sizes() {
        for _ in 0..DRAWN {
            let sheet = generator.monotone(buyers, lots);
            let spare = generator.below(SPARE);
            compare(&sheet, &generator.bytes(length(buyers, lots) + spare));
        }
    }
}
