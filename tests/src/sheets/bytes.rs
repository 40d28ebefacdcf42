//! Good sheets of every size, with each byte in turn given each value.

use crate::generator::{bytes_of, sizes, Generator};
use crate::tally::Tally;

pub fn compare(tally: &mut Tally, generator: &mut Generator) {
    tally.group("sheets with one byte of every value", |tally| {
        for (buyers, lots) in sizes() {
            let mut sheet = bytes_of(&generator.monotone(buyers, lots));
            for at in 0..sheet.len() {
                let byte = sheet[at];
                for value in 0..=u8::MAX {
                    sheet[at] = value;
                    tally.sheet(&sheet);
                }
                sheet[at] = byte;
            }
        }
    });
}
