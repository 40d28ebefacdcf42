//! Records of every kind of length, with old bytes of every kind. The sale writes a byte for each
//! round and leaves the others as they were (rule 4.12).

use crate::generator::{bytes_of, Generator};
use crate::reckoning::sale::record_needed;
use crate::reckoning::sheet::Refusal;
use crate::tally::Tally;

/// Sheets drawn.
const DRAWN: usize = 500;

/// The most bytes that a record has beyond question 9's sum.
const SPARE: usize = 300;

/// The byte of records filled with one.
const FILLINGS: [u8; 3] = [0, 1, 0xff];

pub fn compare(tally: &mut Tally, generator: &mut Generator) {
    tally.group("records of all lengths", |tally| {
        for _ in 0..DRAWN {
            let (buyers, lots) = generator.size();
            let top = generator.pick(&[1, 3, 6, 12]);
            let sheet = generator.monotone_up_to(buyers, lots, top);
            let (bytes, needed) = (bytes_of(&sheet), record_needed(&sheet));
            long_enough(tally, generator, &bytes, needed);
            too_short(tally, generator, &bytes, needed);
        }
    });
}

/// Records of exactly question 9's sum, one byte more and many more.
fn long_enough(tally: &mut Tally, generator: &mut Generator, sheet: &[u8], needed: usize) {
    for length in [needed, needed + 1, needed + generator.below(SPARE)] {
        tally.sale(sheet, &generator.bytes(length));
        for byte in FILLINGS {
            tally.sale(sheet, &vec![byte; length]);
        }
    }
}

/// Records one byte short, of any shorter length, and empty.
fn too_short(tally: &mut Tally, generator: &mut Generator, sheet: &[u8], needed: usize) {
    if needed == 0 {
        return;
    }
    let refusal = Err(Refusal {
        number: 9,
        place: 0,
    });
    for length in [needed - 1, generator.below(needed), 0] {
        tally.known_sale(sheet, &generator.bytes(length), &refusal);
    }
}
