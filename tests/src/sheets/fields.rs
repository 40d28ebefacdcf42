//! Fields by themselves: at all columns of sheets, over all arrangements of the bytes at the edges
//! of the classes, and of every number.

use crate::generator::{bytes_of, sizes, Generator};
use crate::reckoning::sheet::{Field, FIELD};
use crate::tally::Tally;

/// Blanks, zeros and digits, with the foreign bytes next to them.
const EDGES: [u8; 8] = [31, 32, 33, 47, 48, 49, 57, 58];

/// Numbers of at most six digits.
const NUMBERS: u32 = 1_000_000;

pub fn compare(tally: &mut Tally, generator: &mut Generator) {
    tally.group("fields at all columns of sheets", |tally| {
        for (buyers, lots) in sizes() {
            let sheet = bytes_of(&generator.monotone(buyers, lots));
            let columns = (0..=sheet.len() + FIELD).chain(usize::MAX - FIELD..=usize::MAX);
            for at in columns {
                tally.field(&sheet, at);
            }
        }
    });
    tally.group("fields of bytes at the edges of the classes", |tally| {
        for arrangement in 0..EDGES.len().pow(FIELD as u32) {
            tally.field(&edge_field(arrangement), 0);
        }
    });
    tally.group("fields of every number", |tally| {
        for number in 0..NUMBERS {
            let known = Field {
                number: Ok(number),
                next: FIELD,
            };
            tally.known_field(format!("{number:6}").as_bytes(), 0, &known);
        }
    });
}

/// The field whose bytes are the edges at the arrangement's digits, base eight.
fn edge_field(arrangement: usize) -> [u8; FIELD] {
    let mut rest = arrangement;
    [(); FIELD].map(|()| {
        let byte = EDGES[rest % EDGES.len()];
        rest /= EDGES.len();
        byte
    })
}
