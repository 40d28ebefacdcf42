//! Random sheets, from mere bytes to well-formed fields, and sizes out of range.

use crate::generator::{field, push_line, Generator};
use crate::reckoning::sheet::{
    bundles, length, Refusal, FIRST_LINE, LINE_END, MOST_BUYERS, MOST_LOTS,
};
use crate::tally::Tally;

/// Sheets drawn in each group.
const DRAWN: usize = 100_000;

/// Random sheets are shorter than this.
const LONGEST: usize = 600;

/// The bytes that a good sheet is made of.
const ALPHABET: &[u8] = b" 0123456789\n";

/// Numbers of buyers and of lots, in range and out of it.
const BUYERS: [usize; 11] = [0, 1, 2, 3, 4, 5, 6, 7, 8, 10, 999_999];
const LOTS: [usize; 9] = [0, 1, 2, 3, 4, 5, 6, 10, 999_999];

pub fn compare(tally: &mut Tally, generator: &mut Generator) {
    let mut group = |name: &str, make: fn(&mut Generator) -> Vec<u8>| {
        tally.group(name, |tally| {
            for _ in 0..DRAWN {
                tally.sheet(&make(generator));
            }
        });
    };
    group("random bytes", bytes);
    group("random bytes of the sheet's alphabet", letters);
    group(
        "random bytes after a good first line",
        letters_of_good_length,
    );
    group("random fields", fields);
    group("random first lines", first_lines);
    tally.group("sizes out of range", sizes_out_of_range);
}

fn bytes(generator: &mut Generator) -> Vec<u8> {
    let count = generator.below(LONGEST);
    generator.bytes(count)
}

fn letters(generator: &mut Generator) -> Vec<u8> {
    let count = generator.below(LONGEST);
    generator.bytes_from(ALPHABET, count)
}

/// Random bytes of the alphabet, to the length that the first line asks for.
fn letters_of_good_length(generator: &mut Generator) -> Vec<u8> {
    let (buyers, lots) = generator.size();
    let mut sheet = Vec::new();
    push_line(&mut sheet, [buyers, lots]);
    sheet.extend(generator.bytes_from(ALPHABET, length(buyers, lots) - FIRST_LINE));
    sheet
}

/// Lines of the right shape, whose numbers have a bound below, at or above 10,000, and now and then
/// zeros in front.
fn fields(generator: &mut Generator) -> Vec<u8> {
    let (buyers, lots) = generator.size();
    let bound = generator.pick(&[10, 10_000, 10_001, 10_100, 1_000_000]);
    let mut sheet = Vec::new();
    push_line(&mut sheet, [buyers, lots]);
    for _ in 0..buyers {
        for _ in 0..bundles(lots) {
            let number = generator.below(bound);
            if generator.below(50) == 0 {
                let digits = 1 + generator.below(6);
                let zeros = format!("{number:0digits$}");
                sheet.extend(format!("{zeros:>6}").bytes());
            } else {
                sheet.extend(field(number));
            }
        }
        sheet.push(LINE_END);
    }
    sheet
}

/// Any two numbers in the first line, before a line of worths.
fn first_lines(generator: &mut Generator) -> Vec<u8> {
    let bound = generator.pick(&[10, 100, 1_000_000]);
    let mut sheet = Vec::new();
    push_line(&mut sheet, [(); 2].map(|()| generator.below(bound)));
    push_line(&mut sheet, [0]);
    sheet
}

/// Every first line of the numbers listed, before every body.
fn sizes_out_of_range(tally: &mut Tally) {
    let bodies = bodies();
    for buyers in BUYERS {
        for lots in LOTS {
            for body in &bodies {
                let mut sheet = Vec::new();
                push_line(&mut sheet, [buyers, lots]);
                sheet.extend(body);
                let number = match (buyers, lots) {
                    (1..=MOST_BUYERS, 1..=MOST_LOTS) => {
                        tally.sheet(&sheet);
                        continue;
                    }
                    (1..=MOST_BUYERS, _) => 4,
                    _ => 3,
                };
                tally.known_sheet(&sheet, &Err(Refusal { number, place: 0 }));
            }
        }
    }
}

/// Lines of zeros for every size in range and the sizes next to it.
fn bodies() -> Vec<Vec<u8>> {
    let mut bodies = Vec::new();
    for lots in 0..=MOST_LOTS + 1 {
        let mut body = Vec::new();
        for _ in 0..=MOST_BUYERS + 1 {
            bodies.push(body.clone());
            push_line(&mut body, vec![0; bundles(lots)]);
        }
    }
    bodies
}
