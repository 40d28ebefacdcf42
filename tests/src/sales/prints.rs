//! Printed sales, in buffers of every length and with records of every kind. Bytes after the print
//! keep their old values; where it has no room, all of them do (rule 6.6).

use crate::generator::{bytes_of, sizes, Generator};
use crate::reckoning::print::LONGEST_RECORD;
use crate::reckoning::sale::record_needed;
use crate::sales::document::SETTLED;
use crate::sales::random::LARGE;
use crate::sales::refusals::refused;
use crate::sheets::document::REFUSED;
use crate::tally::Tally;

/// The longest buffer: the longest print has 227 bytes, a refusal 13.
const LONGEST: usize = 260;

/// Sheets drawn for each size, to be printed in buffers of every length.
const DRAWN: usize = 2;

/// Sheets drawn for each size, to be printed in a few buffers.
const DRAWN_MORE: usize = 100;

/// Sheets drawn for each size with large worths.
const LARGE_DRAWN: usize = 4;

/// Refused sheets drawn.
const REFUSED_DRAWN: usize = 5_000;

/// The most bytes that a record has beyond question 9's sum.
const SPARE: usize = 300;

/// The bytes that records and buffers of known prints hold beforehand.
const OLD: u8 = 0xee;

pub fn compare(tally: &mut Tally, generator: &mut Generator) {
    tally.group("printed sales of the rules", document);
    tally.group("printed sales in buffers of every length", |tally| {
        each_size(tally, generator, DRAWN, |generator| {
            (0..=LONGEST)
                .map(|length| generator.bytes(length))
                .collect()
        });
    });
    tally.group("printed sales of random sheets of every size", |tally| {
        each_size(tally, generator, DRAWN_MORE, few_buffers);
    });
    tally.group(
        "printed sales of random sheets with large worths",
        |tally| {
            for (buyers, lots, top) in LARGE {
                for _ in 0..LARGE_DRAWN {
                    let sheet = bytes_of(&generator.monotone_up_to(buyers, lots, top));
                    let record = generator.bytes(LONGEST_RECORD);
                    tally.prints(&sheet, &record, &few_buffers(generator));
                }
            }
        },
    );
    tally.group("printed sales of refused sheets", |tally| {
        for _ in 0..REFUSED_DRAWN {
            let sheet = refused(generator);
            let length = generator.below(SPARE);
            let record = generator.bytes(length);
            tally.prints(&sheet, &record, &few_buffers(generator));
        }
    });
}

/// The sales of the rules: settled, with a record one byte short, and refused.
fn document(tally: &mut Tally) {
    let buffer = [OLD; LONGEST];
    for settled in &SETTLED {
        let (sheet, needed) = (settled.text.as_bytes(), settled.record_needed);
        tally.known_print(sheet, &vec![OLD; needed], &buffer, settled.printed);
        if needed > 0 {
            tally.known_print(sheet, &vec![OLD; needed - 1], &buffer, "     9     0\n");
        }
    }
    for (text, number, place) in REFUSED {
        let known = format!("{number:6}{place:6}\n");
        tally.known_print(text.as_bytes(), &[], &buffer, &known);
    }
}

/// Sheets of every size with small worths, with a record that is long enough and one that is not.
fn each_size(
    tally: &mut Tally,
    generator: &mut Generator,
    drawn: usize,
    buffers: impl Fn(&mut Generator) -> Vec<Vec<u8>>,
) {
    for (buyers, lots) in sizes() {
        for _ in 0..drawn {
            let top = generator.pick(&[1, 3, 6, 12]);
            let sheet = generator.monotone_up_to(buyers, lots, top);
            let needed = record_needed(&sheet);
            let mut lengths = vec![needed + generator.below(SPARE)];
            if needed > 0 {
                lengths.push(generator.below(needed));
            }
            for length in lengths {
                let record = generator.bytes(length);
                tally.prints(&bytes_of(&sheet), &record, &buffers(generator));
            }
        }
    }
}

/// Buffers of any length, of those around a refusal's, and the longest.
fn few_buffers(generator: &mut Generator) -> Vec<Vec<u8>> {
    let lengths = [generator.below(LONGEST), 12, 13, LONGEST];
    Vec::from(lengths.map(|length| generator.bytes(length)))
}
