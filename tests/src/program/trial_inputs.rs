//! Numbers of trial sheets, and bytes that are no such numbers: what the program is handed, and what
//! it prints (rules 12.8 and 12.9).

use std::iter::repeat;

use super::lists::{damaged, SIZES};
use super::makers::{fields, GREATEST_FIELD};
use super::{program, TRIAL};
use crate::generator::Generator;
use crate::process::run;
use crate::reckoning::print::refused;
use crate::reckoning::sheet::{read_field, FIELD};
use crate::reckoning::trial::{drawn_sheet, Trial};
use crate::tally::Tally;
use crate::trials::any_trial;
use crate::writing::TOO_HIGH;

/// The four numbers in the order of their fields: those of the sheet, buyers and lots, and the top.
/// The first may be above the greatest of a sheet.
pub type Numbers = [u32; 4];

/// Numbers drawn, and inputs of other bytes.
const DRAWN: usize = 1_000;

/// The bytes of four fields.
const LENGTH: usize = 4 * FIELD;

/// Sheet numbers up to the greatest, and above it. Some would be good ones if they were narrowed to
/// 16 bits, or cut to five digits.
const SHEETS: [u32; 22] = [
    0,
    1,
    2,
    9,
    10,
    99,
    100,
    255,
    256,
    9_999,
    10_000,
    32_767,
    32_768,
    65_534,
    65_535,
    65_536,
    65_537,
    99_999,
    100_000,
    131_073,
    600_001,
    GREATEST_FIELD,
];

/// Tops up to the greatest, and above it.
const TOPS: [u32; 22] = [
    0,
    1,
    2,
    3,
    9,
    10,
    99,
    100,
    255,
    256,
    999,
    2_500,
    4_999,
    5_000,
    9_998,
    9_999,
    10_000,
    10_001,
    65_536,
    75_535,
    100_005,
    GREATEST_FIELD,
];

/// Sizes of the sheets with each of these.
const SHAPES: [[u32; 2]; 3] = [[1, 1], [2, 2], [6, 4]];

/// Bounds of sheet numbers that are drawn.
const BOUNDS: [usize; 3] = [10, 1_000, 65_536];

/// Inputs with what is printed of them.
const KNOWN: [(&[u8], &str); 22] = [
    // The first draws (rule 12.2), and some after others that are thrown away.
    (b"     0     1     1  9999", "     1     1\n  5399\n"),
    (
        b"     0     3     1  9999",
        "     3     1\n  5399\n  7200\n  1005\n",
    ),
    (
        b"     1     2     2     5",
        "     2     2\n     4     2     7\n     1     4     9\n",
    ),
    (b" 65535     1     1  9999", "     1     1\n  9274\n"),
    (b" 65535     1     1     0", "     1     1\n     0\n"),
    // Each refusal, and each before the next (rule 12.5).
    (b"     0     0     0 10000", "     3     0\n"),
    (b" 65535     7     5     0", "     3     0\n"),
    (b"     0999999     1     0", "     3     0\n"),
    (b"     0     6     0 10000", "     4     0\n"),
    (b"     0     1     5     0", "     4     0\n"),
    (b"     0     1999999     0", "     4     0\n"),
    (b"     0     6     4 10000", "     7     0\n"),
    (b"     0     1     1999999", "     7     0\n"),
    // A number above a sheet's, also where there would be a refusal.
    (b" 65536     1     1     0", ""),
    (b"999999     1     1     0", ""),
    (b" 65536     7     1     0", ""),
    // What is not four good fields, also after one that would be refused.
    (b"", ""),
    (b"     1     2     2", ""),
    (b"     1     2     2     5\n", ""),
    (b"     1     2     2     5     5", ""),
    (b"     1     2     2    05", ""),
    (b"     1     7     2      ", ""),
];

/// What comes after a good input, or in front of it.
const FILLERS: &[u8] = b" 05\n\0";

/// Inputs up to this length are tried, and some that are far longer. A pipe does not hold the last.
const LONGEST: usize = 30;
const LONG: [usize; 5] = [
    2 * LENGTH,
    100 * LENGTH,
    256 + LENGTH,
    65_536 + LENGTH,
    100_000,
];

/// What bytes are drawn of: those of good fields, often blanks.
const ALPHABET: &[u8] = b"          0123456789";

/// The sheet that numbers name, if there is one of the number.
pub fn trial([number, buyers, lots, top]: Numbers) -> Option<Trial> {
    let number = number.try_into().ok()?;
    Some(Trial {
        number,
        buyers,
        lots,
        top,
    })
}

/// What is printed of a trial sheet, or of its refusal (rule 12.9).
pub fn print_trial(trial: &Trial) -> Vec<u8> {
    drawn_sheet(trial).unwrap_or_else(|refusal| refused(&refusal))
}

/// The numbers of four good fields, if there are no other bytes (rule 12.8).
fn read_numbers(input: &[u8]) -> Option<Numbers> {
    let mut numbers = Numbers::default();
    for (at, number) in numbers.iter_mut().enumerate() {
        *number = read_field(input, at * FIELD).number.ok()?;
    }
    (input.len() == LENGTH).then_some(numbers)
}

/// What is printed of any bytes (rule 12.8).
fn print_of(input: &[u8]) -> Vec<u8> {
    let trial = read_numbers(input).and_then(trial);
    trial.map_or(Vec::new(), |trial| print_trial(&trial))
}

/// Numbers of a sheet. One in some has one that is any other, or great.
pub fn drawn(generator: &mut Generator) -> Numbers {
    let bound = generator.pick(&BOUNDS);
    let trial = any_trial(generator, bound);
    let mut numbers = [trial.number.into(), trial.buyers, trial.lots, trial.top];
    if generator.below(4) == 0 {
        let any = generator.below(10) as u32;
        let great = generator.pick(&TOO_HIGH);
        numbers[generator.below(4)] = generator.pick(&[any, great]);
    }
    numbers
}

pub fn compare(tally: &mut Tally, generator: &mut Generator) {
    tally.group("trials: known and random ones", |tally| {
        known(tally);
        for _ in 0..DRAWN {
            print(tally, &fields(drawn(generator)));
        }
    });
    tally.group("trials: sizes, sheet numbers and tops", numbers);
    tally.group("trials: bytes that are not four good fields", |tally| {
        for good in [[1, 2, 2, 5], [65_535, 6, 4, 9_999], [10, 7, 5, 10_000]] {
            let good = fields(good);
            for input in damaged(&good) {
                print(tally, &input);
            }
            lengths(tally, &good);
        }
        for _ in 0..DRAWN {
            print(tally, &generator.bytes_from(ALPHABET, LENGTH));
        }
    });
}

/// Runs the program with any bytes.
fn print(tally: &mut Tally, input: &[u8]) {
    let what = format_args!("{TRIAL}, given \"{}\"", input.escape_ascii());
    tally.process(what, || run(&mut program(TRIAL), input), &print_of(input));
}

/// Inputs whose prints are known, which the reckoning has to give too.
fn known(tally: &mut Tally) {
    for (input, known) in KNOWN {
        print(tally, input);
        let what = format_args!("the reckoning, given \"{}\"", input.escape_ascii());
        tally.text(what, &print_of(input), known.as_bytes());
    }
}

/// Every size, sheet numbers and tops, in range and out of it.
fn numbers(tally: &mut Tally) {
    let mut print = |numbers: Numbers| print(tally, &fields(numbers));
    for buyers in SIZES {
        for lots in SIZES {
            print([3, buyers, lots, 40]);
            print([3, buyers, lots, 10_000]);
            print([65_536, buyers, lots, 40]);
        }
    }
    for [buyers, lots] in SHAPES {
        for number in SHEETS {
            print([number, buyers, lots, 9_999]);
        }
        for top in TOPS {
            print([3, buyers, lots, top]);
        }
    }
}

/// A good input cut and lengthened to each length, in front too, and to some that are far greater.
fn lengths(tally: &mut Tally, good: &[u8]) {
    for &filler in FILLERS {
        for length in (0..=LONGEST).chain(LONG) {
            let more = length.saturating_sub(LENGTH);
            let fillers = repeat(filler).take(more).collect::<Vec<u8>>();
            print(tally, &[&good[..length - more], &fillers].concat());
            print(tally, &[&fillers, &good[LENGTH + more - length..]].concat());
        }
    }
}
