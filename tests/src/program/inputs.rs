//! Random and damaged inputs, byte for byte against the Rust reckoning's print.

use super::{program, SALE};
use crate::generator::{bytes_of, field, push_line, Generator};
use crate::process::run;
use crate::reckoning::print::{print_sale, MOST_READ};
use crate::reckoning::sheet::{
    bundles, length, FIELD, FIRST_LINE, GREATEST_WORTH, LINE_END, MOST_BUYERS,
};
use crate::sales::random::LARGE;
use crate::sales::refusals::refused;
use crate::sheets::document::sheet_of;
use crate::tally::Tally;

/// Inputs drawn of each kind.
const DRAWN: usize = 500;

/// No input is longer.
pub const LONGEST: usize = 2_000;

/// The greatest worths of sheets whose sales are short.
const TOPS: [u16; 5] = [0, 1, 3, 6, 12];

/// The bytes that a good sheet is made of.
const ALPHABET: &[u8] = b" 0123456789\n";

/// Numbers of a first line, in range and out of it.
const SIZES: [usize; 11] = [0, 1, 2, 3, 4, 5, 6, 7, 10, 65_537, 999_999];

/// Fields that are not a number.
pub const BAD_FIELDS: [[u8; FIELD]; 6] = [
    *b"    03",
    *b"      ",
    *b"3     ",
    *b"    3:",
    *b"    -1",
    *b"     \n",
];

/// A kind of inputs: its name, and how one is drawn.
pub type Kind = (&'static str, fn(&mut Generator) -> Vec<u8>);

pub const KINDS: [Kind; 13] = [
    ("good sheets of every size", good),
    ("good sheets with a byte changed", one_byte),
    ("good sheets damaged until they are refused", refused),
    ("good sheets cut", cut),
    ("good sheets lengthened", lengthened),
    ("good sheets with a line twice", line_twice),
    ("good sheets with other line ends", line_ends),
    ("good sheets before many other bytes", long),
    ("first lines of every kind", first_lines),
    ("fields of any numbers", numbers),
    (
        "bytes of the alphabet after a good first line",
        letters_after_size,
    ),
    ("bytes of the alphabet", letters),
    ("bytes", noise),
];

pub fn compare(tally: &mut Tally, generator: &mut Generator) {
    for (name, draw) in KINDS {
        tally.group(&format!("inputs: {name}"), |tally| {
            for _ in 0..DRAWN {
                print(tally, &draw(generator));
            }
        });
    }
    tally.group("inputs: sheets with large worths", |tally| {
        for (buyers, lots, top) in LARGE {
            let sheet = generator.monotone_up_to(buyers, lots, top);
            print(tally, &bytes_of(&sheet));
        }
        print(tally, &bytes_of(&generator.full()));
        print(tally, &longest_record());
    });
}

/// Runs the program with an input.
fn print(tally: &mut Tally, input: &[u8]) {
    let what = format_args!("the program, given \"{}\"", input.escape_ascii());
    tally.process(what, || run(&mut program(SALE), input), &print_sale(input));
}

/// A sheet with the greatest of question 9's sums.
fn longest_record() -> Vec<u8> {
    bytes_of(&sheet_of(1, &[&[GREATEST_WORTH][..]; MOST_BUYERS]))
}

fn good(generator: &mut Generator) -> Vec<u8> {
    let (buyers, lots) = generator.size();
    let top = generator.pick(&TOPS);
    bytes_of(&generator.monotone_up_to(buyers, lots, top))
}

fn one_byte(generator: &mut Generator) -> Vec<u8> {
    let mut sheet = good(generator);
    let at = generator.below(sheet.len());
    let (letter, byte) = (generator.pick(ALPHABET), generator.draw() as u8);
    sheet[at] = generator.pick(&[letter, byte]);
    sheet
}

fn cut(generator: &mut Generator) -> Vec<u8> {
    let mut sheet = good(generator);
    sheet.truncate(generator.below(sheet.len()));
    sheet
}

/// One byte more, or some, or many.
fn lengthened(generator: &mut Generator) -> Vec<u8> {
    let mut sheet = good(generator);
    let most = generator.pick(&[1, 100, LONGEST - sheet.len()]);
    let count = 1 + generator.below(most);
    sheet.extend(generator.bytes_from(ALPHABET, count));
    sheet
}

fn line_twice(generator: &mut Generator) -> Vec<u8> {
    let sheet = good(generator);
    let lines: Vec<&[u8]> = sheet.split_inclusive(|&byte| byte == LINE_END).collect();
    let (before, after) = lines.split_at(1 + generator.below(lines.len()));
    let last = &before[before.len() - 1..];
    [before, last, after].concat().concat()
}

fn line_ends(generator: &mut Generator) -> Vec<u8> {
    let sheet = good(generator);
    let ends: [&[u8]; 5] = [b"", b"\r", b"\r\n", b"\n\r", b"\n\n"];
    let lines = sheet.split(|&byte| byte == LINE_END).collect::<Vec<_>>();
    lines.join(generator.pick(&ends))
}

/// As many bytes as are read, or more.
fn long(generator: &mut Generator) -> Vec<u8> {
    let mut sheet = good(generator);
    let most = generator.pick(&[3, LONGEST + 1 - MOST_READ]);
    let count = MOST_READ + generator.below(most) - sheet.len();
    sheet.extend(generator.bytes(count));
    sheet
}

/// Two numbers or bad fields, a line end or another byte, and the lines of a good sheet or none.
fn first_lines(generator: &mut Generator) -> Vec<u8> {
    let mut sheet = Vec::new();
    for _ in 0..2 {
        let number = field(generator.pick(&SIZES));
        let bad = generator.pick(&BAD_FIELDS);
        sheet.extend(generator.pick(&[number, number, number, bad]));
    }
    sheet.push(generator.pick(&[LINE_END, LINE_END, LINE_END, b' ']));
    if generator.below(2) == 0 {
        sheet.extend(&good(generator)[FIRST_LINE..]);
    }
    sheet
}

/// Lines of the right shape, whose numbers have a bound below or above 10,000.
fn numbers(generator: &mut Generator) -> Vec<u8> {
    let (buyers, lots) = generator.size();
    let bound = generator.pick(&[3, 20, 11_000, 1_000_000]);
    let mut sheet = Vec::new();
    push_line(&mut sheet, [buyers, lots]);
    for _ in 0..buyers {
        let line = (0..bundles(lots)).map(|_| generator.below(bound));
        push_line(&mut sheet, line);
    }
    sheet
}

fn letters_after_size(generator: &mut Generator) -> Vec<u8> {
    let (buyers, lots) = generator.size();
    let mut sheet = Vec::new();
    push_line(&mut sheet, [buyers, lots]);
    sheet.extend(generator.bytes_from(ALPHABET, length(buyers, lots) - FIRST_LINE));
    sheet
}

fn letters(generator: &mut Generator) -> Vec<u8> {
    let count = generator.below(LONGEST + 1);
    generator.bytes_from(ALPHABET, count)
}

/// Any bytes, and often few of them.
fn noise(generator: &mut Generator) -> Vec<u8> {
    let most = generator.pick(&[2 * FIRST_LINE, LONGEST]);
    let count = generator.below(most + 1);
    generator.bytes(count)
}
