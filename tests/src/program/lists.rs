//! Lists of numbers, of which sheets are written, and bytes that are no such list: what the program
//! is handed, and what it prints (rules 11.8 and 11.9).

use super::inputs::BAD_FIELDS;
use super::makers::{self, fields, GREATEST_FIELD};
use super::{program, WRITE};
use crate::generator::{bytes_of, field, Generator};
use crate::process::run;
use crate::reckoning::print::refused;
use crate::reckoning::sheet::{bundles, read_field, read_sheet, Refusal, FIELD};
use crate::reckoning::writing::{written_sheet, List};
use crate::tally::Tally;
use crate::writing::random::changed;

/// Lists drawn.
const DRAWN: usize = 1_000;

/// The program is handed as many numbers, buyers and lots too (rule 11.10).
pub const MOST_NUMBERS: usize = 2 + 91;

/// The most bytes of its input that the program takes (rule 11.8).
const MOST_READ: usize = 558;

/// What a field that is not good counts as (rule 11.8).
const NOT_GOOD: u32 = 1_000_000;

/// The numbers that a refusal is printed with (rules 11.3 and 11.9).
const REFUSALS: [u8; 5] = [3, 4, 5, 7, 8];

/// Numbers of buyers and of lots, in range and out of it.
pub const SIZES: [u32; 10] = [0, 1, 2, 3, 4, 5, 6, 7, 8, GREATEST_FIELD];

/// Inputs that are not all good fields, or too few, with what is printed of them.
const KNOWN: [(&[u8], &str); 14] = [
    (b"", "     3     0\n"),
    (b"    1", "     3     0\n"),
    (b"     1", "     4     0\n"),
    (b"     1    1", "     4     0\n"),
    (b"     1     1", "     5     0\n"),
    (b"     1     1 ", "     7     0\n"),
    (b"     1     1    7", "     7     0\n"),
    (b"     1     1    07", "     7     0\n"),
    (b"     1     1      ", "     7     0\n"),
    (b"     1     1     7\n", "     5     0\n"),
    (b"     1     1     7  ", "     5     0\n"),
    (b"     1     1\n     7", "     5     0\n"),
    (b"     1     1\n    7", "     7     0\n"),
    (b"     1     1     7", "     1     1\n     7\n"),
];

/// Worths of two buyers and two lots, with up to four digits.
const WORTHS: [u32; 6] = [5, 40, 300, 0, 9_999, 9_999];

/// Buyers and lots of good inputs that are cut and lengthened.
const GOOD: [(usize, usize); 3] = [(1, 1), (2, 2), (6, 4)];

/// What a byte of a good input is changed to.
const BYTES: &[u8] = b" 07/:a-\t\n\0\xff";

/// What comes after a good input: less than a field, or one that is good or not, or more.
const TAILS: [&[u8]; 9] = [
    b"\n",
    b" ",
    b"  ",
    b"     ",
    b"7",
    b"     7",
    b"      ",
    b"     7\n",
    b"     7  ",
];

/// Good inputs are lengthened to each length from the most that is read up to this one.
const LONGEST: usize = 600;

/// Lengths that are far greater. A pipe does not hold the last.
const LONG: [usize; 2] = [2 * MOST_READ, 100_000];

/// A list of so many worths, all of them 1.
pub fn of_ones(buyers: u32, lots: u32, count: usize) -> List {
    List::new(buyers, lots, vec![1; count])
}

/// How many worths there have to be (rule 11.4).
pub fn due(buyers: u32, lots: u32) -> usize {
    buyers as usize * bundles(lots as usize)
}

/// The numbers as words.
pub fn words(list: &List) -> Vec<String> {
    makers::words(numbers(list))
}

/// What the command hands to the program: a field for each number, with nothing between them (rules
/// 11.8 and 11.10).
pub fn handed_on(list: &List) -> Vec<u8> {
    fields(numbers(list).take(MOST_NUMBERS))
}

/// The numbers of buyers and lots, and the worths.
fn numbers(list: &List) -> impl Iterator<Item = u32> + '_ {
    let size = [list.buyers, list.lots];
    size.into_iter().chain(list.worths.iter().copied())
}

/// What is printed of a list: the sheet, or the line of its refusal (rule 11.9).
pub fn print_list(list: &List) -> Vec<u8> {
    written_sheet(list).unwrap_or_else(|refusal| refused(&refusal))
}

/// The list that the program takes from its input (rule 11.8). Its last field may be cut short.
fn read_list(input: &[u8]) -> List {
    let input = &input[..input.len().min(MOST_READ)];
    let number = |at: usize| read_field(input, at).number.unwrap_or(NOT_GOOD);
    let places = (2 * FIELD..input.len()).step_by(FIELD);
    List {
        buyers: number(0),
        lots: number(FIELD),
        worths: places.map(number).collect(),
    }
}

pub fn compare(tally: &mut Tally, generator: &mut Generator) {
    tally.group("lists: random ones", |tally| {
        for _ in 0..DRAWN {
            write(tally, &changed(generator));
        }
    });
    tally.group("lists: sizes and counts", |tally| {
        for buyers in SIZES {
            for lots in SIZES {
                for count in counts(buyers, lots) {
                    write(tally, &of_ones(buyers, lots, count));
                }
            }
        }
    });
    tally.group("lists: fields that are not good", |tally| {
        known(tally);
        for input in damaged(&handed_on(&List::new(2, 2, WORTHS))) {
            print(tally, &input);
        }
    });
    tally.group("lists: cut and lengthened", |tally| {
        for (buyers, lots) in GOOD {
            let sheet = generator.monotone(buyers, lots);
            let good = handed_on(&List::of(&sheet));
            cut(tally, &good);
            lengthened(tally, &good);
            // Its numbers, with line ends between them.
            print(tally, &bytes_of(&sheet));
        }
    });
}

/// Runs the program with a list.
fn write(tally: &mut Tally, list: &List) {
    let what = format_args!("{WRITE}, given {list:?}");
    let run = || run(&mut program(WRITE), &handed_on(list));
    tally.process(what, run, &print_list(list));
}

/// Runs the program with any bytes. What it prints is the line of a refusal, or a sheet that is
/// accepted (rules 11.6 and 11.9).
fn print(tally: &mut Tally, input: &[u8]) {
    let what = format!("{WRITE}, given \"{}\"", input.escape_ascii());
    let mut printed = None;
    let run = || {
        let ended = run(&mut program(WRITE), input)?;
        printed = Some(ended.output.clone());
        Ok(ended)
    };
    tally.process(&what, run, &print_list(&read_list(input)));
    if let Some(printed) = printed {
        let good = is_refusal(&printed) || read_sheet(&printed).is_ok();
        let good = good.then_some(()).ok_or("neither a refusal nor a sheet");
        tally.succeeds(what, good);
    }
}

/// Whether a text is the line of a refusal by one of the numbers, with the place 0 (rule 11.9).
fn is_refusal(text: &[u8]) -> bool {
    let line = |number: u8| refused(&Refusal { number, place: 0 });
    REFUSALS.iter().any(|&number| text == line(number))
}

/// Counts of worths: none, the one that is due and those beside it, and the greatest.
fn counts(buyers: u32, lots: u32) -> Vec<usize> {
    let most = MOST_NUMBERS - 2;
    let due = due(buyers.min(7), lots.min(5));
    let mut counts = vec![0, due.saturating_sub(1), due, due + 1, most - 1, most];
    counts.retain(|&count| count <= most);
    counts
}

/// Inputs whose prints are known, which the reckoning has to give too.
fn known(tally: &mut Tally) {
    for (input, known) in KNOWN {
        print(tally, input);
        let what = format_args!("the reckoning, given \"{}\"", input.escape_ascii());
        tally.text(what, &print_list(&read_list(input)), known.as_bytes());
    }
}

/// A good input with one byte changed, a zero in front of a number among these, and with one field
/// that is not good.
pub fn damaged(good: &[u8]) -> Vec<Vec<u8>> {
    let bytes =
        (0..good.len()).flat_map(|at| BYTES.iter().map(move |byte| with(good, at, &[*byte])));
    let fields = (0..good.len()).step_by(FIELD);
    let fields = fields.flat_map(|at| BAD_FIELDS.map(|field| with(good, at, &field)));
    bytes.chain(fields).collect()
}

/// The input with these bytes at a place.
fn with(input: &[u8], at: usize, bytes: &[u8]) -> Vec<u8> {
    [&input[..at], bytes, &input[at + bytes.len()..]].concat()
}

/// A good input cut to each length, also to none.
fn cut(tally: &mut Tally, good: &[u8]) {
    for length in 0..=good.len() {
        print(tally, &good[..length]);
    }
}

/// A good input with some bytes after it, and with good fields after it for as many bytes as are
/// read, or more.
fn lengthened(tally: &mut Tally, good: &[u8]) {
    for tail in TAILS {
        print(tally, &[good, tail].concat());
    }
    let fields = good.iter().copied().chain(field(1).into_iter().cycle());
    for length in (MOST_READ..=LONGEST).chain(LONG) {
        print(tally, &fields.clone().take(length).collect::<Vec<_>>());
    }
}
