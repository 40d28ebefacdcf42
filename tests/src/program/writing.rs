//! The command `hokewhuni write`: the words that it takes for numbers, what it hands to the program,
//! what it prints and says, and its status (rule 11.10).

use super::command::{refused_by, said, WORDS};
use super::examples::examples;
use super::folder::Folder;
use super::lists::{due, handed_on, of_ones, print_list, words, MOST_NUMBERS};
use super::makers::{printing, Maker};
use super::WRITE;
use crate::generator::Generator;
use crate::process::run;
use crate::reckoning::sheet::GREATEST_WORTH;
use crate::reckoning::writing::{written_sheet, List};
use crate::tally::Tally;
use crate::writing::random::changed;
use crate::writing::TOO_HIGH;

/// Lists drawn.
const DRAWN: usize = 100;

/// Counts of worths up to this one are tried.
const COUNTS: usize = MOST_NUMBERS + 7;

/// Counts that are far greater. A pipe does not hold the fields of the last.
const MANY: [usize; 3] = [300, 700, 20_000];

/// The sheet of a list that is written, and what is printed of one with too few worths.
const SHEET: &str = "     2     1\n     5\n     3\n";
const REFUSED: &str = "     5     0\n";

const WRITING: Maker = Maker {
    name: "write",
    program: WRITE,
    usage: "usage: hokewhuni write [-v] BUYERS LOTS WORTH ..\n",
    made: &["2", "1", "5", "3"],
    sheet: SHEET,
    refused: &["2", "1", "5"],
    refusal: REFUSED,
    why: "hokewhuni: refused by question 5: \
        the list has not m * (2^n - 1) worths, with m bidders and n lots; \
        for m = 2 and n = 1 that is 2, and the list has 1\n",
};

/// Lists by their words, with what is printed of them.
const KNOWN: [(&str, &str); 24] = [
    ("2 1 5 3", SHEET),
    ("1 1 0", "     1     1\n     0\n"),
    ("1 1 9999", "     1     1\n  9999\n"),
    ("1 2 4 0 4", "     1     2\n     4     0     4\n"),
    // Zeros in front, after which a shell may take digits for base eight.
    ("002 01 0000000005 03", SHEET),
    ("1 1 010", "     1     1\n    10\n"),
    ("1 1 08", "     1     1\n     8\n"),
    ("1 1 0000009999", "     1     1\n  9999\n"),
    // Each refusal, and each before the next (rule 11.3).
    ("0 1", "     3     0\n"),
    ("7 5", "     3     0\n"),
    ("08 1 1", "     3     0\n"),
    ("4294967295 4294967295", "     3     0\n"),
    ("1000002 1 5 3", "     3     0\n"),
    ("6 0 10000", "     4     0\n"),
    ("1 5", "     4     0\n"),
    ("2 1000001 5 3", "     4     0\n"),
    ("1 1", REFUSED),
    ("2 1 5 3 10000", REFUSED),
    ("1 2 4 3", REFUSED),
    ("1 1 10000", "     7     0\n"),
    ("1 2 4 10000 3", "     7     0\n"),
    ("1 1 1000005", "     7     0\n"),
    ("1 2 4 0 3", "     8     0\n"),
    ("2 2 2 0 2 0 4 3", "     8     0\n"),
];

/// Too few words.
const TOO_FEW: [&[&str]; 5] = [&[], &["2"], &["-v"], &["-v", "2"], &["--", "2"]];

pub fn compare(tally: &mut Tally, generator: &mut Generator) {
    tally.group("the command's lists", |tally| {
        WRITING.known(tally, &KNOWN);
        WRITING.options(tally);
        for words in TOO_FEW {
            WRITING.misused(tally, words);
        }
        not_numbers(tally);
        places(tally);
        counts(tally);
        again(tally);
        WRITING.streams(tally);
        let folder = Folder::new("writing").map(Some);
        if let Some(folder) = tally.succeeds("a folder", folder) {
            let lists = lists_handed_on(generator);
            let cases = lists.iter().map(|list| (words(list), handed_on(list)));
            WRITING.handed_on(tally, folder.path(), cases);
            WRITING.failing(tally, folder.path());
        }
    });
    tally.group("lists to the command", |tally| {
        for _ in 0..DRAWN {
            list(tally, &changed(generator));
        }
    });
}

/// A word that is not a number is none after those that are handed on, too.
fn not_numbers(tally: &mut Tally) {
    let good = words(&of_ones(6, 4, 2 * MOST_NUMBERS));
    let places = [0, 1, 2, MOST_NUMBERS - 1, MOST_NUMBERS, good.len() - 1];
    WRITING.not_numbers(tally, &good, &places);
}

/// Great numbers in each place of a list.
fn places(tally: &mut Tally) {
    let good = of_ones(1, 2, 3);
    for number in TOO_HIGH.into_iter().chain([GREATEST_WORTH.into()]) {
        for at in 0..5 {
            let mut great = good.clone();
            match at {
                0 => great.buyers = number,
                1 => great.lots = number,
                _ => great.worths[at - 2] = number,
            }
            list(tally, &great);
        }
    }
}

/// Every count of worths up to more than are handed on, and some that are far greater.
fn counts(tally: &mut Tally) {
    for count in (0..=COUNTS).chain(MANY) {
        list(tally, &of_ones(6, 4, count));
    }
    for count in 0..10 {
        list(tally, &of_ones(2, 2, count));
    }
}

/// A list: what is printed, the status, and what `-v` says of the number.
fn list(tally: &mut Tally, list: &List) {
    let (print, words) = (print_list(list), words(list));
    let mut end = printing(&print);
    let refusal = written_sheet(list).err();
    let said = refusal.map(|refusal| meaning(list, refusal.number));
    if let Some(said) = &said {
        end.errors = said.as_bytes();
    }
    let run = || run(WRITING.command().arg("-v").args(&words), b"");
    tally.process_end(format_args!("write -v, given {list:?}"), run, &end);
}

/// What is said of a refusal of a list.
fn meaning(list: &List, number: u8) -> String {
    if number != 5 {
        return said(refused_by(number, WORDS[usize::from(number) - 1]));
    }
    let words = "the list has not m * (2^n - 1) worths, with m bidders and n lots";
    let (buyers, lots) = (list.buyers, list.lots);
    let due = due(buyers, lots);
    let size = format!("; for m = {buyers} and n = {lots} that is {due}");
    let count = format!(", and the list has {}", list.worths.len());
    said(refused_by(number, words) + &size + &count)
}

/// The numbers of each example that is accepted make its sheet again, and its sale. A refusal that
/// is taken for a sheet is refused.
fn again(tally: &mut Tally) {
    for example in tally.succeeds("the examples", examples()) {
        if !example.is_settled() {
            continue;
        }
        let sheet = String::from_utf8_lossy(&example.sheet);
        let numbers: Vec<&str> = sheet.split_whitespace().collect();
        WRITING.prints(tally, &numbers.join(" "), &sheet);
        WRITING.sold(tally, &numbers, &example.sale);
    }
    WRITING.sold(tally, WRITING.refused, b"     4     0\n");
}

/// Lists with fewer and more numbers than are handed on, and some drawn.
fn lists_handed_on(generator: &mut Generator) -> Vec<List> {
    let counts = [0, 1, 90, 91, 92, 300].map(|count| of_ones(6, 4, count));
    let drawn = (0..DRAWN).map(|_| changed(generator));
    counts.into_iter().chain(drawn).collect()
}
