//! The command `hokewhuni trial`: the words that it takes for numbers, what it hands to the program,
//! what it prints and says, and its status (rule 12.10).

use super::command::{refused_by, said, WORDS};
use super::folder::Folder;
use super::makers::{fields, printing, words, Maker};
use super::trial_inputs::{drawn, print_trial, trial, Numbers};
use super::TRIAL;
use crate::generator::Generator;
use crate::process::run;
use crate::reckoning::print::print_sale;
use crate::reckoning::trial::drawn_sheet;
use crate::tally::{End, Tally};
use crate::writing::TOO_HIGH;

/// Numbers drawn.
const DRAWN: usize = 100;

/// Sheet 1 of two buyers and two lots with the top 5, and what is printed of too great a top.
pub const SHEET: &str = "     2     2\n     4     2     7\n     1     4     9\n";
const TOO_GREAT: &str = "     7     0\n";

const TRIALS: Maker = Maker {
    name: "trial",
    program: TRIAL,
    usage: "usage: hokewhuni trial [-v] NUMBER BUYERS LOTS TOP\n",
    made: &["1", "2", "2", "5"],
    sheet: SHEET,
    refused: &["1", "2", "2", "10000"],
    refusal: TOO_GREAT,
    why: "hokewhuni: refused by question 7: the top is above 9,999\n",
};

/// Numbers by their words, with what is printed of them.
const KNOWN: [(&str, &str); 23] = [
    ("1 2 2 5", SHEET),
    ("0 1 1 9999", "     1     1\n  5399\n"),
    ("0 3 1 9999", "     3     1\n  5399\n  7200\n  1005\n"),
    ("65535 1 1 9999", "     1     1\n  9274\n"),
    (
        "0 2 2 0",
        "     2     2\n     0     0     0\n     0     0     0\n",
    ),
    // Zeros in front, after which a shell may take digits for base eight.
    ("01 002 2 0000000005", SHEET),
    ("010 1 1 9999", "     1     1\n  9487\n"),
    ("08 1 1 9999", "     1     1\n  6738\n"),
    ("1 1 1 010", "     1     1\n     3\n"),
    ("0000065535 1 1 9999", "     1     1\n  9274\n"),
    // Each refusal, and each before the next (rule 12.5).
    ("0 0 0 10000", "     3     0\n"),
    ("65535 7 5 10000", "     3     0\n"),
    ("0 08 1 1", "     3     0\n"),
    ("0 1000002 1 1", "     3     0\n"),
    ("0 4294967295 4294967295 4294967295", "     3     0\n"),
    ("0 6 0 10000", "     4     0\n"),
    ("65535 1 5 1", "     4     0\n"),
    ("0 1 1000001 1", "     4     0\n"),
    ("0 1 4294967295 4294967295", "     4     0\n"),
    ("1 2 2 10000", TOO_GREAT),
    ("65535 6 4 010000", TOO_GREAT),
    ("0 1 1 1000005", TOO_GREAT),
    ("0 1 1 4294967295", TOO_GREAT),
];

/// Too few words, or too many.
const NOT_FOUR: [&[&str]; 10] = [
    &[],
    &["1"],
    &["1", "2"],
    &["1", "2", "2"],
    &["-v"],
    &["-v", "1", "2", "2"],
    &["--", "1", "2", "2"],
    &["1", "2", "2", "5", "5"],
    &["1", "2", "2", "5", ""],
    &["1", "2", "2", "5", "1", "2", "2", "5"],
];

/// Numbers above a sheet's, as words.
const NO_SHEETS: [&str; 6] = [
    "65536",
    "065536",
    "0000065536",
    "100000",
    "1000000",
    "4294967295",
];

/// Numbers on either side of those that a field has.
const HANDED_ON: [Numbers; 3] = [
    [0, 0, 99_999, 100_000],
    [9, 999_998, 999_999, 1_000_000],
    [65_535, 1_000_001, 9_999_999, u32::MAX],
];

/// Sheets whose sales are printed.
const SOLD: [Numbers; 5] = [
    [0, 1, 1, 9],
    [1, 2, 2, 5],
    [7, 6, 4, 100],
    [65_535, 3, 3, 20],
    [2, 6, 4, 0],
];

pub fn compare(tally: &mut Tally, generator: &mut Generator) {
    tally.group("the command's trials", |tally| {
        TRIALS.known(tally, &KNOWN);
        TRIALS.options(tally);
        misused(tally);
        TRIALS.not_numbers(tally, &words([1, 2, 2, 5]), &[0, 1, 2, 3]);
        places(tally);
        sold(tally);
        TRIALS.streams(tally);
        let folder = Folder::new("trials").map(Some);
        if let Some(folder) = tally.succeeds("a folder", folder) {
            let drawn = (0..DRAWN).map(|_| drawn(generator));
            let sheets = drawn.filter(|&numbers| trial(numbers).is_some());
            let sheets = HANDED_ON.into_iter().chain(sheets);
            let cases = sheets.map(|numbers| (words(numbers), fields(numbers)));
            TRIALS.handed_on(tally, folder.path(), cases);
            TRIALS.failing(tally, folder.path());
        }
    });
    tally.group("trials to the command", |tally| {
        for _ in 0..DRAWN {
            numbers(tally, drawn(generator));
        }
    });
}

/// Other words than four, and numbers that no sheet has, also where there would be a refusal.
fn misused(tally: &mut Tally) {
    for words in NOT_FOUR {
        TRIALS.misused(tally, words);
    }
    for number in NO_SHEETS {
        TRIALS.misused(tally, &[number, "2", "2", "5"]);
        TRIALS.misused(tally, &["-v", number, "7", "5", "10000"]);
    }
}

/// Great numbers in each place.
fn places(tally: &mut Tally) {
    for number in TOO_HIGH.into_iter().chain([9_999, 65_534]) {
        for at in 0..4 {
            let mut great = [1, 2, 2, 5];
            great[at] = number;
            numbers(tally, great);
        }
    }
}

/// Numbers: what is printed, the status, and what `-v` says of a refusal, or the usage.
fn numbers(tally: &mut Tally, numbers: Numbers) {
    let trial = trial(numbers);
    let print = trial.map(|trial| print_trial(&trial));
    let mut end = match &print {
        Some(print) => printing(print),
        None => End::saying(2, TRIALS.usage),
    };
    let refusal = trial.and_then(|trial| drawn_sheet(&trial).err());
    let said = refusal.map(|refusal| meaning(refusal.number));
    if let Some(said) = &said {
        end.errors = said.as_bytes();
    }
    let run = || run(TRIALS.command().arg("-v").args(words(numbers)), b"");
    tally.process_end(format_args!("trial -v, given {numbers:?}"), run, &end);
}

/// What is said of a refusal.
fn meaning(number: u8) -> String {
    let words = match number {
        7 => "the top is above 9,999",
        _ => WORDS[usize::from(number) - 1],
    };
    said(refused_by(number, words))
}

/// Sales of trial sheets. A refusal that is taken for a sheet is refused.
fn sold(tally: &mut Tally) {
    for numbers in SOLD {
        let sheet = trial(numbers).map(|trial| print_trial(&trial));
        let sale = print_sale(&sheet.unwrap_or_default());
        let words = words(numbers);
        let words: Vec<&str> = words.iter().map(String::as_str).collect();
        TRIALS.sold(tally, &words, &sale);
    }
    TRIALS.sold(tally, TRIALS.refused, b"     3     0\n");
}
