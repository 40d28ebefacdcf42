//! The programs under valgrind, which finds reading and writing where nothing is lent.

use std::process::Command;

use super::inputs::{KINDS, LONGEST};
use super::lists::{handed_on, print_list};
use super::makers::fields;
use super::trial_inputs::{drawn, print_trial, trial, Numbers};
use super::{program_path, SALE, TRIAL, WRITE};
use crate::generator::{bytes_of, Generator};
use crate::process::run;
use crate::reckoning::print::print_sale;
use crate::reckoning::writing::List;
use crate::tally::Tally;
use crate::writing::random::changed;

/// Buyers and lots of settled sheets: the least and the most of each, and one between.
const SIZES: [(usize, usize); 5] = [(1, 1), (1, 4), (6, 1), (6, 4), (3, 2)];

/// The greatest worth of these.
const TOP: u16 = 12;

/// Lists and trial sheets drawn.
const DRAWN: usize = 8;

pub fn compare(tally: &mut Tally, generator: &mut Generator) {
    tally.group("inputs under valgrind", |tally| {
        print(tally, b"");
        print(tally, &[b' '; LONGEST]);
        for (buyers, lots) in SIZES {
            let sheet = generator.monotone_up_to(buyers, lots, TOP);
            print(tally, &bytes_of(&sheet));
        }
        for (_, draw) in KINDS {
            print(tally, &draw(generator));
        }
    });
    tally.group("lists under valgrind", |tally| {
        for (buyers, lots) in SIZES {
            let sheet = generator.monotone(buyers, lots);
            write(tally, &List::of(&sheet));
        }
        for _ in 0..DRAWN {
            write(tally, &changed(generator));
        }
    });
    tally.group("trials under valgrind", |tally| {
        compare_program(tally, TRIAL, b"", b"");
        compare_program(tally, TRIAL, &[b' '; LONGEST], b"");
        for (buyers, lots) in SIZES {
            make(tally, [1, buyers as u32, lots as u32, 9_999]);
        }
        for _ in 0..DRAWN {
            make(tally, drawn(generator));
        }
    });
}

fn print(tally: &mut Tally, input: &[u8]) {
    compare_program(tally, SALE, input, &print_sale(input));
}

fn write(tally: &mut Tally, list: &List) {
    compare_program(tally, WRITE, &handed_on(list), &print_list(list));
}

fn make(tally: &mut Tally, numbers: Numbers) {
    let print = trial(numbers).map(|trial| print_trial(&trial));
    let print = print.unwrap_or_default();
    compare_program(tally, TRIAL, &fields(numbers), &print);
}

fn compare_program(tally: &mut Tally, name: &str, input: &[u8], output: &[u8]) {
    let what = format_args!("valgrind {name}, given \"{}\"", input.escape_ascii());
    let run = || run(valgrind().arg(program_path(name)), input);
    tally.process(what, run, output);
}

/// The command before the program's path. It says nothing but errors, and has status 9 with one.
pub fn valgrind() -> Command {
    let mut command = Command::new("valgrind");
    command.args(["--error-exitcode=9", "--quiet"]);
    command
}
