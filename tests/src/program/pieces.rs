//! Inputs that come in small pieces, one after another, as a pipe may give them.

use super::inputs::KINDS;
use super::lists::{handed_on, print_list};
use super::makers::fields;
use super::trial_inputs::{drawn, print_trial, trial};
use super::{program, SALE, TRIAL, WRITE};
use crate::generator::Generator;
use crate::process::run_in_pieces;
use crate::reckoning::print::print_sale;
use crate::tally::Tally;
use crate::writing::random::changed;

/// Inputs drawn of each kind.
const DRAWN: usize = 5;

/// Lists and trial sheets drawn.
const LISTS: usize = 20;
const TRIALS: usize = 10;

/// The most bytes of a piece.
const MOST: usize = 7;

pub fn compare(tally: &mut Tally, generator: &mut Generator) {
    tally.group("inputs in pieces", |tally| {
        for (_, draw) in KINDS {
            for most in [1, MOST].repeat(DRAWN) {
                let input = draw(generator);
                let output = print_sale(&input);
                print(tally, generator, (SALE, most), &input, &output);
            }
        }
        for most in [1, MOST].repeat(LISTS) {
            let list = changed(generator);
            let (input, output) = (handed_on(&list), print_list(&list));
            print(tally, generator, (WRITE, most), &input, &output);
        }
        for most in [1, MOST].repeat(TRIALS) {
            let numbers = drawn(generator);
            let output = trial(numbers).map(|trial| print_trial(&trial));
            let (input, output) = (fields(numbers), output.unwrap_or_default());
            print(tally, generator, (TRIAL, most), &input, &output);
        }
    });
}

/// Runs a program with an input in pieces up to the most bytes.
fn print(
    tally: &mut Tally,
    generator: &mut Generator,
    (name, most): (&str, usize),
    input: &[u8],
    output: &[u8],
) {
    let pieces = pieces(generator, input, most);
    let what = format_args!("{name}, given \"{}\"", input.escape_ascii());
    tally.process(what, || run_in_pieces(&mut program(name), &pieces), output);
}

/// The input cut into pieces of one byte up to the most.
fn pieces<'a>(generator: &mut Generator, input: &'a [u8], most: usize) -> Vec<&'a [u8]> {
    let mut pieces = Vec::new();
    let mut rest = input;
    while !rest.is_empty() {
        let (piece, later) = rest.split_at(rest.len().min(1 + generator.below(most)));
        pieces.push(piece);
        rest = later;
    }
    pieces
}
