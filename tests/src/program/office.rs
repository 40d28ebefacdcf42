//! The C program of the examples, on each of their sheets.

use std::fs;
use std::path::Path;
use std::process::Command;

use super::compiling::compile;
use super::examples::{examples, Example};
use super::in_repository;
use super::memory::valgrind;
use crate::process::run;
use crate::tally::Tally;

pub fn compare(tally: &mut Tally) {
    tally.group("the C example", |tally| {
        let compiled = compile("examples/office.c").map(Some);
        let Some(office) = tally.succeeds("examples/office.c", compiled) else {
            return;
        };
        whole(tally, &office);
        let examples = tally.succeeds("the examples", examples());
        for example in &examples {
            sell(tally, Command::new(&office), example);
        }
        let first = examples.iter().find(|example| example.is_settled());
        let refused = examples.iter().find(|example| !example.is_settled());
        for example in first.into_iter().chain(refused) {
            let mut command = valgrind();
            command.arg(&office);
            sell(tally, command, example);
        }
    });
}

/// The whole output of the first example, named and on standard input.
fn whole(tally: &mut Tally, office: &Path) {
    let [sheet, output] = ["examples/example.sheet", "examples/office.out"].map(in_repository);
    let expected = tally.succeeds("examples/office.out", fs::read(output));
    let bytes = tally.succeeds("examples/example.sheet", fs::read(&sheet));
    let named = || run(Command::new(office).arg(&sheet), b"");
    tally.process("office, given the example's name", named, &expected);
    let piped = || run(&mut Command::new(office), &bytes);
    tally.process("office, given the example", piped, &expected);
}

/// The last lines that it prints are that the sheet is written with the same bytes, if it is not
/// refused, and the printed sale.
fn sell(tally: &mut Tally, mut command: Command, example: &Example) {
    command.arg(&example.path);
    let what = format!("{command:?}");
    let mut lines = Vec::new();
    if example.is_settled() {
        lines.extend(format!("written: {} bytes, the same\n", example.sheet.len()).bytes());
    }
    lines.extend(&example.sale);
    tally.process_last_lines(what, || run(&mut command, b""), &lines);
}
