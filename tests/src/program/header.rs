//! The C header: a C program prints every number of every answer, and the declarations of the Rust
//! crate have to give the same.

use std::fmt::Display;
use std::process::Command;

use hokewhuni::raw;

use super::compiling::compile;
use super::inputs::KINDS;
use crate::generator::Generator;
use crate::process::run;
use crate::reckoning::print::{print_sale, LONGEST_RECORD, MOST_READ};
use crate::reckoning::sheet::{bundles, FIRST_LINE, MOST_BUNDLES};
use crate::tally::Tally;

/// Inputs drawn of each kind.
const DRAWN: usize = 10;

/// The buyer asked about.
const BUYER: u32 = 2;

/// The length of a buffer that has room for no sheet: one byte less than the shortest has.
const TOO_SHORT: usize = 19;

/// The number of a trial sheet, less the length of the sheet, and its top.
const NUMBER: u16 = 40_000;
const TOP: u32 = 300;

/// A printed sale has at most a line of four fields, four of two, and six of four.
pub(super) const LONGEST_PRINT: usize = 25 + 4 * 13 + 6 * 25;

pub fn compare(tally: &mut Tally, generator: &mut Generator) {
    tally.group("the C header", |tally| {
        let compiled = compile("tests/header.c").map(Some);
        let Some(header) = tally.succeeds("tests/header.c", compiled) else {
            return;
        };
        for (_, draw) in KINDS {
            for _ in 0..DRAWN {
                let mut input = draw(generator);
                input.truncate(MOST_READ);
                let what = format_args!("header, given \"{}\"", input.escape_ascii());
                let run = || run(&mut Command::new(&header), &input);
                tally.process(what, run, &answers(&input));
            }
        }
    });
}

/// The constants, and every number of each entry's answer, a line for each; then the recorded sets,
/// the print, what is written of the sheet's worths, and a trial sheet of the same size.
fn answers(sheet: &[u8]) -> Vec<u8> {
    let field = raw::read_field(sheet, FIRST_LINE);
    let read = raw::read_sheet(sheet);
    let worths = raw::read_worths(sheet);
    let mut record = vec![0; LONGEST_RECORD];
    let sale = raw::run_sale(sheet, &mut record);
    let direct = raw::direct_way(sheet);
    let size = |number: u8, place: u32, buyers: u8, lots: u8| {
        each(&[number.into(), place, buyers.into(), lots.into()])
    };
    let lines = [
        each(&[MOST_READ, LONGEST_RECORD, LONGEST_PRINT]),
        each(&[field.next, field.number.into(), field.value]),
        size(read.number, read.place, read.buyers, read.lots),
        size(worths.number, worths.place, worths.buyers, worths.lots) + &each(&worths.worths),
        size(sale.number, sale.place, sale.buyers, sale.lots) + &each(&[sale.rounds]),
        each(&sale.prices),
        each(&sale.owners) + &each(&sale.discounts) + &each(&sale.payments),
        demand(sheet, &[0; 96]),
        demand(sheet, &sale.prices),
        settled(sheet, &[0; 96]),
        settled(sheet, &sale.prices),
        each(&[direct.number.into(), direct.place, direct.total]),
        each(&direct.owners) + &each(&direct.payments),
        each(&record[..sale.rounds as usize]),
    ];
    let mut text = lines.map(|line| line + "\n").concat().into_bytes();
    text.extend(print_sale(sheet));
    text.extend(written(&worths));
    text.extend(trial(sheet.len() as u16, &read));
    text
}

/// What is answered where the worths are written. A refused sheet has no worths.
fn written(read: &raw::Worths) -> Vec<u8> {
    let rows = read.worths.chunks(MOST_BUNDLES).take(read.buyers.into());
    let worths = rows.flat_map(|row| &row[1..=bundles(read.lots.into())]);
    let worths: Vec<u32> = worths.map(|&worth| worth.into()).collect();
    wrote(|out| raw::write_sheet(read.buyers.into(), read.lots.into(), &worths, out))
}

/// What is answered where a sheet of the size is drawn. A refused sheet has none.
fn trial(length: u16, read: &raw::Read) -> Vec<u8> {
    let (buyers, lots) = (read.buyers.into(), read.lots.into());
    wrote(|out| raw::trial_sheet(NUMBER + length, buyers, lots, TOP, out))
}

/// What is answered of writing into a buffer that is too short, and into one that is not; and what
/// the latter has.
fn wrote(write: impl Fn(&mut [u8]) -> raw::Wrote) -> Vec<u8> {
    let mut out = [0; MOST_READ];
    let [short, whole] = [TOO_SHORT, MOST_READ].map(|length| write(&mut out[..length]));
    let line = |wrote: &raw::Wrote| each(&[wrote.number.into(), wrote.place, wrote.length]) + "\n";
    let mut text = [&short, &whole].map(line).concat().into_bytes();
    text.extend(&out[..whole.length as usize]);
    text
}

/// What the buyer demands at these prices.
fn demand(sheet: &[u8], prices: &[u16; 96]) -> String {
    let demand = raw::buyer_demand(sheet, BUYER, prices);
    let (bundles, keen) = (demand.bundles.into(), demand.keen.into());
    each(&[demand.number.into(), demand.place, bundles, keen])
}

/// Whether these prices are settled.
fn settled(sheet: &[u8], prices: &[u16; 96]) -> String {
    let answer = raw::settled_at(sheet, prices);
    each(&[answer.number.into(), answer.place, answer.settled.into()])
}

/// The numbers, a blank before each.
fn each(numbers: &[impl Display]) -> String {
    numbers.iter().map(|number| format!(" {number}")).collect()
}
