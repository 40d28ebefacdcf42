//! The teacher's page: the rounds of table 3, row by row, and the sheets that are made of numbers, with
//! what it says is printed of them.

use std::fs;

use super::command::shell;
use super::in_repository;
use crate::process::run;
use crate::reckoning::allocation::{includes, only, Buyers};
use crate::reckoning::demand::{demand, price, Prices};
use crate::reckoning::round::{Market, Round};
use crate::reckoning::sheet::{bundles, read_sheet, Sheet};
use crate::tally::{End, Tally};

const PAGE: &str = "docs/TEACHER.md";

const SHEET: &str = "examples/table-3.sheet";

/// The commands that make a sheet, and how often the page runs them.
const MAKERS: [&str; 2] = ["./hokewhuni write ", "./hokewhuni trial "];
const MADE: usize = 7;

pub fn compare(tally: &mut Tally) {
    tally.group("the teacher's page", |tally| {
        let page = tally.succeeds(PAGE, fs::read(in_repository(PAGE)));
        let bytes = tally.succeeds(SHEET, fs::read(in_repository(SHEET)));
        let sheet = read_sheet(&bytes).map_err(|refusal| format!("{refusal:?}"));
        let rows = tally.succeeds(SHEET, sheet.map(|sheet| rows(&sheet)));
        let page = String::from_utf8_lossy(&page);
        let table = table(&page);
        tally.text("the rounds of table 3", table.as_bytes(), rows.as_bytes());
        let made = made(&page);
        let all = (made.len() == MADE).then_some(());
        tally.succeeds("made sheets", all.ok_or_else(|| format!("{made:?}")));
        for (line, lines) in made {
            let end = End {
                status: lines.contains("refused by").into(),
                output: lines.as_bytes(),
                errors: b"",
            };
            let both = format!("{line} 2>&1");
            tally.process_end(&line, || run(&mut shell("sh", &both, &[]), b""), &end);
        }
    });
}

/// Each command line of the page that makes a sheet, with the indented lines that follow next.
fn made(page: &str) -> Vec<(String, String)> {
    let mut blocks = page.split("\n\n").filter_map(block);
    let mut made = Vec::new();
    while let Some(block) = blocks.next() {
        if MAKERS.iter().any(|maker| block.starts_with(maker)) {
            let line = block.trim_end().to_string();
            made.push((line, blocks.next().unwrap_or_default()));
        }
    }
    made
}

/// The lines of a paragraph that is indented, without that.
fn block(paragraph: &str) -> Option<String> {
    let lines = paragraph.lines();
    lines
        .map(|line| Some(format!("{}\n", line.strip_prefix("    ")?)))
        .collect()
}

/// The rows below the page's heading of rounds.
fn table(page: &str) -> String {
    let lines = page
        .lines()
        .skip_while(|line| !line.starts_with("| round |"));
    let rows = lines.skip(2).take_while(|line| line.starts_with('|'));
    rows.map(|row| format!("{row}\n")).collect()
}

/// A row for each round, and one for the end.
fn rows(sheet: &Sheet) -> String {
    let market = Market::new(sheet);
    let mut prices = Prices::default();
    let mut rows = String::new();
    for number in 1.. {
        let round = Round::new(&market, &prices);
        let mut cells: Vec<String> = (1..=sheet.buyers)
            .map(|buyer| quoted(sheet, &prices, buyer))
            .collect();
        let economies = market.economies.iter();
        cells.push(joined(economies.map(|economy| round.revenue(economy)), " "));
        let cells = cells.join(" | ");
        let Some(set) = round.lowest_undersupplied() else {
            return rows + &format!("| end | {cells} | none | |\n");
        };
        let members = members(sheet.buyers, set);
        rows += &format!("| {number} | {cells} | {members} | {set} |\n");
        round.raise(set, &mut prices);
    }
    rows
}

/// A buyer's prices, those of the bundles that it demands in brackets.
fn quoted(sheet: &Sheet, prices: &Prices, buyer: usize) -> String {
    let demand = demand(sheet, prices, buyer);
    let quotes = (1..=bundles(sheet.lots)).map(|bundle| {
        let price = price(prices, buyer, bundle);
        match demand.holds(bundle) {
            true => format!("({price})"),
            false => price.to_string(),
        }
    });
    joined(quotes, " ")
}

fn members(buyers: usize, set: Buyers) -> String {
    let members = (1..=buyers).filter(|&buyer| includes(set, only(buyer)));
    format!("{{{}}}", joined(members, ","))
}

fn joined<T: ToString>(parts: impl Iterator<Item = T>, between: &str) -> String {
    let parts: Vec<String> = parts.map(|part| part.to_string()).collect();
    parts.join(between)
}
