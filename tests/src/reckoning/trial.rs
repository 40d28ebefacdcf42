//! Trial sheets: the questions put to the numbers of one, and its worths. Written from the rules
//! alone (docs/RULES.md), never from the Rattle code; the comments name the rules that are met.

use super::sheet::{
    bundles, parts, refuse, Answer, Refusal, Sheet, Table, GREATEST_WORTH, MOST_BUNDLES,
};
use super::writing::{size, whole, write_sheet, List};
use super::xorwow::Xorwow;

/// Draws thrown away for each one of the sheet number (rule 12.3).
const THROWN: u32 = 100;

/// The four numbers of a trial sheet (rule 12.1).
#[derive(Clone, Copy, Debug, PartialEq, Eq)]
pub struct Trial {
    pub number: u16,
    pub buyers: u32,
    pub lots: u32,
    pub top: u32,
}

/// The trial sheet, in a buffer that has room for every sheet (rule 12.9).
pub fn drawn_sheet(trial: &Trial) -> Result<Vec<u8>, Refusal> {
    whole(|out| write_drawn(&draw_sheet(trial), out))
}

/// Writes the sheet that is drawn to the front of a buffer, and answers its length (rule 12.6).
/// Question 11 is the last; no other that a list is asked gets a no (rules 12.5 and 12.7).
pub fn write_drawn(drawn: &Answer, out: &mut [u8]) -> Result<usize, Refusal> {
    match drawn {
        Ok(sheet) => write_sheet(&List::of(sheet), out),
        Err(refusal) => Err(refusal.clone()),
    }
}

/// Questions 3, 4 and 7 (rule 12.5), and the sheet that is drawn.
pub fn draw_sheet(trial: &Trial) -> Answer {
    let (buyers, lots) = size(trial.buyers, trial.lots)?;
    if trial.top > u32::from(GREATEST_WORTH) {
        return refuse(7, 0);
    }
    let mut xorwow = Xorwow::new();
    xorwow.skip(THROWN * u32::from(trial.number));
    let mut worths = Table::default();
    for row in &mut worths[..buyers] {
        draw_row(&mut xorwow, lots, trial.top, row);
    }
    Ok(Sheet {
        buyers,
        lots,
        worths,
    })
}

/// A buyer's worths, in the order of the bundles' numbers (rule 12.3). Each has a draw of its own,
/// and the empty bundle is worth 0 (rule 12.4).
fn draw_row(xorwow: &mut Xorwow, lots: usize, top: u32, row: &mut [u16; MOST_BUNDLES]) {
    for bundle in 1..=bundles(lots) {
        let part = parts(bundle).map(|part| row[part]).max().unwrap_or(0);
        let worth = u32::from(part) + xorwow.draw() % (top + 1);
        row[bundle] = worth.min(GREATEST_WORTH.into()) as u16;
    }
}
