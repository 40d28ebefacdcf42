//! The writer of a lot sheet: the questions put to a list of worths, and the bytes of the sheet.
//! Written from the rules alone (docs/RULES.md), never from the Rattle code; the comments name the
//! rules that are met.

use super::print::line;
use super::sheet::{
    bundles, length, parts, refuse, Refusal, Sheet, GREATEST_WORTH, MOST_BUYERS, MOST_LOTS,
};

/// What a sheet is written of: numbers of buyers and lots, and the worths as one list in the
/// sheet's order (rules 11.1 and 11.2).
#[derive(Clone, Debug, PartialEq, Eq)]
pub struct List {
    pub buyers: u32,
    pub lots: u32,
    pub worths: Vec<u32>,
}

impl List {
    pub fn new(buyers: u32, lots: u32, worths: impl Into<Vec<u32>>) -> Self {
        List {
            buyers,
            lots,
            worths: worths.into(),
        }
    }

    /// The worths of a sheet in order (rule 11.2).
    pub fn of(sheet: &Sheet) -> Self {
        let rows = sheet.worths[..sheet.buyers].iter();
        let worths = rows.flat_map(|row| &row[1..=bundles(sheet.lots)]);
        let worths: Vec<u32> = worths.map(|&worth| worth.into()).collect();
        List::new(sheet.buyers as u32, sheet.lots as u32, worths)
    }
}

/// The sheet, in a buffer that has room for every one (rule 11.9).
pub fn written_sheet(list: &List) -> Result<Vec<u8>, Refusal> {
    whole(|out| write_sheet(list, out))
}

/// What is written into a buffer that has room for every sheet.
pub(super) fn whole(
    write: impl FnOnce(&mut [u8]) -> Result<usize, Refusal>,
) -> Result<Vec<u8>, Refusal> {
    let mut out = vec![0; length(MOST_BUYERS, MOST_LOTS)];
    let length = write(&mut out)?;
    out.truncate(length);
    Ok(out)
}

/// Writes the sheet to the front of a buffer, and answers its length (rule 11.5). Later bytes of
/// the buffer stay; after a no all of them do. Question 11 is the last (rules 11.3 and 11.4).
pub fn write_sheet(list: &List, out: &mut [u8]) -> Result<usize, Refusal> {
    let (buyers, lots) = size(list.buyers, list.lots)?;
    ask_worths(&list.worths, buyers, lots)?;
    let length = length(buyers, lots);
    if out.len() < length {
        return refuse(11, 0);
    }
    out[..length].copy_from_slice(&bytes(list, bundles(lots)));
    Ok(length)
}

/// Questions 3 and 4 (rules 11.4 and 12.5): the numbers of buyers and lots.
pub(super) fn size(buyers: u32, lots: u32) -> Result<(usize, usize), Refusal> {
    let (buyers, lots) = (buyers as usize, lots as usize);
    if !(1..=MOST_BUYERS).contains(&buyers) {
        return refuse(3, 0);
    }
    if !(1..=MOST_LOTS).contains(&lots) {
        return refuse(4, 0);
    }
    Ok((buyers, lots))
}

/// Questions 5, 7 and 8 (rule 11.4). Each is put to all of the list before the next, and the place
/// is 0 (rule 11.3).
fn ask_worths(worths: &[u32], buyers: usize, lots: usize) -> Result<(), Refusal> {
    let bundles = bundles(lots);
    if worths.len() != buyers * bundles {
        return refuse(5, 0);
    }
    let greatest = u32::from(GREATEST_WORTH);
    if worths.iter().any(|&worth| worth > greatest) {
        return refuse(7, 0);
    }
    if worths.chunks(bundles).any(falls) {
        return refuse(8, 0);
    }
    Ok(())
}

/// Whether a bundle of a buyer's is worth less than with one lot fewer (rule 3.8). The first worth
/// is that of bundle 1.
fn falls(worths: &[u32]) -> bool {
    (1..=worths.len()).any(|bundle| {
        let mut parts = parts(bundle).filter(|&part| part != 0);
        parts.any(|part| worths[bundle - 1] < worths[part - 1])
    })
}

/// The first line and a line for each buyer (rules 2.6 and 2.7).
fn bytes(list: &List, bundles: usize) -> Vec<u8> {
    let mut bytes = line(&[list.buyers, list.lots]);
    for worths in list.worths.chunks(bundles) {
        bytes.extend(line(worths));
    }
    bytes
}
