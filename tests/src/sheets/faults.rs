//! Sheets with one, two and three faults at once, at all combinations of places. A question is put
//! to all of the sheet before the next one is (rule 3.12): the answer is the lowest number among
//! the faults, wherever they stand, and with 6, 7 and 8 the first place of that number.

use crate::generator::{bytes_of, field};
use crate::reckoning::sheet::{
    bundles, length, line, place, Refusal, Sheet, Table, FIELD, FIRST_LINE, LINE_END,
};
use crate::tally::Tally;

/// Moderate sizes, as buyers and lots.
const SIZES: [(usize, usize); 2] = [(3, 2), (2, 3)];

/// What each lot adds to a bundle's worth in the good sheet.
const LOT: u16 = 10;

/// Fields that are not a number.
const BAD_FIELDS: [&[u8; FIELD]; 4] = [b"    03", b"      ", b"3     ", b"    3:"];

/// An edit of the good sheet that makes the answer to one question no.
struct Fault {
    number: u8,
    edit: Edit,
}

enum Edit {
    Write(usize, Vec<u8>),
    Resize(usize),
}

pub fn compare(tally: &mut Tally) {
    tally.group("sheets with up to three faults", |tally| {
        for (buyers, lots) in SIZES {
            let good = bytes_of(&good_sheet(buyers, lots));
            let faults = faults(buyers, lots);
            for (i, one) in faults.iter().enumerate() {
                combine(tally, &good, &[one]);
                for (j, two) in faults.iter().enumerate().skip(i + 1) {
                    combine(tally, &good, &[one, two]);
                    for three in &faults[j + 1..] {
                        combine(tally, &good, &[one, two, three]);
                    }
                }
            }
        }
    });
}

/// Compares the sheet with these faults, if each has a place of its own.
fn combine(tally: &mut Tally, good: &[u8], faults: &[&Fault]) {
    let mut sheet = good.to_vec();
    for (i, fault) in faults.iter().enumerate() {
        if faults[..i].iter().any(|earlier| earlier.overlaps(fault)) {
            return;
        }
        match &fault.edit {
            Edit::Write(at, bytes) => sheet[*at..][..bytes.len()].copy_from_slice(bytes),
            Edit::Resize(length) => sheet.resize(*length, LINE_END),
        }
    }
    let refusals = faults.iter().map(|fault| (fault.number, fault.place()));
    if let Some((number, place)) = refusals.min() {
        tally.known_sheet(&sheet, &Err(Refusal { number, place }));
    }
}

impl Fault {
    fn write(number: u8, at: usize, bytes: &[u8]) -> Self {
        Fault {
            number,
            edit: Edit::Write(at, bytes.to_vec()),
        }
    }

    fn resize(number: u8, length: usize) -> Self {
        Fault {
            number,
            edit: Edit::Resize(length),
        }
    }

    /// Whether one edit would undo the other.
    fn overlaps(&self, other: &Fault) -> bool {
        match (&self.edit, &other.edit) {
            (Edit::Write(one, _), Edit::Write(other, _)) => one == other,
            (Edit::Resize(_), Edit::Resize(_)) => true,
            _ => false,
        }
    }

    /// The place of a refusal for this fault (rule 3.13).
    fn place(&self) -> usize {
        match self.edit {
            Edit::Write(at, _) if self.number >= 6 => at,
            _ => 0,
        }
    }
}

/// Every fault of the good sheet. Those that resize it come last, after anything is written.
fn faults(buyers: usize, lots: usize) -> Vec<Fault> {
    let mut faults = first_line_faults();
    for buyer in 1..=buyers {
        for bundle in 1..=bundles(lots) {
            faults.extend(worth_faults(place(lots, buyer, bundle), bundle));
        }
        let line_end = place(lots, buyer, 1) + line(lots) - 1;
        faults.extend([b' ', b'3'].map(|byte| Fault::write(6, line_end, &[byte])));
    }
    let length = length(buyers, lots);
    faults.extend([0, FIRST_LINE - 1].map(|short| Fault::resize(1, short)));
    faults.extend([length - 1, length + 1].map(|other| Fault::resize(5, other)));
    faults
}

/// The faults of questions 2, 3 and 4.
fn first_line_faults() -> Vec<Fault> {
    let mut faults = vec![Fault::write(2, FIRST_LINE - 1, b" ")];
    for bad in BAD_FIELDS {
        faults.extend([0, FIELD].map(|at| Fault::write(2, at, bad)));
    }
    faults.extend([0, 7, 999_999].map(|buyers| Fault::write(3, 0, &field(buyers))));
    faults.extend([0, 5, 999_999].map(|lots| Fault::write(4, FIELD, &field(lots))));
    faults
}

/// The faults of questions 6, 7 and 8 in the field of a bundle.
fn worth_faults(at: usize, bundle: usize) -> Vec<Fault> {
    let mut faults = Vec::from(BAD_FIELDS.map(|bad| Fault::write(6, at, bad)));
    faults.extend([10_000, 999_999].map(|worth| Fault::write(7, at, &field(worth))));
    let lots = bundle.count_ones() as u16;
    if lots > 1 {
        let worth = LOT * (lots - 1) - 1;
        faults.push(Fault::write(8, at, &field(worth.into())));
    }
    faults
}

/// A sheet in which every bundle is worth more than each part of it.
pub fn good_sheet(buyers: usize, lots: usize) -> Sheet {
    let mut worths = Table::default();
    for row in &mut worths[..buyers] {
        for (bundle, worth) in row[..=bundles(lots)].iter_mut().enumerate() {
            *worth = LOT * bundle.count_ones() as u16;
        }
    }
    Sheet {
        buyers,
        lots,
        worths,
    }
}
