//! The sheets of the rules (sections 6 and 7), with the answers that are named there.

use crate::generator::bytes_of;
use crate::reckoning::sheet::{bundles, Refusal, Sheet, Table, MOST_BUYERS, MOST_LOTS};
use crate::tally::Tally;

/// Accepted sheets, with their lots and each buyer's worths.
pub const ACCEPTED: [(&str, usize, &[&[u16]]); 7] = [
    // The example (rule 6.5).
    (
        "     2     2\n     2     0     2\n     0     1     3\n",
        2,
        &[&[2, 0, 2], &[0, 1, 3]],
    ),
    // Table 3 of the paper (rule 7.4).
    (
        "     3     2\n     3     0     3\n     0     6     6\n     0     2     4\n",
        2,
        &[&[3, 0, 3], &[0, 6, 6], &[0, 2, 4]],
    ),
    // Rule 7.5.
    ("     2     1\n     5\n     3\n", 1, &[&[5], &[3]]),
    // Rule 7.6.
    ("     2     1\n     4\n     4\n", 1, &[&[4], &[4]]),
    // Rule 7.7; and the shortest sheet, of 20 bytes (rule 7.11).
    ("     1     1\n     7\n", 1, &[&[7]]),
    // Rule 7.8.
    ("     2     1\n     0\n     0\n", 1, &[&[0], &[0]]),
    // The greatest worth (rule 7.13).
    ("     1     1\n  9999\n", 1, &[&[9_999]]),
];

/// Refused sheets, with their number and place.
pub const REFUSED: [(&str, u8, usize); 11] = [
    // Rule 7.9.
    ("     2     2", 1, 0),
    // Rule 7.10.
    ("     1     1\n", 5, 0),
    // Rule 7.12.
    (
        "     2     2\n     4     0     3\n     0     1     3\n",
        8,
        25,
    ),
    // One more than the greatest worth (rule 7.13).
    ("     1     1\n 10000\n", 7, 13),
    (
        "     2     2\n     2     0     2\n     0     1 10000\n",
        7,
        44,
    ),
    // A zero in front of a worth (rule 7.14).
    ("     1     1\n    03\n", 6, 13),
    (
        "     2     2\n     2     0    03\n     0     1     3\n",
        6,
        25,
    ),
    // The same in the first line (rule 7.14).
    ("    03     1\n     7\n     7\n     7\n", 2, 0),
    ("     1    03\n     7\n", 2, 0),
    ("    03     1\n", 2, 0),
    ("     1    03\n", 2, 0),
];

/// The length of the longest sheet, six buyers and four lots.
const LONGEST: usize = 559;

pub fn compare(tally: &mut Tally) {
    tally.group("sheets of the rules", |tally| {
        for (text, lots, rows) in ACCEPTED {
            tally.known_sheet(text.as_bytes(), &Ok(sheet_of(lots, rows)));
        }
        for (text, number, place) in REFUSED {
            tally.known_sheet(text.as_bytes(), &Err(Refusal { number, place }));
        }
        longest(tally);
    });
}

/// The longest sheet that is accepted (rule 7.11).
fn longest(tally: &mut Tally) {
    let row: Vec<u16> = (1..=bundles(MOST_LOTS) as u16).collect();
    let sheet = sheet_of(MOST_LOTS, &[&row[..]; MOST_BUYERS]);
    let bytes = bytes_of(&sheet);
    assert_eq!(bytes.len(), LONGEST);
    tally.known_sheet(&bytes, &Ok(sheet));
}

/// The sheet with these rows of worths, from bundle 1 on.
pub fn sheet_of(lots: usize, rows: &[&[u16]]) -> Sheet {
    let mut worths = Table::default();
    for (line, row) in worths.iter_mut().zip(rows) {
        line[1..=bundles(lots)].copy_from_slice(row);
    }
    Sheet {
        buyers: rows.len(),
        lots,
        worths,
    }
}
