//! The sales of the rules (sections 6 to 8), with the answers that are named there.

use crate::generator::bytes_of;
use crate::reckoning::direct::Direct;
use crate::reckoning::sale::Closing;
use crate::reckoning::sheet::{bundles, Refusal, MOST_BUYERS, MOST_LOTS};
use crate::sheets::document::{sheet_of, REFUSED};
use crate::tally::{Tally, Told};

/// The sheet of table 3 of the paper.
pub const TABLE_3: &str =
    "     3     2\n     3     0     3\n     0     6     6\n     0     2     4\n";

/// A settled sale: its sheet, question 9's sum, the bytes recorded, the direct way's T, the closing
/// of lots 1, 2, .. and buyers 1, 2, .., and what is printed.
pub struct Settled {
    pub text: &'static str,
    pub record_needed: usize,
    recorded: &'static [u8],
    total: u32,
    owners: &'static [u8],
    charges: &'static [u32],
    discounts: &'static [u32],
    payments: &'static [u32],
    pub printed: &'static str,
}

pub const SETTLED: [Settled; 8] = [
    // The example (rules 6.5, 7.2 and 7.3).
    Settled {
        text: "     2     2\n     2     0     2\n     0     1     3\n",
        record_needed: 5,
        recorded: &[3, 3],
        total: 3,
        owners: &[1, 2],
        charges: &[2, 0],
        discounts: &[0, 0],
        payments: &[2, 0],
        printed: concat!(
            "     0     2     2     2\n",
            "     1     1\n",
            "     2     2\n",
            "     1     2     0     2\n",
            "     2     0     0     0\n",
        ),
    },
    // Table 3 (rule 7.4). Its payments show a sale that stops early (rule 8.1) or charges the last
    // prices (rule 8.2).
    Settled {
        text: TABLE_3,
        record_needed: 13,
        recorded: &[5, 2, 4, 1, 2, 4, 2, 4, 2],
        total: 9,
        owners: &[1, 2],
        charges: &[2, 4, 0],
        discounts: &[2, 2, 0],
        payments: &[0, 2, 0],
        printed: concat!(
            "     0     3     2     9\n",
            "     1     1\n",
            "     2     2\n",
            "     1     2     2     0\n",
            "     2     4     2     2\n",
            "     3     0     0     0\n",
        ),
    },
    // Reckoned by hand, for the economies that lack none but a loser (rule 8.3): buyers 2 and 3
    // lose, and leaving out the economy without buyer 2 records 3 5.
    Settled {
        text: "     3     2\n     0     0     2\n     0     1     1\n     1     0     1\n",
        record_needed: 4,
        recorded: &[3, 4, 1],
        total: 2,
        owners: &[1, 1],
        charges: &[2, 0, 0],
        discounts: &[0, 0, 0],
        payments: &[2, 0, 0],
        printed: concat!(
            "     0     3     2     3\n",
            "     1     1\n",
            "     2     1\n",
            "     1     2     0     2\n",
            "     2     0     0     0\n",
            "     3     0     0     0\n",
        ),
    },
    // Rule 7.5.
    Settled {
        text: "     2     1\n     5\n     3\n",
        record_needed: 8,
        recorded: &[3, 3, 3],
        total: 5,
        owners: &[1],
        charges: &[3, 0],
        discounts: &[0, 0],
        payments: &[3, 0],
        printed: concat!(
            "     0     2     1     3\n",
            "     1     1\n",
            "     1     3     0     3\n",
            "     2     0     0     0\n",
        ),
    },
    // Rule 7.6.
    Settled {
        text: "     2     1\n     4\n     4\n",
        record_needed: 8,
        recorded: &[3, 3, 3, 3],
        total: 4,
        owners: &[1],
        charges: &[4, 0],
        discounts: &[0, 0],
        payments: &[4, 0],
        printed: concat!(
            "     0     2     1     4\n",
            "     1     1\n",
            "     1     4     0     4\n",
            "     2     0     0     0\n",
        ),
    },
    // Rule 7.7.
    Settled {
        text: "     1     1\n     7\n",
        record_needed: 7,
        recorded: &[],
        total: 7,
        owners: &[1],
        charges: &[0],
        discounts: &[0],
        payments: &[0],
        printed: concat!(
            "     0     1     1     0\n",
            "     1     1\n",
            "     1     0     0     0\n",
        ),
    },
    // Rule 7.8; with payoff 0 nobody is keen (rule 8.4).
    Settled {
        text: "     2     1\n     0\n     0\n",
        record_needed: 0,
        recorded: &[],
        total: 0,
        owners: &[0],
        charges: &[0, 0],
        discounts: &[0, 0],
        payments: &[0, 0],
        printed: concat!(
            "     0     2     1     0\n",
            "     1     0\n",
            "     1     0     0     0\n",
            "     2     0     0     0\n",
        ),
    },
    // The greatest worth (rule 7.13).
    Settled {
        text: "     1     1\n  9999\n",
        record_needed: 9_999,
        recorded: &[],
        total: 9_999,
        owners: &[1],
        charges: &[0],
        discounts: &[0],
        payments: &[0],
        printed: concat!(
            "     0     1     1     0\n",
            "     1     1\n",
            "     1     0     0     0\n",
        ),
    },
];

/// The bytes that records hold beforehand.
const OLD: u8 = 0xee;

/// A record long enough for each of the sheets.
const LONG: usize = 10_000;

pub fn compare(tally: &mut Tally) {
    tally.group("sales of the rules", |tally| {
        for settled in &SETTLED {
            settle(tally, settled);
        }
        for (text, number, place) in REFUSED {
            for length in [0, LONG] {
                let refusal = Err(Refusal { number, place });
                tally.known_sale(text.as_bytes(), &vec![OLD; length], &refusal);
            }
        }
        longest(tally);
    });
}

/// The sale with a record of question 9's sum and a longer one; with one byte fewer, refusal 9.
fn settle(tally: &mut Tally, settled: &Settled) {
    let (sheet, needed) = (settled.text.as_bytes(), settled.record_needed);
    let told = Ok(settled.told());
    for length in [needed, LONG] {
        tally.known_sale(sheet, &vec![OLD; length], &told);
    }
    if needed > 0 {
        let refusal = Err(Refusal {
            number: 9,
            place: 0,
        });
        tally.known_sale(sheet, &vec![OLD; needed - 1], &refusal);
    }
}

/// The longest sheet that is accepted (rule 7.11).
fn longest(tally: &mut Tally) {
    let row: Vec<u16> = (1..=bundles(MOST_LOTS) as u16).collect();
    let sheet = bytes_of(&sheet_of(MOST_LOTS, &[&row[..]; MOST_BUYERS]));
    tally.sale(&sheet, &[OLD; LONG]);
}

impl Settled {
    fn told(&self) -> Told {
        Told {
            recorded: self.recorded.to_vec(),
            closing: Closing {
                owners: padded(self.owners),
                charges: padded(self.charges),
                discounts: padded(self.discounts),
                payments: padded(self.payments),
            },
        }
    }

    /// What the direct way answers for the sheet.
    pub fn direct(&self) -> Direct {
        Direct {
            total: self.total,
            owners: padded(self.owners),
            payments: padded(self.payments),
        }
    }
}

/// The numbers, followed by those of absent lots or buyers, which are 0.
fn padded<T: Copy + Default, const PLACES: usize>(numbers: &[T]) -> [T; PLACES] {
    let mut places = [T::default(); PLACES];
    places[..numbers.len()].copy_from_slice(numbers);
    places
}
