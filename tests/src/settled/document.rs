//! Prices of small sales with answers that are known, from the paper or reckoned by hand.

use crate::reckoning::demand::Prices;
use crate::sales::demands::{prices_of, TABLE_4};
use crate::sales::document::TABLE_3;
use crate::tally::Tally;

/// Sheets of one lot, each buyer's price, and whether these are settled.
const ONE_LOT: [(&str, &[u16], bool); 17] = [
    // Nobody demands the lot, and selling it brings the most: no allocation fits.
    ("     1     1\n     0\n", &[1], false),
    ("     1     1\n     0\n", &[0], true),
    // A sole buyer demands the lot up to its worth.
    ("     1     1\n     7\n", &[0], true),
    ("     1     1\n     7\n", &[3], true),
    ("     1     1\n     7\n", &[7], true),
    ("     1     1\n     7\n", &[8], false),
    ("     1     1\n     7\n", &[65_535], false),
    // The first buyer demands the lot and pays the most; the second has to be indifferent.
    ("     2     1\n     5\n     3\n", &[0, 0], false),
    ("     2     1\n     5\n     3\n", &[2, 2], false),
    ("     2     1\n     5\n     3\n", &[3, 2], false),
    ("     2     1\n     5\n     3\n", &[3, 3], true),
    ("     2     1\n     5\n     3\n", &[4, 3], true),
    ("     2     1\n     5\n     3\n", &[5, 3], true),
    ("     2     1\n     5\n     3\n", &[6, 3], false),
    // The second would pay more, but does not demand it.
    ("     2     1\n     5\n     3\n", &[3, 4], false),
    // So it is in the economy without the first buyer alone.
    ("     2     1\n     5\n     3\n", &[5, 4], false),
    // Either gets it, and both are indifferent.
    ("     2     1\n     4\n     4\n", &[4, 4], true),
];

pub fn compare(tally: &mut Tally) {
    tally.group("settled prices that are known", |tally| {
        for (sheet, row, settled) in ONE_LOT {
            let mut prices = Prices::default();
            for (buyer, &price) in row.iter().enumerate() {
                prices[buyer][1] = price;
            }
            tally.known_settled(sheet.as_bytes(), &prices, &Ok(settled));
        }
        for (place, row) in (1..).zip(&TABLE_4) {
            let settled = place == TABLE_4.len();
            tally.known_settled(TABLE_3.as_bytes(), &prices_of(row), &Ok(settled));
        }
    });
}
