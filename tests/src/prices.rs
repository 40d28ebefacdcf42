//! Makers of prices that are brought from outside: entries that are read, and those that never are.

use crate::generator::Generator;
use crate::reckoning::demand::Prices;
use crate::reckoning::sheet::{bundles, Sheet};

/// How an entry of the prices is chosen.
#[derive(Clone, Copy)]
pub enum Choice {
    Only(u16),
    Any,
    Below(usize),
    /// The worth, or a price at most this far from it.
    Near(usize),
    /// The worth less this much, so that many bundles have the same payoff.
    Less(u16),
}

/// How the entries that are never read are chosen.
pub const NEVER_READ: [Choice; 4] = [
    Choice::Only(0),
    Choice::Only(u16::MAX),
    Choice::Any,
    Choice::Below(4),
];

/// Chooses the entries that are read, or those that never are (rule 1.7).
pub fn choose(
    generator: &mut Generator,
    sheet: &Sheet,
    prices: &mut Prices,
    read: bool,
    choice: Choice,
) {
    for (row, worths) in sheet.worths.iter().enumerate() {
        for (bundle, &worth) in worths.iter().enumerate() {
            let present = row < sheet.buyers && (1..=bundles(sheet.lots)).contains(&bundle);
            if present == read {
                prices[row][bundle] = choice.price(generator, worth);
            }
        }
    }
}

impl Choice {
    fn price(self, generator: &mut Generator, worth: u16) -> u16 {
        match self {
            Choice::Only(price) => price,
            Choice::Any => generator.draw() as u16,
            Choice::Below(bound) => generator.below(bound) as u16,
            Choice::Near(most) => {
                (worth + generator.below(2 * most + 1) as u16).saturating_sub(most as u16)
            }
            Choice::Less(less) => worth.saturating_sub(less),
        }
    }
}
