//! Refused sheets, damaged at random, at any prices. A refusal has its number and place, and is not
//! settled (rule 3.14).

use crate::generator::Generator;
use crate::reckoning::demand::Prices;
use crate::reckoning::sheet::read_sheet;
use crate::sales::refusals::refused;
use crate::tally::Tally;

/// Sheets drawn.
const DRAWN: usize = 10_000;

pub fn compare(tally: &mut Tally, generator: &mut Generator) {
    tally.group("settled prices of refused sheets", |tally| {
        for _ in 0..DRAWN {
            let sheet = refused(generator);
            let known = read_sheet(&sheet).map(|_| false);
            let mut prices = Prices::default();
            tally.known_settled(&sheet, &prices, &known);
            prices
                .as_flattened_mut()
                .fill_with(|| generator.draw() as u16);
            tally.known_settled(&sheet, &prices, &known);
        }
    });
}
