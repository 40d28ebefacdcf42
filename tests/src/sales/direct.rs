//! The direct way alone, which uses no prices and takes no record: the sheets of the rules, random
//! sheets of every size with worths up to the greatest, and refused sheets.

use crate::generator::{bytes_of, Generator};
use crate::reckoning::sheet::Refusal;
use crate::sales::document::SETTLED;
use crate::sales::refusals::refused;
use crate::sheets::document::REFUSED;
use crate::tally::Tally;

/// Sheets drawn.
const DRAWN: usize = 200_000;

/// Refused sheets drawn.
const REFUSED_DRAWN: usize = 20_000;

pub fn compare(tally: &mut Tally, generator: &mut Generator) {
    tally.group("direct way of the rules", document);
    tally.group("direct way of random sheets of every size", |tally| {
        for _ in 0..DRAWN {
            let (buyers, lots) = generator.size();
            tally.direct(&bytes_of(&generator.monotone(buyers, lots)));
        }
    });
    tally.group("direct way of refused sheets", |tally| {
        for _ in 0..REFUSED_DRAWN {
            tally.direct(&refused(generator));
        }
    });
}

/// The sheets with the answers that the rules name, or that follow from those by hand.
fn document(tally: &mut Tally) {
    for settled in &SETTLED {
        tally.known_direct(settled.text.as_bytes(), &Ok(settled.direct()));
    }
    for (text, number, place) in REFUSED {
        let refusal = Err(Refusal { number, place });
        tally.known_direct(text.as_bytes(), &refusal);
    }
}
