//! Random monotone sheets of every size, and the same with one bundle worth just less than a part
//! of it.

use crate::generator::{bytes_of, sizes, Generator};
use crate::reckoning::sheet::{bundles, parts, place, Refusal, Sheet};
use crate::tally::Tally;

/// Sheets drawn for each size.
const DRAWN: usize = 5_000;

pub fn compare(tally: &mut Tally, generator: &mut Generator) {
    tally.group("random monotone sheets", |tally| {
        for (buyers, lots) in sizes() {
            for _ in 0..DRAWN {
                let sheet = generator.monotone(buyers, lots);
                tally.known_sheet(&bytes_of(&sheet), &Ok(sheet));
            }
        }
    });
    tally.group("random sheets with a bundle below a part", |tally| {
        for (buyers, lots) in sizes() {
            for _ in 0..DRAWN {
                let mut sheet = generator.monotone(buyers, lots);
                if let Some(place) = lower_a_bundle(generator, &mut sheet) {
                    let refusal = Refusal { number: 8, place };
                    tally.known_sheet(&bytes_of(&sheet), &Err(refusal));
                }
            }
        }
    });
}

/// Makes a bundle of two or more lots worth one less than a part of it, and gives its place. There
/// is none if all such parts are worth 0.
fn lower_a_bundle(generator: &mut Generator, sheet: &mut Sheet) -> Option<usize> {
    let mut choices = Vec::new();
    for buyer in 1..=sheet.buyers {
        for bundle in 1..=bundles(sheet.lots) {
            let worths = &sheet.worths[buyer - 1];
            let dear = parts(bundle).filter(|&part| worths[part] > 0);
            choices.extend(dear.map(|part| (buyer, bundle, worths[part] - 1)));
        }
    }
    if choices.is_empty() {
        return None;
    }
    let (buyer, bundle, worth) = generator.pick(&choices);
    sheet.worths[buyer - 1][bundle] = worth;
    Some(place(sheet.lots, buyer, bundle))
}
