//! Question 8 of each bundle and each of its parts with one lot fewer, at every size and buyer: a
//! bundle may be worth as much as the part, and not one less (rules 3.8 and 11.4).

use super::{refused, LONGEST};
use crate::generator::{bytes_of, sizes, Generator};
use crate::reckoning::sheet::{bundles, parts, Sheet, Table, GREATEST_WORTH};
use crate::reckoning::writing::List;
use crate::tally::Tally;

pub fn compare(tally: &mut Tally, generator: &mut Generator) {
    tally.group("writing bundles against their parts", |tally| {
        for (buyers, lots) in sizes() {
            for row in 0..buyers {
                for bundle in 1..=bundles(lots) {
                    for part in parts(bundle).filter(|&part| part != 0) {
                        let mut sheet = worth_of_part(generator, buyers, lots, row, part);
                        let (list, bytes) = (List::of(&sheet), bytes_of(&sheet));
                        tally.known_writing(&list, &generator.bytes(LONGEST), &Ok(bytes));
                        sheet.worths[row][bundle] -= 1;
                        refused(tally, generator, &List::of(&sheet), 8);
                    }
                }
            }
        }
    });
}

/// A sheet in which one buyer has a worth, any but 0, for the bundles with all lots of a part, and
/// 0 for others; the other buyers have any worths. So one of these bundles that is worth less is
/// worth less than no other part of it.
fn worth_of_part(
    generator: &mut Generator,
    buyers: usize,
    lots: usize,
    row: usize,
    part: usize,
) -> Sheet {
    let mut sheet = generator.monotone(buyers, lots);
    let worth = 1 + generator.below(GREATEST_WORTH.into()) as u16;
    sheet.worths[row] = Table::default()[row];
    for larger in (part..=bundles(lots)).filter(|larger| larger & part == part) {
        sheet.worths[row][larger] = worth;
    }
    sheet
}
