//! The comparisons of the library's sales, printed sales, demand answers and direct way with the
//! Rust reckoning, group by group.

use crate::generator::Generator;
use crate::tally::Tally;

pub(crate) mod demands;
mod direct;
pub(crate) mod document;
mod full;
mod gains;
mod prints;
pub(crate) mod random;
mod records;
pub(crate) mod refusals;
pub(crate) mod tables;

/// Runs the groups of sales, printed sales and demand answers.
pub fn compare(tally: &mut Tally, generator: &mut Generator) {
    document::compare(tally);
    tables::compare(tally, generator);
    random::compare(tally, generator);
    records::compare(tally, generator);
    refusals::compare(tally, generator);
    demands::compare(tally, generator);
    full::compare(tally, generator);
    prints::compare(tally, generator);
}

/// Runs the groups of the direct way, and the search for a gain. They take about as long as all
/// other groups of sheets and sales.
pub fn compare_direct(tally: &mut Tally, generator: &mut Generator) {
    direct::compare(tally, generator);
    gains::compare(tally, generator);
}
