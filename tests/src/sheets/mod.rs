//! The comparisons of the library's reader with the Rust reader, group by group.

use crate::generator::Generator;
use crate::tally::Tally;

mod bytes;
pub mod document;
pub mod faults;
mod fields;
mod lengths;
mod monotone;
mod random;

/// Runs every group.
pub fn compare(tally: &mut Tally, generator: &mut Generator) {
    document::compare(tally);
    lengths::compare(tally, generator);
    bytes::compare(tally, generator);
    faults::compare(tally);
    random::compare(tally, generator);
    monotone::compare(tally, generator);
    fields::compare(tally, generator);
}
