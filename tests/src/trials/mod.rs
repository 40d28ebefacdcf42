//! The comparisons of the library's trial sheets with the Rust reckoning, group by group (rules 12.2
//! to 12.7).

use crate::generator::Generator;
use crate::reckoning::trial::Trial;
use crate::tally::Tally;

mod buffers;
mod document;
mod numbers;
mod refusals;
mod sales;
mod sizes;
mod tops;
mod turns;

/// The least tops and the greatest, one with which no worth is cut to 9,999, and one with which some
/// are.
const TOPS: [u32; 6] = [0, 1, 5, 4_000, 9_998, 9_999];

/// Runs the groups of draws, buffers and refusals.
pub fn compare(tally: &mut Tally, generator: &mut Generator) {
    document::compare(tally, generator);
    tops::compare(tally, generator);
    buffers::compare(tally, generator);
    refusals::compare(tally, generator);
    turns::compare(tally, generator);
}

/// Runs the groups of every size, of high sheet numbers and of sales, which take longer.
pub fn compare_sizes(tally: &mut Tally, generator: &mut Generator) {
    sizes::compare(tally, generator);
    numbers::compare(tally, generator);
    sales::compare(tally, generator);
}

/// The numbers of a trial sheet of this size.
fn trial(number: u16, (buyers, lots): (usize, usize), top: u32) -> Trial {
    Trial {
        number,
        buyers: buyers as u32,
        lots: lots as u32,
        top,
    }
}

/// The numbers of a trial sheet of any size and top, with a sheet number below the bound.
pub fn any_trial(generator: &mut Generator, bound: usize) -> Trial {
    let number = generator.below(bound) as u16;
    trial(number, generator.size(), any_top(generator))
}

/// One of the tops, or any.
fn any_top(generator: &mut Generator) -> u32 {
    let tops = [generator.pick(&TOPS), generator.below(10_000) as u32];
    generator.pick(&tops)
}
