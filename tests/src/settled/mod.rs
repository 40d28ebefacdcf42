//! The comparisons of the library's answer to whether prices are settled with the Rust reckoning,
//! group by group.

use crate::generator::Generator;
use crate::reckoning::sheet::Refusal;
use crate::tally::Tally;

mod document;
mod outside;
mod refusals;
mod rounds;
mod tables;

pub fn compare(tally: &mut Tally, generator: &mut Generator) {
    document::compare(tally);
    tables::compare(tally);
    outside::compare(tally, generator);
    rounds::compare(tally, generator);
    refusals::compare(tally, generator);
}

/// How many answers to accepted sheets were yes, and how many no.
#[derive(Default)]
struct Answers {
    yes: usize,
    no: usize,
}

impl Answers {
    fn add(&mut self, answer: Result<bool, Refusal>) {
        match answer {
            Ok(true) => self.yes += 1,
            Ok(false) => self.no += 1,
            Err(_) => {}
        }
    }

    /// Counts whether each answer was given so many times at least. Where one of them is rare, what
    /// always gives the other would pass.
    fn occur(&self, tally: &mut Tally, what: &str, least: usize) {
        tally.occurs(format_args!("settled, {what}"), self.yes, least);
        tally.occurs(format_args!("not settled, {what}"), self.no, least);
    }
}
