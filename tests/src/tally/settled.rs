//! The comparison of the answers to whether prices are settled.

use std::fmt::Display;

use hokewhuni::raw;

use super::{bare, difference, safe, Tally};
use crate::reckoning::demand::Prices;
use crate::reckoning::round::Market;
use crate::reckoning::settled::{settled_at, without_equilibrium};
use crate::reckoning::sheet::{read_sheet, Refusal};

impl Tally {
    /// Compares the answers to whether prices are settled, and answers the Rust reckoning's.
    pub fn settled(&mut self, sheet: &[u8], prices: &Prices) -> Result<bool, Refusal> {
        let (settled, differences) = compare_settled(sheet, prices);
        self.count(sheet, &differences);
        settled
    }

    /// As `settled`, where both have to give the answer known beforehand.
    pub fn known_settled(&mut self, sheet: &[u8], prices: &Prices, known: &Result<bool, Refusal>) {
        let (settled, mut differences) = compare_settled(sheet, prices);
        let what = format_args!("settled at {prices:?}");
        differences.extend(difference(what, ("known", known), ("Rust", &settled)));
        self.count(sheet, &differences);
    }

    /// Counts whether there were enough of what has to occur often.
    pub fn occurs(&mut self, what: impl Display, times: usize, least: usize) {
        let few = (times < least).then(|| format!("  {times} times where {least} are the least"));
        self.count_of(what, few.as_slice());
    }
}

/// What the Rust reckoning says of prices, and its differences from the library and from the
/// paper's definition.
fn compare_settled(sheet: &[u8], prices: &Prices) -> (Result<bool, Refusal>, Vec<String>) {
    let settled = settled_at(sheet, prices);
    let what = format_args!("settled_at {prices:?}");
    let mut differences = Vec::from_iter(difference(
        what,
        ("library", &raw::settled_at(sheet, &bare::flat(prices))),
        ("Rust", &bare::settled(&settled)),
    ));
    let answer = hokewhuni::settled_at(sheet, prices);
    differences.extend(safe::differences(what, &answer, &settled, |&settled| {
        settled
    }));
    let universal = read_sheet(sheet).map(|sheet| {
        let market = Market::new(&sheet);
        without_equilibrium(&market, prices).is_empty()
    });
    differences.extend(difference(what, ("paper", &universal), ("Rust", &settled)));
    (settled, differences)
}
