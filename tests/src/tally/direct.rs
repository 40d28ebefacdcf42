//! The comparison of the direct way's answers, and of what a buyer has from two sheets.

use hokewhuni::raw;

use super::{bare, difference, safe, Tally};
use crate::generator::bytes_of;
use crate::reckoning::allocation::Owners;
use crate::reckoning::direct::{direct_way, Direct};
use crate::reckoning::sheet::{Refusal, Sheet, MOST_BUYERS};

/// Two accepted sheets that are alike but for one buyer's worths; the first has its true ones (rule
/// 5.15).
pub struct Pair {
    pub buyer: usize,
    pub first: Sheet,
    pub second: Sheet,
}

impl Tally {
    /// Compares the whole answers of the direct way.
    pub fn direct(&mut self, sheet: &[u8]) {
        let answer = raw::direct_way(sheet);
        let differences = direct_differences(sheet, &answer, &direct_way(sheet));
        self.count(sheet, &differences);
    }

    /// As `direct`, where both have to give the answer known beforehand.
    pub fn known_direct(&mut self, sheet: &[u8], known: &Result<Direct, Refusal>) {
        let direct = direct_way(sheet);
        let answer = raw::direct_way(sheet);
        let mut differences = direct_differences(sheet, &answer, &direct);
        differences.extend(difference("direct", ("known", known), ("Rust", &direct)));
        self.count(sheet, &differences);
    }

    /// Whether the second sheet gives the buyer no more than the first (rule 5.15): of two sales,
    /// each with its record, and of two direct reckonings, one comparison for each.
    pub fn pair(&mut self, pair: &Pair, mut records: [Vec<u8>; 2]) {
        let sheets = [&pair.first, &pair.second].map(bytes_of);
        let sold = [0, 1].map(|at| {
            let sale = raw::run_sale(&sheets[at], &mut records[at]);
            pair.worth_less_payment(sale.number, &sale.owners, &sale.payments)
        });
        let direct = [0, 1].map(|at| {
            let direct = raw::direct_way(&sheets[at]);
            pair.worth_less_payment(direct.number, &direct.owners, &direct.payments)
        });
        for (entry, had) in [("run_sale", sold), ("direct_way", direct)] {
            let gain = gain(entry, pair.buyer, &sheets[1], had);
            self.count(&sheets[0], gain.as_slice());
        }
    }
}

impl Pair {
    /// What the buyer has from an answer: worth less payment, by the worths of the first sheet.
    /// None after a refusal.
    fn worth_less_payment(
        &self,
        number: u8,
        owners: &Owners,
        payments: &[u32; MOST_BUYERS],
    ) -> Option<i64> {
        let places = (0..).zip(owners);
        let owned = places.filter(|(_, &owner)| usize::from(owner) == self.buyer);
        let bundle: usize = owned.map(|(place, _)| 1 << place).sum();
        let worth = self.first.worths[self.buyer - 1][bundle];
        let payment = payments[self.buyer - 1];
        (number == 0).then_some(i64::from(worth) - i64::from(payment))
    }
}

/// What is printed if a sheet is refused, or the first gives the buyer less than the second.
fn gain(
    entry: &str,
    buyer: usize,
    second_sheet: &[u8],
    [first, second]: [Option<i64>; 2],
) -> Option<String> {
    let holds = second.is_some() && first >= second;
    (!holds).then(|| {
        format!(
            "  worth less payment of buyer {buyer} by {entry}\n    \
             from that sheet: {first:?}\n    \
             from the sheet \"{}\": {second:?}",
            second_sheet.escape_ascii()
        )
    })
}

/// What is printed of the library's direct way, with this bare answer and by the crate, where it
/// differs from the Rust reckoning's.
pub(super) fn direct_differences(
    sheet: &[u8],
    answer: &raw::Direct,
    direct: &Result<Direct, Refusal>,
) -> Vec<String> {
    let mut differences = Vec::from_iter(difference(
        "direct_way",
        ("library", answer),
        ("Rust", &bare::direct(direct)),
    ));
    let answer = hokewhuni::direct_way(sheet);
    differences.extend(safe::differences(
        "direct_way",
        &answer,
        direct,
        safe::direct,
    ));
    differences
}
