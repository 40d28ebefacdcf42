//! The comparison of demand answers, of sales and of their records.

use hokewhuni::raw;

use super::direct::direct_differences;
use super::lent::{inside, lent_difference, within_margins};
use super::{bare, difference, safe, text_difference, Tally};
use crate::reckoning::demand::{buyer_demand, Demand, Prices};
use crate::reckoning::direct::direct_way;
use crate::reckoning::print::{printed, LONGEST_RECORD};
use crate::reckoning::sale::{run_sale, Closing, Sale};
use crate::reckoning::sheet::Refusal;

/// From this number on, a number of the crate's is beyond the library's: it is that of no buyer,
/// and nobody has so many buyers or lots, or such a top.
pub(super) const BEYOND: usize = 1 << 32;

/// What a settled sale comes to: the bytes recorded, one for each round, and the closing.
#[derive(Clone, Debug, PartialEq, Eq)]
pub struct Told {
    pub recorded: Vec<u8>,
    pub closing: Closing,
}

impl Tally {
    /// Compares the whole answers to a sale and the whole records after it, and the direct way's
    /// answers to its sheet. The record is lent with these bytes.
    pub fn sale(&mut self, sheet: &[u8], record: &[u8]) {
        let (_, differences) = compare_sale(sheet, record);
        self.count(sheet, &differences);
    }

    /// As `sale`, where both have to give the answer known beforehand.
    pub fn known_sale(&mut self, sheet: &[u8], record: &[u8], known: &Result<Told, Refusal>) {
        let (told, mut differences) = compare_sale(sheet, record);
        differences.extend(difference("sale", ("known", known), ("Rust", &told)));
        self.count(sheet, &differences);
    }

    /// Compares the sale and the printed sale of the crate's functions that bring the record
    /// themselves.
    pub fn own_record(&mut self, sheet: &[u8]) {
        let mut record = vec![0; LONGEST_RECORD];
        let sale = run_sale(sheet, &mut record);
        let told = |sale: &Sale| (safe::sale(sale), record[..sale.rounds].to_vec());
        let answer = hokewhuni::recorded_sale(sheet);
        let mut differences = safe::differences("recorded_sale", &answer, &sale, told);
        differences.extend(text_difference(
            "printed_sale",
            ("crate", &hokewhuni::printed_sale(sheet)),
            ("Rust", &printed(&sale)),
        ));
        self.count(sheet, &differences);
    }

    /// Compares the answers of what a buyer demands.
    pub fn demand(&mut self, sheet: &[u8], buyer: u32, prices: &Prices) {
        let (_, differences) = compare_demand(sheet, buyer, prices);
        self.count(sheet, &differences);
    }

    /// As `demand`, where both have to give the answer known beforehand.
    pub fn known_demand(
        &mut self,
        sheet: &[u8],
        buyer: u32,
        prices: &Prices,
        known: &Result<Demand, Refusal>,
    ) {
        let (answer, mut differences) = compare_demand(sheet, buyer, prices);
        differences.extend(difference("demand", ("known", known), ("Rust", &answer)));
        self.count(sheet, &differences);
    }
}

/// What the Rust reckoning says that a buyer demands, and its differences from the library.
fn compare_demand(
    sheet: &[u8],
    buyer: u32,
    prices: &Prices,
) -> (Result<Demand, Refusal>, Vec<String>) {
    let demand = buyer_demand(sheet, buyer, prices);
    let what = format_args!("buyer_demand of buyer {buyer} at {prices:?}");
    let mut differences = Vec::from_iter(difference(
        what,
        (
            "library",
            &raw::buyer_demand(sheet, buyer, &bare::flat(prices)),
        ),
        ("Rust", &bare::demand(&demand)),
    ));
    let answer = hokewhuni::buyer_demand(sheet, buyer as usize, prices);
    differences.extend(safe::differences(what, &answer, &demand, safe::demand));
    let absent = buyer_demand(sheet, u32::MAX, prices);
    let answer = hokewhuni::buyer_demand(sheet, BEYOND + buyer as usize, prices);
    differences.extend(safe::differences(what, &answer, &absent, safe::demand));
    (demand, differences)
}

/// What the Rust reckoning tells of a sale, and its differences from the library, from the direct
/// way and from what holds of every sale.
fn compare_sale(sheet: &[u8], record: &[u8]) -> (Result<Told, Refusal>, Vec<String>) {
    let mut reckoned = record.to_vec();
    let sale = run_sale(sheet, &mut reckoned);
    let left = within_margins(&reckoned);
    let mut lent = within_margins(record);
    let answer = raw::run_sale(sheet, inside(&mut lent));
    let mut differences = Vec::from_iter(difference(
        format_args!("run_sale with a record of {} bytes", record.len()),
        ("library", &answer),
        ("Rust", &bare::sale(&sale)),
    ));
    differences.extend(lent_difference(
        "record",
        ("library", &lent),
        ("Rust", &left),
    ));
    differences.extend(safe_differences(sheet, record, &sale, &left));
    let direct = raw::direct_way(sheet);
    differences.extend(direct_differences(sheet, &direct, &direct_way(sheet)));
    differences.extend(unlike(&answer, &direct));
    if let Ok(sale) = &sale {
        differences.extend(claims(sale));
    }
    let told = sale.map(|sale| Told {
        recorded: reckoned[..sale.rounds].to_vec(),
        closing: sale.closing,
    });
    (told, differences)
}

/// What is printed of the crate's sale, with a record of its own, where it differs from the Rust
/// reckoning's, or the record from what has to be left in it.
fn safe_differences(
    sheet: &[u8],
    record: &[u8],
    sale: &Result<Sale, Refusal>,
    left: &[u8],
) -> Vec<String> {
    let mut lent = within_margins(record);
    let answer = hokewhuni::run_sale(sheet, inside(&mut lent));
    let what = format_args!("run_sale with a record of {} bytes", record.len());
    let mut differences = safe::differences(what, &answer, sale, safe::sale);
    if let (Ok(answer), Ok(sale)) = (&answer, sale) {
        let by_numbers = safe::table(|buyer, bundle| answer.price(buyer, bundle));
        differences.extend(difference(
            "price",
            ("crate", &by_numbers),
            ("Rust", &sale.prices),
        ));
    }
    differences.extend(lent_difference("record", ("crate", &lent), ("Rust", left)));
    differences
}

/// What is printed of a settled sale that breaks rule 5.13: owners and payments are those of the
/// direct way.
pub(super) fn unlike(sale: &raw::Sale, direct: &raw::Direct) -> Option<String> {
    if sale.number != 0 {
        return None;
    }
    difference(
        "owners and payments",
        ("run_sale", &(sale.owners, sale.payments)),
        ("direct_way", &(direct.owners, direct.payments)),
    )
}

/// What is printed of a settled sale that breaks one of these: there are no more rounds than
/// question 9's sum (rule 4.14); and each raise takes 1 off a greatest payoff, which is at first the
/// worth of all lots.
fn claims(sale: &Sale) -> Vec<String> {
    let sum = sale.record_needed as i64;
    let mut broken = Vec::new();
    if sale.rounds > sale.record_needed {
        broken.push(format!("  {} rounds where {sum} is the most", sale.rounds));
    }
    broken.extend(difference(
        "raises and last payoffs",
        ("Rust", &(i64::from(sale.raises) + sale.payoffs)),
        ("worths of all lots", &sum),
    ));
    broken
}
