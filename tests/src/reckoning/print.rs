//! The printed sale. Written from the rules alone (docs/RULES.md), never from the Rattle code; the
//! comments name the rules that are met.

use std::fmt::Display;

use super::sale::{run_sale, Sale};
use super::sheet::{Refusal, GREATEST_WORTH, LINE_END, MOST_BUYERS};

/// The most bytes of its input that the program takes (rule 6.1).
pub const MOST_READ: usize = 560;

/// The greatest of question 9's sums: six buyers, each with the greatest worth for all lots
/// together.
pub const LONGEST_RECORD: usize = MOST_BUYERS * GREATEST_WORTH as usize;

/// What the program prints of its input. Its record is long enough for every sheet (rule 6.7).
pub fn print_sale(input: &[u8]) -> Vec<u8> {
    let sheet = &input[..input.len().min(MOST_READ)];
    printed(&run_sale(sheet, &mut vec![0; LONGEST_RECORD]))
}

/// What is printed of a sale.
pub fn printed(sale: &Result<Sale, Refusal>) -> Vec<u8> {
    match sale {
        Ok(sale) => settled(sale),
        Err(refusal) => refused(refusal),
    }
}

/// The lines of a settled sale (rule 6.3).
fn settled(sale: &Sale) -> Vec<u8> {
    let closing = &sale.closing;
    let mut lines = vec![line(&[0, sale.buyers, sale.lots, sale.rounds])];
    for lot in 1..=sale.lots {
        lines.push(line(&[lot, closing.owners[lot - 1].into()]));
    }
    for buyer in 1..=sale.buyers {
        let amounts = [&closing.charges, &closing.discounts, &closing.payments];
        let [charge, discount, payment] = amounts.map(|amount| amount[buyer - 1] as usize);
        lines.push(line(&[buyer, charge, discount, payment]));
    }
    lines.concat()
}

/// The line of a refusal (rules 6.4 and 11.9).
pub fn refused(refusal: &Refusal) -> Vec<u8> {
    line(&[usize::from(refusal.number), refusal.place])
}

/// A line of fields of six columns (rules 2.1, 2.2 and 6.2).
pub fn line(numbers: &[impl Display]) -> Vec<u8> {
    let fields = numbers.iter().map(|number| format!("{number:>6}"));
    let mut line = fields.collect::<String>().into_bytes();
    line.push(LINE_END);
    line
}
