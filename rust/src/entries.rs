//! The library's functions, which answer what is asked or a refusal.

use crate::answers::{flat, Demand, Direct, Field, Sale, Size, Table, Worths};
use crate::raw;
use crate::refusal::{Refusal, TrialRefusal, WriteRefusal};

/// Reads the six columns of a sheet from offset `at`, any offset: a number right-justified after
/// blanks. The next column is `at + 6`, also after a fault. With fewer than six bytes left the
/// field is a fault, and the next column is the sheet's length. No question is asked.
pub fn read_field(sheet: &[u8], at: usize) -> Field {
    Field::new(&raw::read_field(sheet, at))
}

/// Asks questions 1 to 8, and answers the numbers of buyers and lots.
pub fn read_sheet(sheet: &[u8]) -> Result<Size, Refusal> {
    Size::new(&raw::read_sheet(sheet))
}

/// Asks questions 1 to 8, and answers the numbers of buyers and lots, and the worths.
pub fn read_worths(sheet: &[u8]) -> Result<Worths, Refusal> {
    Worths::new(&raw::read_worths(sheet))
}

/// Asks questions 1 to 8 and 10, and answers what a buyer demands at a table of prices, whatever
/// they are.
pub fn buyer_demand(sheet: &[u8], buyer: usize, prices: &Table) -> Result<Demand, Refusal> {
    Demand::new(&raw::buyer_demand(sheet, cut(buyer), &flat(prices)))
}

/// Asks questions 1 to 8, and answers whether a table of prices, whatever they are, is settled, that
/// is, a universal competitive equilibrium: in the economy of all buyers, and in that of all but
/// one, for each one, some allocation brings the greatest sum of prices and gives every buyer there
/// a bundle that it demands. The last prices of a sale are settled, and none before them are.
///
/// ```
/// let sheet = b"     3     2\n     3     0     3\n     0     6     6\n     0     2     4\n";
/// let (sale, _) = hokewhuni::recorded_sale(sheet)?;
/// assert_eq!(hokewhuni::settled_at(sheet, &sale.prices), Ok(true));
/// assert_eq!(hokewhuni::settled_at(sheet, &[[0; 16]; 6]), Ok(false));
/// # Ok::<(), hokewhuni::Refusal>(())
/// ```
pub fn settled_at(sheet: &[u8], prices: &Table) -> Result<bool, Refusal> {
    let answer = raw::settled_at(sheet, &flat(prices));
    Refusal::check(answer.number, answer.place as usize)?;
    Ok(answer.settled)
}

/// Asks questions 1 to 9, runs the sale by rounds, and answers it settled. The number of each
/// round's set, the sum of 2^(i − 1) over its buyers i, is the next byte of the record. Bytes after
/// the last round keep their values; with a refusal all bytes do.
pub fn run_sale(sheet: &[u8], record: &mut [u8]) -> Result<Sale, Refusal> {
    Sale::new(&raw::run_sale(sheet, record))
}

/// Asks questions 1 to 8, and answers owners and payments reckoned from the worths alone. They are
/// those of [`run_sale`] wherever that settles the sheet; it may refuse one for its record (9) that
/// is answered here.
pub fn direct_way(sheet: &[u8]) -> Result<Direct, Refusal> {
    Direct::new(&raw::direct_way(sheet))
}

/// Runs the sale as [`run_sale`] does, its record too, and writes what is printed of it to the
/// front of `out`. Answers the length of that, and the bytes of `out` after it keep their values;
/// or `None` where it has no room, and all bytes of `out` keep their values. Numbers stand in
/// fields of six columns, and lines end with byte 10. Of a settled sale: a line of 0, buyers, lots,
/// rounds; for each lot a line of lot and owner; for each buyer a line of buyer, price of its
/// bundle, discount, payment. Of a refusal: one line of number and place, 13 bytes.
pub fn print_sale(sheet: &[u8], record: &mut [u8], out: &mut [u8]) -> Option<usize> {
    let length = raw::print_sale(sheet, record, out);
    (length > 0).then_some(length)
}

/// Asks questions 3, 4, 5, 7, 8 and 11, writes a sheet to the front of `out`, and answers its
/// length. Bytes of `out` after it keep their values; with a refusal all bytes do. The worths are
/// one list in the sheet's order: what bundles 1 to 2^n − 1 are worth to buyer 1, then to buyer 2,
/// and so on, with n lots. [`read_worths`] answers the same worths of what is written; and an
/// accepted sheet, read by it and written from its worths in this order, has the same bytes again.
///
/// ```
/// let mut out = [b'.'; 30];
/// assert_eq!(hokewhuni::write_sheet(2, 1, &[5, 3], &mut out), Ok(27));
/// assert_eq!(&out, b"     2     1\n     5\n     3\n...");
/// ```
pub fn write_sheet(
    buyers: usize,
    lots: usize,
    worths: &[u32],
    out: &mut [u8],
) -> Result<usize, WriteRefusal> {
    let wrote = raw::write_sheet(cut(buyers), cut(lots), worths, out);
    WriteRefusal::check(wrote.number)?;
    Ok(wrote.length as usize)
}

/// Asks questions 3, 4, 7 and 11, writes a trial sheet to the front of `out`, and answers its
/// length. Bytes of `out` after it keep their values; with a refusal all bytes do. Whoever is told
/// sheet number, buyers, lots and top makes the same sheet again, byte for byte. The worths are
/// drawn in the sheet's order by Marsaglia's xorwow (Xorshift RNGs, 2003), which each call starts
/// anew: 100 draws for each one of the sheet number are thrown away, and then each worth is the
/// greatest with one lot fewer, plus the remainder of the next draw by `top + 1`; or 9,999 if that
/// is less. [`read_worths`] answers these worths of what is written.
///
/// ```
/// let mut out = [b'.'; 54];
/// assert_eq!(hokewhuni::trial_sheet(1, 2, 2, 5, &mut out), Ok(51));
/// assert_eq!(&out, b"     2     2\n     4     2     7\n     1     4     9\n...");
/// ```
pub fn trial_sheet(
    number: u16,
    buyers: usize,
    lots: usize,
    top: usize,
    out: &mut [u8],
) -> Result<usize, TrialRefusal> {
    let wrote = raw::trial_sheet(number, cut(buyers), cut(lots), cut(top), out);
    TrialRefusal::check(wrote.number)?;
    Ok(wrote.length as usize)
}

/// The number, or the library's greatest in place of one that is beyond it. No buyer has that
/// number, and it is too great for one of buyers or lots and for a top, too.
fn cut(number: usize) -> u32 {
    u32::try_from(number).unwrap_or(u32::MAX)
}
