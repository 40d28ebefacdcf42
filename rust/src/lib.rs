//! Lot sheets and their ascending sale, by the proved library `libhokewhuni.a`: up to four lots are
//! sold by rounds to up to six buyers, and writing down what each bundle is worth is every buyer's
//! best table. The sale of table 3:
//!
//! ```
//! let sheet = b"     3     2\n     3     0     3\n     0     6     6\n     0     2     4\n";
//! let (sale, record) = hokewhuni::recorded_sale(sheet)?;
//! assert_eq!(record, [5, 2, 4, 1, 2, 4, 2, 4, 2]);
//! assert_eq!(sale.owners, [1, 2, 0, 0]);
//! assert_eq!(sale.payments, [0, 2, 0, 0, 0, 0]);
//!
//! let direct = hokewhuni::direct_way(sheet)?;
//! assert_eq!((direct.owners, direct.payments), (sale.owners, sale.payments));
//! # Ok::<(), hokewhuni::Refusal>(())
//! ```
//!
//! A sheet is any bytes. Buyers and lots are numbered from 1; a bundle's number is the sum of
//! 2^(j − 1) over its lots j, and 0 is the empty bundle. Each function puts questions to the sheet,
//! and the first no refuses it:
//!
//! ```
//! use hokewhuni::Refusal;
//!
//! let refusal = hokewhuni::read_sheet(b"     1     1\n 10000\n").unwrap_err();
//! assert_eq!(refusal, Refusal::WorthTooHigh { place: 13 });
//! assert_eq!(refusal.number(), 7);
//! assert_eq!(refusal.to_string(), "a worth is above 9,999, at offset 13");
//! ```
//!
//! A sheet can be written from a list of worths, which is refused by the questions that a sheet of
//! them would be refused by:
//!
//! ```
//! use hokewhuni::WriteRefusal;
//!
//! let sheet = hokewhuni::written_sheet(2, 2, &[2, 0, 2, 0, 1, 3])?;
//! assert_eq!(sheet, b"     2     2\n     2     0     2\n     0     1     3\n");
//!
//! let refusal = hokewhuni::written_sheet(1, 1, &[10_000]).unwrap_err();
//! assert_eq!(refusal, WriteRefusal::WorthTooHigh);
//! assert_eq!(refusal.to_string(), "a worth is above 9,999");
//! # Ok::<(), WriteRefusal>(())
//! ```
//!
//! A trial sheet is drawn, and four numbers make it again: a sheet number, buyers, lots and a top,
//! the most that a bundle is worth above the best bundle in it with one lot fewer:
//!
//! ```
//! use hokewhuni::TrialRefusal;
//!
//! let sheet = hokewhuni::drawn_sheet(1, 2, 2, 5)?;
//! assert_eq!(sheet, b"     2     2\n     4     2     7\n     1     4     9\n");
//!
//! let refusal = hokewhuni::drawn_sheet(1, 2, 2, 10_000).unwrap_err();
//! assert_eq!(refusal, TrialRefusal::TopTooHigh);
//! assert_eq!(refusal.to_string(), "the top is above 9,999");
//! # Ok::<(), TrialRefusal>(())
//! ```
//!
//! No function keeps anything, so that calls may run at once on several threads.
//!
//! The library is for x86-64 Linux. The build takes it from the folder that `HOKEWHUNI_LIB` names,
//! an absolute path; or else from `lib` beside this package's folder, or from `target/staticlib`
//! there, where `tools/staticlib` writes it in the repository.

#![deny(unsafe_code)]
#![warn(missing_docs)]

mod answers;
mod entries;
#[allow(unsafe_code)]
pub mod raw;
mod refusal;

pub use answers::{Demand, Direct, Field, Sale, Size, Table, Worths};
pub use entries::{
    buyer_demand, direct_way, print_sale, read_field, read_sheet, read_worths, run_sale,
    settled_at, trial_sheet, write_sheet,
};
pub use raw::{PRINT_BYTES, RECORD_BYTES, SHEET_BYTES};
pub use refusal::{Refusal, TrialRefusal, WriteRefusal};

/// Runs the sale as [`run_sale`] does, with a record that is long enough for every sheet, and
/// answers the bytes recorded too, one for each round.
pub fn recorded_sale(sheet: &[u8]) -> Result<(Sale, Vec<u8>), Refusal> {
    let mut record = vec![0; RECORD_BYTES];
    let sale = run_sale(sheet, &mut record)?;
    record.truncate(sale.rounds);
    Ok((sale, record))
}

/// What [`print_sale`] prints, with a record that is long enough for every sheet.
///
/// ```
/// let printed = hokewhuni::printed_sale(b"     2     1\n     5\n     3\n");
/// let lines = [
///     "     0     2     1     3\n",
///     "     1     1\n",
///     "     1     3     0     3\n",
///     "     2     0     0     0\n",
/// ];
/// assert_eq!(printed, lines.concat().as_bytes());
/// ```
pub fn printed_sale(sheet: &[u8]) -> Vec<u8> {
    let mut out = vec![0; PRINT_BYTES];
    let length = print_sale(sheet, &mut vec![0; RECORD_BYTES], &mut out);
    out.truncate(length.expect("there is room for every printed sale"));
    out
}

/// The sheet that [`write_sheet`] writes. It is never refused for want of room.
pub fn written_sheet(buyers: usize, lots: usize, worths: &[u32]) -> Result<Vec<u8>, WriteRefusal> {
    whole(|out| write_sheet(buyers, lots, worths, out))
}

/// The sheet that [`trial_sheet`] writes. It is never refused for want of room.
pub fn drawn_sheet(
    number: u16,
    buyers: usize,
    lots: usize,
    top: usize,
) -> Result<Vec<u8>, TrialRefusal> {
    whole(|out| trial_sheet(number, buyers, lots, top, out))
}

/// What is written of a sheet, where there is room for every one.
fn whole<E>(write: impl FnOnce(&mut [u8]) -> Result<usize, E>) -> Result<Vec<u8>, E> {
    let mut out = vec![0; SHEET_BYTES];
    let length = write(&mut out)?;
    out.truncate(length);
    Ok(out)
}
