//! The comparison of printed sales, of their records and buffers.

use hokewhuni::raw;

use super::lent::{inside, lent_difference, within_margins};
use super::{difference, text_difference, Tally};
use crate::reckoning::print::printed;
use crate::reckoning::sale::run_sale;

/// What the Rust reckoning leaves of a printed sale: the text, and the bytes of the record.
struct Print {
    text: Vec<u8>,
    record: Vec<u8>,
}

impl Tally {
    /// Compares the sale printed in each of the buffers: the length answered, the whole buffer and
    /// the whole record. Record and buffers are lent with these bytes.
    pub fn prints(&mut self, sheet: &[u8], record: &[u8], buffers: &[Vec<u8>]) {
        let print = Print::new(sheet, record);
        for buffer in buffers {
            self.count(sheet, &print.differences(sheet, record, buffer));
        }
    }

    /// As `prints` with one buffer, where both have to print what is known beforehand.
    pub fn known_print(&mut self, sheet: &[u8], record: &[u8], buffer: &[u8], known: &str) {
        let print = Print::new(sheet, record);
        let mut differences = print.differences(sheet, record, buffer);
        differences.extend(text_difference(
            "print",
            ("known", known.as_bytes()),
            ("Rust", &print.text),
        ));
        self.count(sheet, &differences);
    }
}

impl Print {
    fn new(sheet: &[u8], record: &[u8]) -> Self {
        let mut record = record.to_vec();
        Print {
            text: printed(&run_sale(sheet, &mut record)),
            record,
        }
    }

    /// The differences of the library's print, bare and by the crate, from this one.
    fn differences(&self, sheet: &[u8], record: &[u8], buffer: &[u8]) -> Vec<String> {
        let (expected, reckoned) = self.put(buffer);
        let what = format_args!("print_sale into {} bytes", buffer.len());
        let left = [&self.record, &reckoned].map(|bytes| within_margins(bytes));
        let lent = || [record, buffer].map(within_margins);
        let mut differences = Vec::new();

        let [mut record, mut out] = lent();
        let length = raw::print_sale(sheet, inside(&mut record), inside(&mut out));
        differences.extend(difference(
            what,
            ("library", &length),
            ("Rust", &expected.unwrap_or(0)),
        ));
        differences.extend(left_differences("library", [record, out], &left));

        let [mut record, mut out] = lent();
        let length = hokewhuni::print_sale(sheet, inside(&mut record), inside(&mut out));
        differences.extend(difference(what, ("crate", &length), ("Rust", &expected)));
        differences.extend(left_differences("crate", [record, out], &left));
        differences
    }

    /// The text at the front of a buffer, and its length; or none where it has no room, and the
    /// buffer as it was.
    fn put(&self, buffer: &[u8]) -> (Option<usize>, Vec<u8>) {
        match buffer.get(self.text.len()..) {
            Some(rest) => (Some(self.text.len()), [&self.text, rest].concat()),
            None => (None, buffer.to_vec()),
        }
    }
}

/// What is printed of the record and the buffer that are left, where they differ.
fn left_differences(
    name: &str,
    [record, out]: [Vec<u8>; 2],
    [reckoned_record, reckoned_out]: &[Vec<u8>; 2],
) -> Vec<String> {
    let record = lent_difference("record", (name, &record), ("Rust", reckoned_record));
    let out = lent_difference("buffer", (name, &out), ("Rust", reckoned_out));
    record.into_iter().chain(out).collect()
}
