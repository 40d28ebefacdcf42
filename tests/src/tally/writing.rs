//! The comparison of written sheets and their buffers, and of sheets that are written and read.

use hokewhuni::raw;

use super::lent::{inside, lent_difference, within_margins};
use super::sales::BEYOND;
use super::written::{Reckoned, Written};
use super::{bare, difference, safe, text_difference, Tally};
use crate::generator::bytes_of;
use crate::reckoning::sheet::{refuse, Sheet, MOST_BUYERS};
use crate::reckoning::writing::{write_sheet, written_sheet, List};

/// What stands on either side of a list that is lent. These are no worths, so that it shows if they
/// are read.
const MARGIN: [u32; 2] = [u32::MAX; 2];

const ENTRY: &str = "write_sheet";

impl Tally {
    /// Compares the whole answers to a list that is to be written, and the whole buffers after it.
    /// The buffer is lent with these bytes.
    pub fn writing(&mut self, list: &List, buffer: &[u8]) {
        let (_, differences) = compare_writing(list, buffer);
        self.count_list(list, &differences);
    }

    /// As `writing`, where both have to write the sheet known beforehand, or to refuse so.
    pub fn known_writing(&mut self, list: &List, buffer: &[u8], known: &Written) {
        let differences = known_differences(list, buffer, known);
        self.count_list(list, &differences);
    }

    /// Compares the sheet of the crate's function that brings the buffer itself.
    pub fn own_buffer(&mut self, list: &List) {
        let expected = written_sheet(list).map_err(|refusal| safe::write_refusal(&refusal));
        let (buyers, lots) = (list.buyers as usize, list.lots as usize);
        let answer = hokewhuni::written_sheet(buyers, lots, &list.worths);
        let difference = difference("written_sheet", ("crate", &answer), ("Rust", &expected));
        self.count_list(list, difference.as_slice());
    }

    /// Whether the crate refuses numbers of buyers and lots that are beyond the library's, and
    /// would be the list's own if they were cut to them.
    pub fn beyond(&mut self, list: &List, buffer: &[u8]) {
        let (buyers, lots) = (list.buyers as usize, list.lots as usize);
        for (buyers, lots) in [(BEYOND + buyers, lots), (buyers, BEYOND + lots)] {
            let number = if (1..=MOST_BUYERS).contains(&buyers) {
                4
            } else {
                3
            };
            let reckoned = Reckoned::new(ENTRY, buffer, |_| refuse(number, 0));
            let differences = reckoned
                .crate_differences(|out| hokewhuni::write_sheet(buyers, lots, &list.worths, out));
            self.count_list(list, &differences);
        }
    }

    /// Writes an accepted sheet from its worths, which has to have its bytes, and reads what is
    /// written: the same worths again.
    pub fn written_read(&mut self, sheet: &Sheet, buffer: &[u8]) {
        let list = List::of(sheet);
        let mut differences = known_differences(&list, buffer, &Ok(bytes_of(sheet)));
        let mut lent = within_margins(buffer);
        let out = inside(&mut lent);
        let wrote = raw::write_sheet(list.buyers, list.lots, &list.worths, out);
        let written = &out[..out.len().min(wrote.length as usize)];
        differences.extend(difference(
            "read_worths of what is written",
            ("library", &raw::read_worths(written)),
            ("list", &bare::worths(&Ok(sheet.clone()))),
        ));
        self.count_list(&list, &differences);
    }

    /// Reads an accepted sheet and writes it from what is read: the same bytes again.
    pub fn read_written(&mut self, sheet: &[u8], buffer: &[u8]) {
        let differences = match hokewhuni::read_worths(sheet) {
            Ok(read) => {
                let list = List::of(&Sheet {
                    buyers: read.buyers,
                    lots: read.lots,
                    worths: read.worths,
                });
                rewritten_differences(&list, sheet, buffer)
            }
            Err(refusal) => vec![format!("  refused by {}", refusal.number())],
        };
        self.count(sheet, &differences);
    }

    fn count_list(&mut self, list: &List, differences: &[String]) {
        self.count_of(format_args!("the {list:?}"), differences);
    }
}

/// What is printed of a list where it is not written as the sheet that it comes from, whose length
/// is answered, before the buffer's later bytes.
fn rewritten_differences(list: &List, sheet: &[u8], buffer: &[u8]) -> Vec<String> {
    let left = [sheet, &buffer[sheet.len()..]].concat();
    let mut out = within_margins(buffer);
    let wrote = raw::write_sheet(list.buyers, list.lots, &list.worths, inside(&mut out));
    let whole = hokewhuni::written_sheet(list.buyers as usize, list.lots as usize, &list.worths);
    [
        difference(
            "write_sheet of what is read",
            ("library", &wrote),
            ("sheet", &bare::wrote(&Ok(sheet.len()))),
        ),
        lent_difference(
            "buffer",
            ("library", &out),
            ("sheet", &within_margins(&left)),
        ),
        text_difference(
            "written_sheet of what is read",
            ("crate", &whole.unwrap_or_default()),
            ("sheet", sheet),
        ),
    ]
    .into_iter()
    .flatten()
    .collect()
}

/// The differences of the library from the Rust reckoning, and of that from what is known.
fn known_differences(list: &List, buffer: &[u8], known: &Written) -> Vec<String> {
    let (written, mut differences) = compare_writing(list, buffer);
    differences.extend(difference("writing", ("known", known), ("Rust", &written)));
    differences
}

/// What the Rust reckoning writes of a list, and its differences from the library.
fn compare_writing(list: &List, buffer: &[u8]) -> (Written, Vec<String>) {
    let reckoned = Reckoned::new(ENTRY, buffer, |out| write_sheet(list, out));
    let (buyers, lots) = (list.buyers, list.lots);
    let lent = [&MARGIN, &list.worths[..], &MARGIN].concat();
    let worths = &lent[MARGIN.len()..][..list.worths.len()];
    let mut differences =
        reckoned.library_differences(|out| raw::write_sheet(buyers, lots, worths, out));
    differences.extend(reckoned.crate_differences(|out| {
        hokewhuni::write_sheet(buyers as usize, lots as usize, worths, out)
    }));
    (reckoned.written(), differences)
}
