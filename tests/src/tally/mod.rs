//! The tally of comparisons between the library, or a process, and the Rust reckoning, and the
//! report of their differences.

use std::fmt::{Debug, Display};

use hokewhuni::raw;

use crate::generator::Generator;
use crate::reckoning::sheet::{read_field, read_sheet, Answer, Field, FIELD, FIRST_LINE};

pub mod bare;
mod direct;
mod lent;
mod prints;
mod processes;
mod safe;
mod sales;
mod settled;
mod trials;
mod writing;
mod written;

pub use direct::Pair;
pub use processes::End;
pub use sales::Told;
pub use written::Written;

/// The most differences that a tally reports.
const SHOWN: usize = 10;

/// Columns drawn at random for each compared sheet.
const DRAWN: usize = 4;

/// The report and the counts so far, and a generator of columns apart from that of the sheets.
pub struct Tally {
    columns: Generator,
    report: String,
    shown: usize,
    passed: u64,
    failed: u64,
}

impl Tally {
    pub fn new(seed: u64) -> Self {
        Tally {
            columns: Generator::new(!seed),
            report: String::new(),
            shown: 0,
            passed: 0,
            failed: 0,
        }
    }

    /// A line for each group, after the differences found in it.
    pub fn report(&self) -> &str {
        &self.report
    }

    pub fn passed(&self) -> u64 {
        self.passed
    }

    pub fn failed(&self) -> u64 {
        self.failed
    }

    /// Runs a group of comparisons and reports how many it made.
    pub fn group(&mut self, name: &str, compare: impl FnOnce(&mut Self)) {
        let before = self.passed + self.failed;
        compare(self);
        let compared = self.passed + self.failed - before;
        self.report += &format!("{name}: {compared} compared\n");
    }

    /// Compares the readers' whole answers to a sheet, and their fields at some of its columns.
    pub fn sheet(&mut self, sheet: &[u8]) {
        let differences = self.differences(sheet, &read_sheet(sheet));
        self.count(sheet, &differences);
    }

    /// As `sheet`, where both readers have to give the answer known beforehand.
    pub fn known_sheet(&mut self, sheet: &[u8], known: &Answer) {
        let answer = read_sheet(sheet);
        let mut differences = self.differences(sheet, &answer);
        differences.extend(difference("answer", ("known", known), ("Rust", &answer)));
        self.count(sheet, &differences);
    }

    /// Compares the readers' fields at one column.
    pub fn field(&mut self, sheet: &[u8], at: usize) {
        let differences = field_differences(sheet, at, &read_field(sheet, at));
        self.count(sheet, &differences);
    }

    /// As `field`, where both readers have to give the field known beforehand.
    pub fn known_field(&mut self, sheet: &[u8], at: usize, known: &Field) {
        let field = read_field(sheet, at);
        let mut differences = field_differences(sheet, at, &field);
        differences.extend(difference("field", ("known", known), ("Rust", &field)));
        self.count(sheet, &differences);
    }

    fn differences(&mut self, sheet: &[u8], answer: &Answer) -> Vec<String> {
        let mut differences = read_differences(sheet, answer);
        for at in self.columns(sheet.len()) {
            differences.extend(field_differences(sheet, at, &read_field(sheet, at)));
        }
        differences
    }

    /// The first columns of the first three fields, columns drawn at random, those around the
    /// sheet's end and the last that there are.
    fn columns(&mut self, length: usize) -> impl Iterator<Item = usize> {
        let drawn = [(); DRAWN].map(|()| self.columns.below(length + FIELD));
        [0, FIELD, FIRST_LINE]
            .into_iter()
            .chain(drawn)
            .chain(length.saturating_sub(FIELD + 1)..=length + FIELD + 1)
            .chain(usize::MAX - FIELD..=usize::MAX)
    }

    fn count(&mut self, sheet: &[u8], differences: &[String]) {
        let sheet = sheet.escape_ascii();
        self.count_of(format_args!("the sheet \"{sheet}\""), differences);
    }

    fn count_of(&mut self, what: impl Display, differences: &[String]) {
        if differences.is_empty() {
            self.passed += 1;
            return;
        }
        self.failed += 1;
        for difference in differences.iter().take(SHOWN - self.shown) {
            self.shown += 1;
            self.report += &format!("difference in {what}\n{difference}\n");
        }
    }
}

/// What is printed of the library's readings of a sheet, bare and by the crate, where they differ
/// from the Rust reader's.
fn read_differences(sheet: &[u8], answer: &Answer) -> Vec<String> {
    let expected = bare::worths(answer);
    let mut differences = Vec::new();
    differences.extend(difference(
        "read_sheet",
        ("library", &raw::read_sheet(sheet)),
        ("Rust", &bare::read(&expected)),
    ));
    differences.extend(difference(
        "read_worths",
        ("library", &raw::read_worths(sheet)),
        ("Rust", &expected),
    ));
    let (size, worths) = (hokewhuni::read_sheet(sheet), hokewhuni::read_worths(sheet));
    differences.extend(safe::differences("read_sheet", &size, answer, safe::size));
    differences.extend(safe::differences(
        "read_worths",
        &worths,
        answer,
        safe::worths,
    ));
    if let (Ok(worths), Ok(sheet)) = (&worths, answer) {
        let by_numbers = safe::table(|buyer, bundle| worths.worth(buyer, bundle));
        differences.extend(difference(
            "worth",
            ("crate", &by_numbers),
            ("Rust", &sheet.worths),
        ));
    }
    differences
}

/// What is printed of the library's field at a column, bare and by the crate, where it differs from
/// the Rust reader's.
fn field_differences(sheet: &[u8], at: usize, field: &Field) -> Vec<String> {
    let what = format_args!("read_field at {at}");
    let mut differences = Vec::new();
    differences.extend(difference(
        what,
        ("library", &raw::read_field(sheet, at)),
        ("Rust", &bare::field(field)),
    ));
    differences.extend(difference(
        what,
        ("crate", &hokewhuni::read_field(sheet, at)),
        ("Rust", &safe::field(field)),
    ));
    differences
}

/// What is printed of two named answers, if they differ.
fn difference<T: Debug + PartialEq>(
    what: impl Display,
    (one, first): (&str, &T),
    (other, second): (&str, &T),
) -> Option<String> {
    (first != second).then(|| format!("  {what}\n    {one}: {first:?}\n    {other}: {second:?}"))
}

/// What is printed of two named texts, if they differ.
fn text_difference(
    what: impl Display,
    (one, first): (&str, &[u8]),
    (other, second): (&str, &[u8]),
) -> Option<String> {
    (first != second).then(|| {
        let (first, second) = (first.escape_ascii(), second.escape_ascii());
        format!("  {what}\n    {one}: \"{first}\"\n    {other}: \"{second}\"")
    })
}
