//! The comparison of what is written into a buffer, by the library and by the crate, each with a
//! buffer of its own.

use std::fmt::Debug;

use hokewhuni::{raw, TrialRefusal, WriteRefusal};

use super::lent::{inside, lent_difference, within_margins};
use super::{bare, difference, safe};
use crate::reckoning::sheet::Refusal;

/// The sheet that is written, or why it is not.
pub type Written = Result<Vec<u8>, Refusal>;

/// What the Rust reckoning answers for an entry that is lent a buffer with these bytes.
pub(super) struct Reckoned<'a> {
    entry: &'a str,
    buffer: &'a [u8],
    answer: Result<usize, Refusal>,
    /// The buffer after it, within its margins.
    left: Vec<u8>,
}

/// A refusal of the crate's that has no place.
pub(super) trait Unplaced: Copy + Debug + PartialEq {
    /// The Rust reckoning's in its form.
    fn of(refusal: &Refusal) -> Self;
    fn number(self) -> u8;
}

impl<'a> Reckoned<'a> {
    pub fn new(
        entry: &'a str,
        buffer: &'a [u8],
        write: impl FnOnce(&mut [u8]) -> Result<usize, Refusal>,
    ) -> Self {
        let mut left = within_margins(buffer);
        let answer = write(inside(&mut left));
        Reckoned {
            entry,
            buffer,
            answer,
            left,
        }
    }

    /// What is printed of the library where it answers otherwise, or leaves another buffer.
    pub fn library_differences(&self, write: impl FnOnce(&mut [u8]) -> raw::Wrote) -> Vec<String> {
        let mut out = within_margins(self.buffer);
        let wrote = write(inside(&mut out));
        let expected = bare::wrote(&self.answer);
        [
            difference(self.what(), ("library", &wrote), ("Rust", &expected)),
            lent_difference("buffer", ("library", &out), ("Rust", &self.left)),
        ]
        .into_iter()
        .flatten()
        .collect()
    }

    /// What is printed of the crate where it answers otherwise, or leaves another buffer.
    pub fn crate_differences<R: Unplaced>(
        &self,
        write: impl FnOnce(&mut [u8]) -> Result<usize, R>,
    ) -> Vec<String> {
        let mut out = within_margins(self.buffer);
        let answer = write(inside(&mut out));
        let expected = self.answer.as_ref().copied().map_err(R::of);
        let told = answer.err().map(R::number);
        let number = self.answer.as_ref().err().map(|refusal| refusal.number);
        [
            difference(self.what(), ("crate", &answer), ("Rust", &expected)),
            difference("number", ("crate", &told), ("Rust", &number)),
            lent_difference("buffer", ("crate", &out), ("Rust", &self.left)),
        ]
        .into_iter()
        .flatten()
        .collect()
    }

    pub fn written(mut self) -> Written {
        let left = inside(&mut self.left);
        self.answer.map(|length| left[..length].to_vec())
    }

    fn what(&self) -> String {
        format!("{} into {} bytes", self.entry, self.buffer.len())
    }
}

impl Unplaced for WriteRefusal {
    fn of(refusal: &Refusal) -> Self {
        safe::write_refusal(refusal)
    }

    fn number(self) -> u8 {
        self.number()
    }
}

impl Unplaced for TrialRefusal {
    fn of(refusal: &Refusal) -> Self {
        safe::trial_refusal(refusal)
    }

    fn number(self) -> u8 {
        self.number()
    }
}
