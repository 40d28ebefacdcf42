//! The comparison of trial sheets and their buffers, of the worths that are read of them, and of
//! their sales.

use hokewhuni::raw;

use super::sales::{unlike, BEYOND};
use super::written::{Reckoned, Written};
use super::{bare, difference, safe, Tally};
use crate::reckoning::print::MOST_READ;
use crate::reckoning::sheet::{refuse, MOST_BUYERS, MOST_LOTS};
use crate::reckoning::trial::{draw_sheet, drawn_sheet, write_drawn, Trial};
use crate::reckoning::xorwow::Xorwow;

const ENTRY: &str = "trial_sheet";

impl Tally {
    /// Whether a draw of the Rust reckoning, counted from 1 on, is the one known.
    pub fn known_draw(&mut self, place: u32, known: u32) {
        let mut xorwow = Xorwow::new();
        xorwow.skip(place - 1);
        let draw = xorwow.draw();
        let difference = difference("draw", ("known", &known), ("Rust", &draw));
        self.count_of(format_args!("draw {place}"), difference.as_slice());
    }

    /// Compares the whole answers to the numbers of a trial sheet, the whole buffers after it, and
    /// the worths that are read of what is written. The buffer is lent with these bytes.
    pub fn trial(&mut self, trial: &Trial, buffer: &[u8]) {
        let (_, differences) = compare_trial(trial, buffer);
        self.count_trial(trial, &differences);
    }

    /// As `trial`, where both have to write the sheet known beforehand, or to refuse so.
    pub fn known_trial(&mut self, trial: &Trial, buffer: &[u8], known: &Written) {
        let (written, mut differences) = compare_trial(trial, buffer);
        differences.extend(difference(ENTRY, ("known", known), ("Rust", &written)));
        self.count_trial(trial, &differences);
    }

    /// Compares the trial sheet of the crate's function that brings the buffer itself.
    pub fn own_trial(&mut self, trial: &Trial) {
        let expected = drawn_sheet(trial).map_err(|refusal| safe::trial_refusal(&refusal));
        let [buyers, lots, top] = sizes(trial);
        let answer = hokewhuni::drawn_sheet(trial.number, buyers, lots, top);
        let difference = difference("drawn_sheet", ("crate", &answer), ("Rust", &expected));
        self.count_trial(trial, difference.as_slice());
    }

    /// Whether the crate refuses numbers of buyers and lots, and a top, that are beyond the
    /// library's, and would be the trial's own if they were cut to them.
    pub fn trial_beyond(&mut self, trial: &Trial, buffer: &[u8]) {
        for beyond in 0..3 {
            let mut sizes = sizes(trial);
            sizes[beyond] += BEYOND;
            let [buyers, lots, top] = sizes;
            let number = match (buyers, lots) {
                (1..=MOST_BUYERS, 1..=MOST_LOTS) => 7,
                (1..=MOST_BUYERS, _) => 4,
                _ => 3,
            };
            let reckoned = Reckoned::new(ENTRY, buffer, |_| refuse(number, 0));
            let differences = reckoned.crate_differences(|out| {
                hokewhuni::trial_sheet(trial.number, buyers, lots, top, out)
            });
            self.count_trial(trial, &differences);
        }
    }

    /// Whether the library answers the same of a trial sheet after other calls (rule 12.3): of
    /// itself, and of each of these.
    pub fn trial_again(&mut self, trial: &Trial, others: &[Trial]) {
        let first = library(trial);
        for other in [trial].into_iter().chain(others) {
            library(other);
            let again = library(trial);
            let difference = difference(
                format_args!("{ENTRY} after the {other:?}"),
                ("again", &again),
                ("first", &first),
            );
            self.count_trial(trial, difference.as_slice());
        }
    }

    /// Whether a sheet that the library draws is sold, by rounds with this record and by the direct
    /// way, and has the same owners and payments by both (rules 5.13 and 12.7).
    pub fn trial_sale(&mut self, trial: &Trial, mut record: Vec<u8>) {
        let (wrote, out) = library(trial);
        let sheet = &out[..out.len().min(wrote.length as usize)];
        let sale = raw::run_sale(sheet, &mut record);
        let direct = raw::direct_way(sheet);
        let numbers = (wrote.number, sale.number, direct.number);
        let mut differences = Vec::from_iter(difference(
            format_args!(
                "numbers of {ENTRY}, run_sale with {} bytes, direct_way",
                record.len()
            ),
            ("library", &numbers),
            ("expected", &(0, 0, 0)),
        ));
        differences.extend(unlike(&sale, &direct));
        self.count_trial(trial, &differences);
    }

    fn count_trial(&mut self, trial: &Trial, differences: &[String]) {
        self.count_of(format_args!("the {trial:?}"), differences);
    }
}

/// The library's bare answer, and a buffer with room for every sheet after it.
fn library(trial: &Trial) -> (raw::Wrote, [u8; MOST_READ]) {
    let mut out = [0; MOST_READ];
    let wrote = write_bare(trial, &mut out);
    (wrote, out)
}

fn write_bare(trial: &Trial, out: &mut [u8]) -> raw::Wrote {
    raw::trial_sheet(trial.number, trial.buyers, trial.lots, trial.top, out)
}

/// Buyers, lots and top as the crate takes them.
fn sizes(trial: &Trial) -> [usize; 3] {
    [trial.buyers, trial.lots, trial.top].map(|number| number as usize)
}

/// What the Rust reckoning writes as a trial sheet, and its differences from the library. What is
/// written is read as the worths that were drawn (rule 12.7).
fn compare_trial(trial: &Trial, buffer: &[u8]) -> (Written, Vec<String>) {
    let drawn = draw_sheet(trial);
    let reckoned = Reckoned::new(ENTRY, buffer, |out| write_drawn(&drawn, out));
    let [buyers, lots, top] = sizes(trial);
    let mut differences = reckoned.library_differences(|out| write_bare(trial, out));
    differences.extend(
        reckoned
            .crate_differences(|out| hokewhuni::trial_sheet(trial.number, buyers, lots, top, out)),
    );
    let written = reckoned.written();
    if let Ok(sheet) = &written {
        differences.extend(difference(
            "read_worths of what is written",
            ("library", &raw::read_worths(sheet)),
            ("draws", &bare::worths(&drawn)),
        ));
    }
    (written, differences)
}
