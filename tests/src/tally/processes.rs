//! The comparison of what a process writes with what it has to write.

use std::fmt::Display;
use std::io;

use super::{difference, text_difference, Tally};
use crate::process::Ended;

/// How a process has to end.
pub struct End<'a> {
    pub status: i32,
    pub output: &'a [u8],
    pub errors: &'a [u8],
}

impl<'a> End<'a> {
    /// With nothing printed, and this said on standard error.
    pub fn saying(status: i32, errors: &'a str) -> Self {
        End {
            status,
            output: b"",
            errors: errors.as_bytes(),
        }
    }
}

/// After so many failures no further process is run, since each may take all of its time.
const MOST_FAILED: u64 = 20;

impl Tally {
    /// Compares a process with what it has to do: to write these bytes and no others, nothing on
    /// standard error, and to end with status 0.
    pub fn process(
        &mut self,
        what: impl Display,
        run: impl FnOnce() -> io::Result<Ended>,
        output: &[u8],
    ) {
        self.ended(what, run, |ended| {
            let mut differences = Vec::from_iter(ended.failure());
            differences.extend(written_difference("output", &ended.output, output));
            differences
        });
    }

    /// As `process`, where the process has to end in this way.
    pub fn process_end(
        &mut self,
        what: impl Display,
        run: impl FnOnce() -> io::Result<Ended>,
        end: &End,
    ) {
        self.ended(what, run, |ended| {
            let status = ended.status.and_then(|status| status.code());
            let expected = Some(end.status);
            let mut differences = Vec::new();
            differences.extend(difference(
                "status",
                ("process", &status),
                ("expected", &expected),
            ));
            differences.extend(written_difference("output", &ended.output, end.output));
            differences.extend(written_difference(
                "standard error",
                &ended.errors,
                end.errors,
            ));
            differences
        });
    }

    /// As `process`, where only the last lines of the output are compared.
    pub fn process_last_lines(
        &mut self,
        what: impl Display,
        run: impl FnOnce() -> io::Result<Ended>,
        lines: &[u8],
    ) {
        self.ended(what, run, |ended| {
            let written = last_lines(&ended.output, lines.len());
            let mut differences = Vec::from_iter(ended.failure());
            differences.extend(written_difference("last lines", written, lines));
            differences
        });
    }

    /// Whether a process whose output nobody can have ends by itself, with any status, and writes
    /// nothing elsewhere.
    pub fn process_ends(&mut self, what: impl Display, run: impl FnOnce() -> io::Result<Ended>) {
        self.ended(what, run, |ended| {
            let mut differences = Vec::from_iter(ended.killed());
            differences.extend(written_difference("output", &ended.output, b""));
            differences.extend(written_difference("standard error", &ended.errors, b""));
            differences
        });
    }

    /// Runs a process and counts its differences, or that it could not be run.
    fn ended(
        &mut self,
        what: impl Display,
        run: impl FnOnce() -> io::Result<Ended>,
        compare: impl FnOnce(&Ended) -> Vec<String>,
    ) {
        if self.failed > MOST_FAILED {
            return;
        }
        let differences = match run() {
            Ok(ended) => compare(&ended),
            Err(error) => vec![format!("  not run: {error}")],
        };
        self.count_of(what, &differences);
    }

    /// Compares a text with what it has to be.
    pub fn text(&mut self, what: impl Display, text: &[u8], expected: &[u8]) {
        let difference = written_difference("text", text, expected);
        self.count_of(what, difference.as_slice());
    }

    /// Counts what has to succeed; after a failure there is nothing.
    pub fn succeeds<T: Default>(
        &mut self,
        what: impl Display,
        result: Result<T, impl Display>,
    ) -> T {
        let (value, differences) = match result {
            Ok(value) => (value, Vec::new()),
            Err(error) => (T::default(), vec![format!("  {error}")]),
        };
        self.count_of(what, &differences);
        value
    }
}

impl Ended {
    /// What is printed of a process that failed or said something on standard error.
    fn failure(&self) -> Option<String> {
        let Some(status) = self.status else {
            return self.killed();
        };
        let failed = !status.success() || !self.errors.is_empty();
        let errors = self.errors.escape_ascii();
        failed.then(|| format!("  {status}, standard error \"{errors}\""))
    }

    /// What is printed of a process that did not end by itself.
    fn killed(&self) -> Option<String> {
        self.status
            .is_none()
            .then(|| String::from("  killed for the time it took"))
    }
}

/// What is printed of bytes written, if they are not those that have to be.
fn written_difference(what: &str, written: &[u8], expected: &[u8]) -> Option<String> {
    text_difference(what, ("written", written), ("expected", expected))
}

/// The last bytes of an output, with all of the line that they begin in.
fn last_lines(output: &[u8], length: usize) -> &[u8] {
    let at = output.len().saturating_sub(length);
    let line = output[..at].iter().rposition(|&byte| byte == b'\n');
    &output[line.map_or(0, |end| end + 1)..]
}
