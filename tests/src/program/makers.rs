//! What the commands that make a sheet of numbers, `write` and `trial`, have in common: the words
//! that they take for numbers, what they hand to their programs, and how they end (rules 11.10 and
//! 12.10).

use std::ffi::OsStr;
use std::fs;
use std::os::unix::ffi::OsStrExt;
use std::path::{Path, PathBuf};
use std::process::Command;

use super::command::{
    command, ends, first, printed, redirected, said, set, shell, unheard, unwritten,
};
use super::folder::copy_executable;
use super::{in_repository, told};
use crate::generator::field;
use crate::process::run;
use crate::tally::{End, Tally};

/// A command that makes a sheet of numbers.
pub struct Maker {
    pub name: &'static str,
    pub program: &'static str,
    pub usage: &'static str,
    /// Numbers of which a sheet is made, and the sheet.
    pub made: &'static [&'static str],
    pub sheet: &'static str,
    /// Numbers that are refused, the line that is printed of them, and what is said with `-v`.
    pub refused: &'static [&'static str],
    pub refusal: &'static str,
    pub why: &'static str,
}

/// Words that are not numbers of 32 bits.
const NOT_NUMBERS: [&[u8]; 30] = [
    b"",
    b" ",
    b"\n",
    b"5 ",
    b" 5",
    b"5\n",
    b"\n5",
    b"5\r",
    b"5 3",
    b"-",
    b"-5",
    b"+5",
    b"5.0",
    b"1,000",
    b"1e3",
    b"a",
    b"5a",
    b"0x5",
    b"10#5",
    b"1+1",
    b"numbers",
    b"*",
    b"$((5))",
    b"00000000005",
    b"10000000000",
    b"4294967296",
    b"9999999999",
    "\u{665}".as_bytes(),
    "\u{ff15}".as_bytes(),
    b"5\xff",
];

/// Options in front of numbers that are good.
const OPTIONS: [&[&str]; 4] = [&["-v"], &["--"], &["-v", "--"], &["-v", "-v"]];

/// Words in front of numbers that are good, after which all is bad usage.
const NOT_OPTIONS: [&[&str]; 6] = [
    &["-x"],
    &["-vv"],
    &["--verbose"],
    &["-v", "-h"],
    &["--", "-v"],
    &["--", "--"],
];

/// Programs that fail: one prints nothing, one too little, one all and then fails.
const FAILING: [&str; 3] = [
    "cat >/dev/null",
    "cat >/dev/null; echo '     5    0'",
    "cat >/dev/null; printf '     1     1\n     5\n'; exit 1",
];

/// Sells a sheet that a command makes.
const SELL: &str = r#""$0" "$@" | "$0" sale"#;

/// The greatest number of a field (rule 2.2), and so the greatest that a program is handed.
pub const GREATEST_FIELD: u32 = 999_999;

/// What a program is handed: a field for each number, with nothing between them.
pub fn fields(numbers: impl IntoIterator<Item = u32>) -> Vec<u8> {
    let numbers = numbers.into_iter().map(|number| number.min(GREATEST_FIELD));
    numbers.flat_map(|number| field(number as usize)).collect()
}

/// The numbers as words.
pub fn words(numbers: impl IntoIterator<Item = u32>) -> Vec<String> {
    numbers
        .into_iter()
        .map(|number| number.to_string())
        .collect()
}

/// How it ends that a text is printed: a line of number and place is a refusal.
pub fn printing(text: &[u8]) -> End<'_> {
    End {
        status: (text.len() == "     1     0\n".len()).into(),
        output: text,
        errors: b"",
    }
}

impl Maker {
    /// The command with no words but its name.
    pub fn command(&self) -> Command {
        let mut command = command();
        command.arg(self.name);
        command
    }

    /// All of the command's words.
    fn words<'a>(&self, numbers: &[&'a str]) -> Vec<&'a str> {
        [&[self.name], numbers].concat()
    }

    /// The words for the numbers that are refused, with `-v`, and how that ends.
    fn refusal(&self) -> (Vec<&'static str>, End<'static>) {
        let end = End {
            errors: self.why.as_bytes(),
            ..printing(self.refusal.as_bytes())
        };
        (self.words(&[&["-v"], self.refused].concat()), end)
    }

    /// The help has the numbers of which a sheet is made, and the sheet.
    fn help(&self, tally: &mut Tally) {
        let text = tally.succeeds(self.name, printed(&["help", self.name]));
        let line = format!("hokewhuni {}", self.words(self.made).join(" "));
        let shown = text.contains(&line) && text.contains(&format!("\n\n{}\n", self.sheet));
        tally.succeeds(self.name, shown.then_some(()).ok_or(text));
    }

    /// The first run, which builds the program, and numbers with what is printed of them.
    pub fn known(&self, tally: &mut Tally, known: &[(&str, &str)]) {
        tally.succeeds("the first sheet", first(&self.words(self.made)));
        self.help(tally);
        for (numbers, print) in known {
            self.prints(tally, numbers, print);
        }
        let (words, end) = self.refusal();
        ends(tally, &words, b"", &end);
    }

    /// Numbers, as words with a blank between two, and what is printed of them.
    pub fn prints(&self, tally: &mut Tally, numbers: &str, print: &str) {
        let words: Vec<&str> = numbers.split(' ').collect();
        ends(tally, &self.words(&words), b"", &printing(print.as_bytes()));
    }

    /// Words that it does not take.
    pub fn misused(&self, tally: &mut Tally, words: &[&str]) {
        ends(tally, &self.words(words), b"", &End::saying(2, self.usage));
    }

    /// Options in front of the numbers, and wherever they may not be.
    pub fn options(&self, tally: &mut Tally) {
        for options in OPTIONS {
            let words = self.words(&[options, self.made].concat());
            ends(tally, &words, b"", &printing(self.sheet.as_bytes()));
        }
        for words in NOT_OPTIONS {
            self.misused(tally, &[words, self.made].concat());
        }
        for at in 1..=self.made.len() {
            let (before, after) = self.made.split_at(at);
            for word in ["-v", "--"] {
                self.misused(tally, &[before, &[word], after].concat());
            }
        }
    }

    /// A word that is not a number is none in any of these places of good ones.
    pub fn not_numbers(&self, tally: &mut Tally, good: &[String], places: &[usize]) {
        for word in NOT_NUMBERS {
            for &at in places {
                let mut words: Vec<&OsStr> = good.iter().map(OsStr::new).collect();
                words[at] = OsStr::from_bytes(word);
                let word = word.escape_ascii();
                let what = format!("{}, its word {at} \"{word}\"", self.name);
                let run = || run(self.command().args(&words), b"");
                tally.process_end(what, run, &End::saying(2, self.usage));
            }
        }
    }

    /// A sheet that is made, and what is printed of its sale. A refusal that is taken for a sheet is
    /// refused.
    pub fn sold(&self, tally: &mut Tally, numbers: &[&str], sale: &[u8]) {
        let words = self.words(numbers);
        let what = format!("the sale of {}", words.join(" "));
        let run = || run(&mut shell("bash", SELL, &words), b"");
        tally.process_end(what, run, &printing(sale));
    }

    /// It needs no input, writes its output or fails, and has the same status with every setting.
    pub fn streams(&self, tally: &mut Tally) {
        let made = (self.words(self.made), printing(self.sheet.as_bytes()));
        for (words, end) in [made, self.refusal()] {
            for change in ["<&-", "0>/dev/null", "<."] {
                let what = format!("hokewhuni {} {change}", words.join(" "));
                let run = || run(&mut redirected(&words, change), b"");
                tally.process_end(what, run, &end);
            }
            unwritten(tally, &words);
            set(tally, || redirected(&words, ""), &end);
        }
        unheard(tally, &self.refusal().0);
    }

    /// The command in a folder, with a program of these lines.
    fn with_program(&self, folder: &Path, lines: &str) -> Result<PathBuf, String> {
        let [command, script] = ["hokewhuni", "script"].map(|name| folder.join(name));
        told(fs::create_dir_all(folder.join("programs")))?;
        told(fs::write(&script, format!("#!/bin/sh\n{lines}\n")))?;
        copy_executable(&script, &folder.join("programs").join(self.program))?;
        copy_executable(&in_repository("hokewhuni"), &command)?;
        Ok(command)
    }

    /// What the program is handed of words, by one that prints that.
    pub fn handed_on(
        &self,
        tally: &mut Tally,
        folder: &Path,
        cases: impl IntoIterator<Item = (Vec<String>, Vec<u8>)>,
    ) {
        let command = self.with_program(folder, "echo handed on; cat");
        let command = tally.succeeds("a program", command);
        for (words, fields) in cases {
            let what = format_args!("what {} hands on of {words:?}", self.name);
            let run = || run(Command::new(&command).arg(self.name).args(&words), b"");
            tally.process(what, run, &[b"handed on\n", &*fields].concat());
        }
    }

    /// A program that fails.
    pub fn failing(&self, tally: &mut Tally, folder: &Path) {
        for lines in FAILING {
            let command = tally.succeeds(lines, self.with_program(folder, lines));
            let run = || run(Command::new(&command).args(self.words(self.made)), b"");
            let said = said(format!("the program {} failed", self.program));
            tally.process_end(lines, run, &End::saying(4, &said));
        }
    }
}
