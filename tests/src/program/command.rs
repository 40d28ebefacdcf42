//! The command `hokewhuni`: its help, what it reads and prints, and its status.

use std::fs::{self, File, OpenOptions};
use std::io;
use std::path::Path;
use std::process::Command;

use super::examples::examples;
use super::folder::Folder;
use super::inputs::KINDS;
use super::{in_repository, told, BUILDING};
use crate::generator::Generator;
use crate::process::{run, run_from, run_into, run_unread, run_within, Ended};
use crate::reckoning::print::{print_sale, MOST_READ};
use crate::reckoning::sheet::{length, read_sheet, Refusal, LINE_END};
use crate::tally::{End, Tally};

/// Inputs drawn of each kind.
const DRAWN: usize = 15;

/// A sheet that is settled, and one that is refused.
const SHEETS: [&str; 2] = ["examples/table-3.sheet", "examples/refusal-8.sheet"];

/// What `-v` says of each number.
pub const WORDS: [&str; 8] = [
    "the sheet has fewer than 13 bytes",
    "the first line is not two good fields and a line end at offset 12",
    "the number of bidders is not 1 to 6",
    "the number of lots is not 1 to 4",
    "the length is not 13 + m * (6 * (2^n - 1) + 1) bytes, with m bidders and n lots",
    "a field or line end after the first line is not good",
    "a worth is above 9,999",
    "a bundle of two or more lots is worth less than the same with one lot fewer",
];

/// What it says besides of some sheets, after the question's number and words.
const PLACES: [(&str, &str); 5] = [
    (
        "refusal-5",
        "; for m = 1 and n = 1 that is 20, and the sheet has 13",
    ),
    ("refusal-6", "; offset 44 is line 3, column 13"),
    ("refusal-7", "; offset 44 is line 3, column 13"),
    ("refusal-8", "; offset 25 is line 2, column 13"),
    (
        "one-byte-more",
        "; for m = 6 and n = 4 that is 559, and the sheet has 560 or more",
    ),
];

pub fn compare(tally: &mut Tally, generator: &mut Generator) {
    tally.group("the command", |tally| {
        tally.succeeds("the first sale", first(&["sale", SHEETS[0]]));
        help(tally);
        misuse(tally);
        sales(tally);
        meanings(tally);
        let folder = Folder::new("command").map(Some);
        if let Some(folder) = tally.succeeds("a folder", folder) {
            names(tally, folder.path());
        }
        unreadable(tally);
        unwritable(tally);
        unheard(tally, &["sale", "-v", SHEETS[1]]);
        environment(tally);
        terminal(tally);
    });
    tally.group("inputs to the command", |tally| {
        for (_, draw) in KINDS {
            for _ in 0..DRAWN {
                input(tally, &draw(generator));
            }
        }
    });
}

/// The first run of a program builds it, which may take long.
pub fn first(words: &[&str]) -> Result<(), String> {
    match run_within(command().args(words), BUILDING) {
        Ok(ended) if ended.with(0) => Ok(()),
        ended => Err(format!("{ended:?}")),
    }
}

/// The command, run in the repository.
pub fn command() -> Command {
    let mut command = Command::new(in_repository("hokewhuni"));
    command.current_dir(in_repository("."));
    command
}

/// What is said on standard error.
pub fn said(what: impl AsRef<str>) -> String {
    format!("hokewhuni: {}\n", what.as_ref())
}

/// Compares a run of the command with these words.
pub fn ends(tally: &mut Tally, words: &[&str], input: &[u8], end: &End) {
    let what = format!("hokewhuni {}", words.join(" "));
    tally.process_end(what, || run(command().args(words), input), end);
}

/// What is printed with these words, where nothing else is said.
pub fn printed(words: &[&str]) -> Result<String, String> {
    match run(command().args(words), b"") {
        Ok(ended) if ended.with(0) && ended.errors.is_empty() => {
            told(String::from_utf8(ended.output))
        }
        ended => Err(format!("{words:?}: {ended:?}")),
    }
}

/// The list names each command, and each has its help, by two names.
fn help(tally: &mut Tally) {
    let list = tally.succeeds("hokewhuni", printed(&[]));
    for words in [["help"], ["--help"], ["-h"]] {
        let text = tally.succeeds(words[0], printed(&words));
        tally.text(words[0], text.as_bytes(), list.as_bytes());
    }
    for name in ["sale", "write", "trial", "install", "help"] {
        let listed = list.contains(&format!("\n  {name} "));
        let missing = || format!("not in the list: {list}");
        tally.succeeds(name, listed.then_some(()).ok_or_else(missing));
        let text = tally.succeeds(name, printed(&["help", name]));
        let usage = text.starts_with(&format!("usage: hokewhuni {name} "));
        tally.succeeds(name, usage.then_some(()).ok_or_else(|| text.clone()));
        let same = tally.succeeds(name, printed(&[name, "--help"]));
        tally.text(name, same.as_bytes(), text.as_bytes());
    }
}

/// Words that it does not know.
fn misuse(tally: &mut Tally) {
    let mut misused = |words: &[&str], errors: &str| {
        ends(tally, words, b"", &End::saying(2, errors));
    };
    let unknown = said("there is no command sell; `hokewhuni help` lists them");
    misused(&["sell"], &unknown);
    misused(&["help", "sell"], &unknown);
    misused(
        &["help", "sale", "sale"],
        "usage: hokewhuni help [COMMAND]\n",
    );
    for words in [
        &["sale", "-x"][..],
        &["sale", "--verbose"],
        &["sale", "a", "b"],
    ] {
        misused(words, "usage: hokewhuni sale [-v] [FILE]\n");
    }
    for words in [
        &["install"][..],
        &["install", "-x"],
        &["install", "a", "b"],
        &["install", ""],
    ] {
        misused(words, "usage: hokewhuni install DIR\n");
    }
    let own = said(". is where this command is: name another folder");
    misused(&["install", "."], &own);
}

/// Each example by name, as standard input, and as `-`.
fn sales(tally: &mut Tally) {
    for example in tally.succeeds("the examples", examples()) {
        let path = &example.path.display().to_string();
        let end = End {
            status: example.status(),
            output: &example.sale,
            errors: b"",
        };
        ends(tally, &["sale", path], b"", &end);
        ends(tally, &["sale"], &example.sheet, &end);
        ends(tally, &["sale", "-"], &example.sheet, &end);
    }
}

/// What `-v` says of a refused sheet. Of a settled one it says nothing.
fn meanings(tally: &mut Tally) {
    for (name, place) in PLACES {
        let path = format!("examples/{name}.sheet");
        let run = run(command().args(["sale", "-v", &path]), b"");
        let said = run.map(|ended| String::from_utf8_lossy(&ended.errors).into_owned());
        let said = said.unwrap_or_else(|error| error.to_string());
        let right = said.ends_with(&format!("{place}\n"));
        tally.succeeds(name, right.then_some(()).ok_or(said));
    }
    for example in tally.succeeds("the examples", examples()) {
        input(tally, &example.sheet);
    }
    let text = tally.succeeds(SHEETS[0], text_of(SHEETS[0]));
    for text in [
        text.replace('\n', "\r\n"),
        text.replace("     0", "\t0"),
        format!("\u{feff}{text}"),
    ] {
        input(tally, text.as_bytes());
    }
}

fn text_of(path: &str) -> io::Result<String> {
    fs::read_to_string(in_repository(path))
}

/// Files whose names have a blank, or a dash in front.
fn names(tally: &mut Tally, folder: &Path) {
    let sheet = tally.succeeds(SHEETS[0], text_of(SHEETS[0]));
    let end = End {
        status: 0,
        output: &print_sale(sheet.as_bytes()),
        errors: b"",
    };
    for (name, words) in [
        ("a sheet", &["sale", "a sheet"][..]),
        (" sheet", &["sale", " sheet"]),
        ("-sheet", &["sale", "--", "-sheet"]),
        ("-v", &["sale", "./-v"]),
        ("-", &["sale", "./-"]),
        ("*", &["sale", "-v", "--", "*"]),
    ] {
        tally.succeeds(name, fs::write(folder.join(name), &sheet));
        let named = || run(command().current_dir(folder).args(words), b"");
        tally.process_end(format_args!("hokewhuni {words:?}"), named, &end);
    }
}

/// Sheets that can't be read: nothing is printed.
fn unreadable(tally: &mut Tally) {
    let mut unread = |name: &str, why: &str, run: &dyn Fn() -> io::Result<Ended>| {
        let what = format!("hokewhuni sale, its sheet {name}");
        tally.process_end(what, run, &End::saying(2, &said(why)));
    };
    let named = |name: &'static str| move || run(command().args(["sale", name]), b"");
    unread(
        "not there",
        "examples/nowhere.sheet is not there",
        &named("examples/nowhere.sheet"),
    );
    // No file, though bash would open a connection to another machine by such a name.
    unread(
        "on a network",
        "/dev/tcp/localhost/9 is not there",
        &named("/dev/tcp/localhost/9"),
    );
    unread("a folder", "examples is a folder", &named("examples"));
    unread(
        "within a file",
        "README.md/x is not there",
        &named("README.md/x"),
    );
    unread("a folder as input", "the sheet can't be read", &|| {
        run_from(command().arg("sale"), File::open(in_repository("."))?)
    });
    unread("open for writing", "the sheet can't be read", &|| {
        run(&mut redirected(&["sale"], "0>/dev/null"), b"")
    });
    unread("closed", "standard input is closed", &|| {
        run(&mut redirected(&["sale"], "<&-"), b"")
    });
}

/// The command with its input or output changed by the shell.
pub fn redirected(words: &[&str], change: &str) -> Command {
    shell("sh", &format!("exec \"$0\" \"$@\" {change}"), words)
}

/// A shell, run in the repository, that gets the command as "$0" and words after it.
pub fn shell(name: &str, line: &str, words: &[&str]) -> Command {
    let mut shell = Command::new(name);
    shell.args(["-c", line]).arg(in_repository("hokewhuni"));
    shell.args(words).current_dir(in_repository("."));
    shell
}

/// Outputs that can't be written, whatever would be printed.
fn unwritable(tally: &mut Tally) {
    for sheet in SHEETS {
        unwritten(tally, &["sale", "-v", sheet]);
    }
    for words in [&[][..], &["help", "sale"]] {
        unwritten(tally, words);
    }
}

/// The command with these words and each output that can't be written.
pub fn unwritten(tally: &mut Tally, words: &[&str]) {
    let mut output = |name: &str, why: &str, run: &dyn Fn() -> io::Result<Ended>| {
        let what = format!("hokewhuni {}, its output {name}", words.join(" "));
        tally.process_end(what, run, &End::saying(3, &said(why)));
    };
    output("closed", "standard output is closed", &|| {
        run(&mut redirected(words, ">&-"), b"")
    });
    let failed = "the output could not be written";
    output("full", failed, &|| {
        let full = OpenOptions::new().write(true).open("/dev/full")?;
        run_into(command().args(words), b"", full)
    });
    output("open for reading", failed, &|| {
        run_into(command().args(words), b"", File::open("/dev/null")?)
    });
    output("read by nobody", failed, &|| {
        run_unread(command().args(words), b"")
    });
}

/// What the environment may set for every bash, the last by the lines of a file.
const SETTINGS: [(&str, &str); 4] = [
    ("POSIXLY_CORRECT", "1"),
    ("SHELLOPTS", "errexit"),
    ("SHELLOPTS", "noclobber:noglob:posix"),
    ("BASH_ENV", "/dev/stdin"),
];

/// The lines.
const LINES: &[u8] = b"set -efC -o posix\n";

/// What the environment sets makes no difference.
fn environment(tally: &mut Tally) {
    let gone = said("examples/nowhere.sheet is not there");
    let closed = said("standard output is closed");
    set(
        tally,
        || redirected(&["sale", "examples/nowhere.sheet"], ""),
        &End::saying(2, &gone),
    );
    set(
        tally,
        || redirected(&["sale"], ">&-"),
        &End::saying(3, &closed),
    );
}

/// A command that needs no input ends in the same way with every setting.
pub fn set(tally: &mut Tally, command: impl Fn() -> Command, end: &End) {
    for (name, value) in SETTINGS {
        let mut command = command();
        command.env(name, value);
        let what = format!("{command:?}");
        tally.process_end(what, || run(&mut command, LINES), end);
    }
}

/// What is said of a refusal on standard error where nobody reads it makes no difference to the
/// status.
pub fn unheard(tally: &mut Tally, words: &[&str]) {
    let line = r#"{ sleep 0.3; exec "$0" "$@" >/dev/null; } 2>&1 | true; exit ${PIPESTATUS[0]}"#;
    let what = format!(
        "hokewhuni {}, its standard error read by nobody",
        words.join(" ")
    );
    let run = || run(&mut shell("bash", line, words), b"");
    tally.process_end(what, run, &End::saying(1, ""));
}

/// A sheet that is typed at a terminal, which `script` provides, is announced; Ctrl-D ends it.
fn terminal(tally: &mut Tally) {
    let line = format!("'{}' sale", in_repository("hokewhuni").display());
    let mut script = Command::new("script");
    script
        .args(["-qec", &line, "/dev/null"])
        .env("SHELL", "/bin/sh");
    let typed = match run(&mut script, b"     1     1\n     7\n\x04") {
        Ok(ended) if ended.with(0) => String::from_utf8_lossy(&ended.output).into_owned(),
        ended => format!("{ended:?}"),
    };
    let shown = [
        "hokewhuni: type the lines of a sheet, and end it with Ctrl-D at the start of a line\r\n",
        "     0     1     1     0\r\n     1     1\r\n     1     0     0     0\r\n",
    ];
    let right = shown.iter().all(|lines| typed.contains(lines));
    tally.succeeds("a typed sheet", right.then_some(()).ok_or(typed));
}

/// Any input: what is printed, the status, and what `-v` says of the number and the place.
fn input(tally: &mut Tally, input: &[u8]) {
    let mut end = End {
        status: 0,
        output: &print_sale(input),
        errors: b"",
    };
    let said = read_sheet(input)
        .err()
        .map(|refusal| meaning(input, &refusal));
    if let Some(said) = &said {
        end.status = 1;
        end.errors = said.as_bytes();
    }
    let what = format!("the command, given \"{}\"", input.escape_ascii());
    tally.process_end(what, || run(command().args(["sale", "-v"]), input), &end);
}

/// What is said of a question in all cases.
pub fn refused_by(number: u8, words: &str) -> String {
    format!("refused by question {number}: {words}")
}

/// What is said of a refusal of an input.
fn meaning(input: &[u8], refusal: &Refusal) -> String {
    let input = &input[..input.len().min(MOST_READ)];
    let (number, place) = (refusal.number, refusal.place);
    let mut said = refused_by(number, WORDS[usize::from(number) - 1]);
    if number == 5 {
        let [buyers, lots] = [5, 11].map(|at| usize::from(input[at] - b'0'));
        let more = if input.len() < MOST_READ {
            ""
        } else {
            " or more"
        };
        let (due, length) = (length(buyers, lots), input.len());
        said += &format!("; for m = {buyers} and n = {lots} that is {due}");
        said += &format!(", and the sheet has {length}{more}");
    }
    if place > 0 {
        let lines: Vec<&[u8]> = input[..place].split(|&byte| byte == LINE_END).collect();
        let column = lines.last().map_or(0, |line| line.len()) + 1;
        said += &format!("; offset {place} is line {}, column {column}", lines.len());
    }
    if input.contains(&b'\r') {
        said += "; it has carriage returns (byte 13), as no sheet has";
    }
    if input.contains(&b'\t') {
        said += "; it has tabs (byte 9), as no sheet has";
    }
    if input.starts_with("\u{feff}".as_bytes()) {
        said += "; it begins with a byte order mark, as no sheet does";
    }
    format!("hokewhuni: {said}\n")
}
