//! Standard input that has no bytes or cannot be read, and standard output that cannot be written.
//! The programs print what is due for no bytes, and end.

use std::fs::{File, OpenOptions};
use std::io;
use std::process::{Command, Stdio};

use super::{in_repository, program, program_path, SALE, TRIAL, WRITE};
use crate::process::{run, run_from, run_into, run_unread, Ended};
use crate::tally::Tally;

/// What is printed of no bytes (rules 3.1, 11.8 and 12.8).
const NO_BYTES: [(&str, &[u8]); 3] = [
    (SALE, b"     1     0\n"),
    (WRITE, b"     3     0\n"),
    (TRIAL, b""),
];

/// A sheet that is settled and one that is refused; a list that is written and one that is refused;
/// a trial sheet that is made and one that is refused.
const INPUTS: [(&str, &[u8]); 6] = [
    (
        SALE,
        b"     2     2\n     2     0     2\n     0     1     3\n",
    ),
    (
        SALE,
        b"     2     2\n     4     0     3\n     0     1     3\n",
    ),
    (WRITE, b"     2     1     5     3"),
    (WRITE, b"     2     1     5"),
    (TRIAL, b"     1     2     2     5"),
    (TRIAL, b"     1     2     2 10000"),
];

pub fn compare(tally: &mut Tally) {
    tally.group("standard input without bytes", |tally| {
        for (name, output) in NO_BYTES {
            inputs(tally, name, output);
        }
    });
    tally.group("standard output that cannot be written", |tally| {
        for (name, input) in INPUTS {
            outputs(tally, name, input);
        }
    });
}

fn inputs(tally: &mut Tally, name: &str, output: &[u8]) {
    let mut input = |which: &str, run: &dyn Fn() -> io::Result<Ended>| {
        tally.process(format_args!("{name}, its input {which}"), run, output);
    };
    input("an empty pipe", &|| run(&mut program(name), b""));
    input("no device", &|| run_from(&mut program(name), Stdio::null()));
    input("a folder", &|| {
        run_from(&mut program(name), File::open(in_repository("."))?)
    });
    input("closed", &|| run(&mut redirected(name, "<&-"), b""));
    input("open for writing", &|| {
        run(&mut redirected(name, "0>/dev/null"), b"")
    });
}

fn outputs(tally: &mut Tally, name: &str, input: &[u8]) {
    let mut output = |which: &str, run: &dyn Fn() -> io::Result<Ended>| {
        tally.process_ends(format_args!("{name}, its output {which}"), run);
    };
    output("full", &|| {
        let full = OpenOptions::new().write(true).open("/dev/full")?;
        run_into(&mut program(name), input, full)
    });
    output("closed", &|| run(&mut redirected(name, ">&-"), input));
    output("open for reading", &|| {
        run(&mut redirected(name, "1</dev/null"), input)
    });
    output("read by nobody", &|| run_unread(&mut program(name), input));
    output("read by nobody, without a signal", &|| {
        run_unread(&mut without_signal(name), input)
    });
}

/// A program with its input or output changed by the shell.
fn redirected(name: &str, change: &str) -> Command {
    shell(name, &format!("exec \"$0\" {change}"))
}

/// A program with no signal for a pipe that nobody reads: writing fails instead.
fn without_signal(name: &str) -> Command {
    shell(name, "trap '' PIPE; exec \"$0\"")
}

/// A shell that gets a program's path as "$0".
fn shell(name: &str, text: &str) -> Command {
    let mut command = Command::new("sh");
    command.arg("-c").arg(text).arg(program_path(name));
    command
}
