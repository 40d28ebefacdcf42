//! What `hokewhuni install` puts into a folder, used there without the kit.

use std::fs;
use std::os::unix::fs::symlink;
use std::path::Path;
use std::process::Command;

use super::building::SYSTEM;
use super::examples::examples;
use super::folder::{copy_executable, Folder};
use super::{in_repository, told, trials, BUILDING, SALE, TRIAL, WRITE};
use crate::process::{run, run_within, Ended};
use crate::tally::{End, Tally};

/// What a folder has after an installation, besides the examples and what is there for Rust.
const FILES: [&str; 7] = [
    "hokewhuni",
    "programs/sale_main",
    "programs/write_main",
    "programs/trial_main",
    "lib/libhokewhuni.a",
    "include/hokewhuni.h",
    "docs/TEACHER.md",
];

/// What is printed of table 3.
const TABLE_3: &str = "examples/table-3.sale";

/// A program in C, with what was installed.
const COMPILE: &str = "cc -std=c11 -Iinclude examples/office.c lib/libhokewhuni.a -o office";

pub fn compare(tally: &mut Tally) {
    tally.group("an installed copy", |tally| {
        let folder = Folder::new("installing").map(Some);
        let Some(folder) = tally.succeeds("a folder", folder) else {
            return;
        };
        let [first, second] = ["a folder", "-second"].map(|name| folder.path().join(name));
        let install = || {
            let mut command = Command::new(in_repository("hokewhuni"));
            run_within(command.arg("install").arg(&first), BUILDING)
        };
        tally.succeeds("install", installed(install(), &first));
        files(tally, &first);
        sales(tally, &first);
        sheets(tally, &first);
        // An installed copy installs others, by a relative path too.
        let again = || {
            let mut command = system(&first.join("hokewhuni"));
            command.args(["install", "--", "-second"]);
            run(command.current_dir(folder.path()), b"")
        };
        tally.succeeds("install again", installed(again(), Path::new("-second")));
        files(tally, &second);
        linked(tally, folder.path(), &second);
        c_program(tally, &second);
        rust_program(tally, &second);
        not_a_folder(tally, &first);
        empty_program(tally, &first);
    });
}

/// A command that finds the system's tools and nothing else.
fn system(program: &Path) -> Command {
    let mut command = Command::new(program);
    command.env_clear().env("PATH", SYSTEM);
    command
}

/// It ends with status 0, and says where the command is.
fn installed(ended: std::io::Result<Ended>, folder: &Path) -> Result<(), String> {
    let ended = told(ended)?;
    let line = format!("installed: {}/hokewhuni\n", folder.display());
    let right = ended.with(0) && ended.output == line.as_bytes();
    right.then_some(()).ok_or_else(|| format!("{ended:?}"))
}

/// All that has to be there is, and sheets, header and page are those of the repository.
fn files(tally: &mut Tally, folder: &Path) {
    for file in FILES {
        let there = folder.join(file).is_file();
        tally.succeeds(file, there.then_some(()).ok_or("not installed"));
    }
    for file in ["hokewhuni", "include/hokewhuni.h", "docs/TEACHER.md"] {
        let ours = tally.succeeds(file, fs::read(in_repository(file)));
        let theirs = tally.succeeds(file, fs::read(folder.join(file)));
        tally.text(file, &theirs, &ours);
    }
}

/// The sale of every example, as it stands there.
fn sales(tally: &mut Tally, folder: &Path) {
    for example in tally.succeeds("the examples", examples()) {
        let path = Path::new("examples").join(example.path.file_name().unwrap_or_default());
        let end = End {
            status: example.status(),
            output: &example.sale,
            errors: b"",
        };
        let mut command = system(&folder.join("hokewhuni"));
        command.arg("sale").arg(&path).current_dir(folder);
        let what = format!("an installed hokewhuni sale {}", path.display());
        tally.process_end(what, || run(&mut command, b""), &end);
    }
}

/// Sheets that are made of numbers, and a sale.
fn sheets(tally: &mut Tally, folder: &Path) {
    let [sheet, sale] = ["one-lot.sheet", "one-lot.sale"].map(|name| {
        let text = fs::read(in_repository("examples").join(name));
        tally.succeeds(name, text)
    });
    for (line, output) in [
        ("write 2 1 5 3", &*sheet),
        ("write 2 1 5 3 | ./hokewhuni sale", &sale),
        ("trial 1 2 2 5", trials::SHEET.as_bytes()),
    ] {
        let mut shell = system(Path::new("sh"));
        shell.args(["-c", &format!("./hokewhuni {line}")]);
        let run = || run(shell.current_dir(folder), b"");
        let what = format_args!("an installed hokewhuni {line}");
        tally.process(what, run, output);
    }
}

/// The command by a link to it, from another folder.
fn linked(tally: &mut Tally, other: &Path, folder: &Path) {
    let link = other.join("link");
    tally.succeeds("a link", symlink(folder.join("hokewhuni"), &link));
    let sheet = in_repository("examples/table-3.sheet");
    let sale = tally.succeeds("table 3", fs::read(in_repository(TABLE_3)));
    let run = || run(system(&link).current_dir(other).arg("sale").arg(sheet), b"");
    tally.process("hokewhuni sale by a link", run, &sale);
}

/// The C example compiles with what was installed, and runs.
fn c_program(tally: &mut Tally, folder: &Path) {
    let mut compile = system(Path::new("sh"));
    compile.args(["-c", COMPILE]).current_dir(folder);
    tally.process(COMPILE, || run(&mut compile, b""), b"");
    let expected = fs::read(in_repository("examples/office.out"));
    let expected = tally.succeeds("office.out", expected);
    let mut office = system(&folder.join("office"));
    office.arg("examples/example.sheet").current_dir(folder);
    tally.process("an installed office", || run(&mut office, b""), &expected);
}

/// The Rust example, too.
fn rust_program(tally: &mut Tally, folder: &Path) {
    let sale = tally.succeeds("table 3", fs::read(in_repository(TABLE_3)));
    let mut cargo = Command::new("cargo");
    cargo
        .args(["run", "--quiet", "--offline", "--example", "sale"])
        .arg("../examples/table-3.sheet")
        .env_remove("HOKEWHUNI_LIB")
        .current_dir(folder.join("rust"));
    let run = || run_within(&mut cargo, BUILDING);
    tally.process("an installed Rust example", run, &sale);
}

/// A folder cannot be made in a file.
fn not_a_folder(tally: &mut Tally, folder: &Path) {
    let within = folder.join("hokewhuni/within");
    let within_file = within.display();
    let said = format!("hokewhuni: {within_file} could not be written: Not a directory\n");
    let end = End::saying(3, &said);
    let run = || {
        run(
            system(&folder.join("hokewhuni"))
                .arg("install")
                .arg(&within),
            b"",
        )
    };
    tally.process_end("install into a file", run, &end);
}

/// A program that prints nothing settles, writes and makes nothing.
fn empty_program(tally: &mut Tally, folder: &Path) {
    for (name, words) in [
        (SALE, &["sale", "examples/table-3.sheet"][..]),
        (WRITE, &["write", "2", "1", "5", "3"]),
        (TRIAL, &["trial", "1", "2", "2", "5"]),
    ] {
        let program = folder.join("programs").join(name);
        let emptied = copy_executable(Path::new("/dev/null"), &program);
        tally.succeeds("an empty program", emptied);
        let mut command = system(&folder.join("hokewhuni"));
        command.args(words).current_dir(folder);
        let said = format!("hokewhuni: the program {name} failed\n");
        let end = End::saying(4, &said);
        tally.process_end("an empty program", || run(&mut command, b""), &end);
    }
}
