//! How the command builds, in a small tree with a command that stands in for the kit's: when, of
//! what, and what it says.

use std::fs::{self, File};
use std::path::{Path, PathBuf};
use std::process::{Child, Command, Stdio};
use std::thread::{self, sleep};
use std::time::{Duration, Instant, SystemTime};

use super::folder::{copy_executable, Folder};
use super::{in_repository, told};
use crate::process::{end, run, run_within, Ended};
use crate::tally::Tally;

/// The system's tools, and nothing of the kit.
pub const SYSTEM: &str = "/usr/bin:/bin";

/// Stands in for `rt`: notes each call, proves the crate of the folder that it is called in and the one
/// below unless it has kept that, and makes the program, which prints a line of what its source has,
/// unless it has made that before. It waits for a file `go`, and fails for a source that is broken.
const RT: &str = r#"#!/bin/sh
name=${PWD##*/}
echo "$@ in $name" >>"$NOTES/calls"
[ "$*" = run ] || exit 1
below=../first/out/rlib/first.rlib
if ! cmp -s ../first/src/lib.rt $below/lib.rt; then
    echo "rt: chose --jobs 2 for first"
    sleep 0.5
    mkdir -p $below && cp ../first/src/lib.rt $below
fi
echo "rt: chose --jobs 2 for $name"
sleep 0.5
: >"$NOTES/begun"
while [ ! -e "$NOTES/go" ]; do sleep 0.1; done
text=$(cat src/main.rt)
[ "$text" != broken ] || { echo "src/main.rt:1:1: error: broken"; seq 30; exit 1; }
mkdir -p out/incremental
[ "$text" != "$(cat out/incremental/text)" ] || exit 0
printf '#!/bin/sh\ncat >/dev/null\necho "settled by %s"\n' "$text" >"out/$name"
chmod +x "out/$name"
echo "$text" >out/incremental/text
"#;

/// How long a test waits for a build to begin or to end.
const PATIENCE: Duration = Duration::from_secs(60);

/// What a sale says that finds another one building.
const WAITING: &str = "hokewhuni: waiting for another build\n";

/// The words of a sale, and of sheets that are made of numbers.
const SELL: &[&str] = &["sale"];
const LIST: &[&str] = &["write", "1", "1", "7"];
const TRIAL: &[&str] = &["trial", "1", "1", "1", "7"];

/// A tree with the command and the sources of its programs, and notes of what was built.
struct Tree {
    folder: Folder,
}

pub fn compare(tally: &mut Tally) {
    tally.group("building", |tally| {
        let tree = Tree::new().map(Some);
        let Some(tree) = tally.succeeds("a tree", tree) else {
            return;
        };
        for (name, test) in TESTS {
            tally.succeeds(name, test(&tree));
        }
    });
}

/// A test by its name. Each goes on with what the one before it left.
type Test = (&'static str, fn(&Tree) -> Result<(), String>);

const TESTS: [Test; 15] = [
    ("no kit", no_kit),
    ("the first build", first),
    ("the folders of a build", folders),
    ("nothing changed", unchanged),
    ("a new date", new_date),
    ("a change with an old date", old_date),
    ("an edit during a build", edit_meanwhile),
    ("an edit that is taken back during a build", edit_taken_back),
    ("two builds at once", two_at_once),
    ("a build that is interrupted", interrupted),
    ("a program that is gone", gone),
    ("all that was built is gone", all_gone),
    ("a build that fails", failing),
    ("three programs", three_programs),
    ("what the kit keeps in the tree", kept_in_tree),
];

impl Tree {
    fn new() -> Result<Self, String> {
        let tree = Tree {
            folder: Folder::new("building")?,
        };
        for folder in [
            "bin",
            "crates/first/src",
            "crates/first/must-fail",
            "crates/sale_main/src",
            "crates/write_main/src",
            "crates/trial_main/src",
        ] {
            told(fs::create_dir_all(tree.path(folder)))?;
        }
        copy_executable(&in_repository("hokewhuni"), &tree.path("hokewhuni"))?;
        tree.write(
            "crates.txt",
            "# a comment\nfirst:\nother: first\nsale_main: first io\nwrite_main: io first\n\
             trial_main: first io\n",
        )?;
        tree.write("crates/first/src/lib.rt", "one")?;
        tree.write("crates/first/must-fail/wrong.edit", "one")?;
        tree.write("crates/write_main/src/main.rt", "lists")?;
        tree.write("crates/trial_main/src/main.rt", "trials")?;
        tree.write("rt", RT)?;
        copy_executable(&tree.path("rt"), &tree.path("bin/rt"))?;
        tree.write("go", "")?;
        tree.edit("one")?;
        Ok(tree)
    }

    fn path(&self, path: &str) -> PathBuf {
        self.folder.path().join(path)
    }

    fn write(&self, path: &str, text: &str) -> Result<(), String> {
        told(fs::write(self.path(path), text))
    }

    /// Changes the program's source.
    fn edit(&self, text: &str) -> Result<(), String> {
        self.write(SOURCE, text)
    }

    /// The command, with this path to find other commands by.
    fn command(&self, path: &str, words: &[&str]) -> Command {
        let mut command = Command::new(self.path("hokewhuni"));
        command.args(words).env("PATH", path);
        command.env("NOTES", self.folder.path());
        command
    }

    /// The path with the stand-in on it.
    fn with_rt(&self) -> String {
        format!("{}:{SYSTEM}", self.path("bin").display())
    }

    /// A command with the stand-in on the path.
    fn run(&self, words: &[&str]) -> Result<Ended, String> {
        let mut command = self.command(&self.with_rt(), words);
        told(run_within(&mut command, PATIENCE))
    }

    fn sell(&self) -> Result<Ended, String> {
        self.run(SELL)
    }

    /// How often something was built.
    fn calls(&self) -> usize {
        fs::read_to_string(self.path("calls")).map_or(0, |calls| calls.lines().count())
    }

    /// A sale has to be by a program of this text, built in so many calls.
    fn expect(&self, text: &str, calls: usize) -> Result<Ended, String> {
        self.expect_of(SELL, text, calls)
    }

    /// As `expect`, for any command.
    fn expect_of(&self, words: &[&str], text: &str, calls: usize) -> Result<Ended, String> {
        let before = self.calls();
        let ended = self.run(words)?;
        sold(&ended, text)?;
        let calls_made = self.calls() - before;
        require(calls_made == calls, || {
            format!("{calls_made} calls where {calls} are due")
        })?;
        Ok(ended)
    }

    /// Has the next build begin, and not go on.
    fn hold(&self) {
        for note in ["go", "begun"] {
            let _ = fs::remove_file(self.path(note));
        }
    }

    /// Does something while a sale builds: after the build has begun, and before it ends.
    fn meanwhile(&self, act: impl FnOnce() -> Result<(), String>) -> Result<Ended, String> {
        self.hold();
        thread::scope(|scope| {
            let sale = scope.spawn(|| self.sell());
            let acted = self.begun().and_then(|()| act());
            self.write("go", "")?;
            let ended = sale.join().expect("a sale does not panic");
            acted.and(ended)
        })
    }

    /// Waits until a build has begun.
    fn begun(&self) -> Result<(), String> {
        until("no build began", || self.path("begun").exists())
    }

    /// Starts another sale while one builds, and waits until it says that it waits.
    fn second(&self) -> Result<Child, String> {
        let errors = told(File::create(self.path("said")))?;
        let mut sale = self.command(&self.with_rt(), SELL);
        sale.stdin(Stdio::null()).stdout(Stdio::piped());
        let sale = told(sale.stderr(errors).spawn())?;
        until("no sale waits", || self.said().starts_with(WAITING))?;
        Ok(sale)
    }

    /// What that one has said.
    fn said(&self) -> String {
        fs::read_to_string(self.path("said")).unwrap_or_default()
    }
}

/// Waits until something is so.
fn until(wrong: &str, so: impl Fn() -> bool) -> Result<(), String> {
    let start = Instant::now();
    while !so() {
        require(start.elapsed() < PATIENCE, || wrong.to_string())?;
        sleep(Duration::from_millis(20));
    }
    Ok(())
}

const SOURCE: &str = "crates/sale_main/src/main.rt";

fn no_kit(tree: &Tree) -> Result<(), String> {
    let ended = told(run(&mut tree.command(SYSTEM, SELL), b""))?;
    let said = "hokewhuni: the Rattle kit's command rt is not on the path\n";
    failed(&ended, said)
}

/// It says what is built, where the log is, and which crate of how many is being proved. Nothing is
/// said twice, and `other` is none of the crates.
fn first(tree: &Tree) -> Result<(), String> {
    let ended = tree.expect("one", 1)?;
    let first = "hokewhuni: proving crate 1 of 2, first\n";
    builds(tree, &ended, "sale_main", first)
}

/// What a build says: of the crate below, this, and nothing if it is kept.
fn builds(tree: &Tree, ended: &Ended, name: &str, first: &str) -> Result<(), String> {
    let errors = String::from_utf8_lossy(&ended.errors);
    let log = tree.path("target/built/log");
    let lines = [
        format!(
            "hokewhuni: building {name} and proving each of its functions, which takes some \
             minutes; the log is {}\n",
            log.display()
        ),
        first.to_string(),
        format!("hokewhuni: proving crate 2 of 2, {name}\n"),
    ];
    require(errors == lines.concat(), || errors.to_string())?;
    let log = told(fs::read_to_string(log))?;
    require(
        log.contains(&format!("rt: chose --jobs 2 for {name}")),
        || log.clone(),
    )
}

/// The crates are as they were, and below `target` nothing is left that `rt ci` refuses there: sources,
/// lists of crates and links.
fn folders(tree: &Tree) -> Result<(), String> {
    for name in ["first", "sale_main"] {
        let made = tree.path("crates").join(name).join("out");
        require(!made.exists(), || made.display().to_string())?;
    }
    let mut folders = vec![tree.path("target")];
    while let Some(folder) = folders.pop() {
        for entry in told(fs::read_dir(folder))? {
            let path = told(entry)?.path();
            let ending = path.extension().unwrap_or_default();
            let source = ["rt", "antt"].iter().any(|source| ending == *source);
            let refused = source || path.ends_with("crates.txt") || path.is_symlink();
            require(!refused, || path.display().to_string())?;
            if path.is_dir() {
                folders.push(path);
            }
        }
    }
    Ok(())
}

/// The program is there: nothing is said, and the kit is not asked for.
fn unchanged(tree: &Tree) -> Result<(), String> {
    quiet(&tree.expect("one", 0)?)?;
    let ended = told(run(&mut tree.command(SYSTEM, SELL), b""))?;
    sold(&ended, "one").and_then(|()| quiet(&ended))
}

fn new_date(tree: &Tree) -> Result<(), String> {
    date(&tree.path(SOURCE), SystemTime::now())?;
    quiet(&tree.expect("one", 0)?)
}

fn old_date(tree: &Tree) -> Result<(), String> {
    tree.edit("two")?;
    date(&tree.path(SOURCE), SystemTime::UNIX_EPOCH)?;
    tree.expect("two", 1)?;
    quiet(&tree.expect("two", 0)?)
}

/// What was there when the build began is built; what was written meanwhile, the next time.
fn edit_meanwhile(tree: &Tree) -> Result<(), String> {
    tree.edit("three")?;
    let ended = tree.meanwhile(|| tree.edit("four"))?;
    sold(&ended, "three")?;
    tree.expect("four", 1)?;
    quiet(&tree.expect("four", 0)?)
}

fn edit_taken_back(tree: &Tree) -> Result<(), String> {
    tree.edit("five")?;
    let ended = tree.meanwhile(|| {
        tree.edit("six")?;
        sleep(Duration::from_millis(100));
        tree.edit("five")
    })?;
    sold(&ended, "five")?;
    quiet(&tree.expect("five", 0)?)
}

/// One builds, the other waits for it and says so.
fn two_at_once(tree: &Tree) -> Result<(), String> {
    tree.edit("seven")?;
    let before = tree.calls();
    let mut second = None;
    let first = tree.meanwhile(|| {
        second = Some(tree.second()?);
        Ok(())
    })?;
    sold(&first, "seven")?;
    let second = second.ok_or("no second sale")?;
    sold(&told(end(second, PATIENCE))?, "seven")?;
    require(tree.said() == WAITING, || tree.said())?;
    require(tree.calls() == before + 1, || "built twice".to_string())
}

/// What an interrupted build leaves running is waited for, so that it cannot write over the next.
fn interrupted(tree: &Tree) -> Result<(), String> {
    tree.edit("eight")?;
    tree.hold();
    let mut sale = tree.command(&tree.with_rt(), SELL);
    let mut sale = told(sale.stdin(Stdio::null()).stderr(Stdio::null()).spawn())?;
    let begun = tree.begun();
    told(sale.kill().and_then(|()| sale.wait()))?;
    begun?;
    tree.edit("nine")?;
    let next = tree.second();
    tree.write("go", "")?;
    sold(&told(end(next?, PATIENCE))?, "nine")?;
    quiet(&tree.expect("nine", 0)?)
}

/// What was built is there again if it is gone, also where `rt` takes it for made.
fn gone(tree: &Tree) -> Result<(), String> {
    told(fs::remove_dir_all(tree.path("target/built/programs")))?;
    let ended = tree.expect("nine", 1)?;
    builds(tree, &ended, "sale_main", "")
}

fn all_gone(tree: &Tree) -> Result<(), String> {
    told(fs::remove_dir_all(tree.path("target/built")))?;
    tree.expect("nine", 1).map(|_| ())
}

/// What is wrong is shown, and nothing is printed; mended, it builds.
fn failing(tree: &Tree) -> Result<(), String> {
    tree.edit("broken")?;
    for _ in 0..2 {
        let log = tree.path("target/built/log");
        let said = format!(
            "src/main.rt:1:1: error: broken\n1\n2\n3\n4\n5\n\
             hokewhuni: sale_main could not be built; the log is {}\n",
            log.display()
        );
        failed(&tree.sell()?, &said)?;
        folders(tree)?;
    }
    tree.edit("ten")?;
    tree.expect("ten", 1).map(|_| ())
}

/// Each command builds its own program, of sources that are those of all; misused, none.
fn three_programs(tree: &Tree) -> Result<(), String> {
    let makers = [
        (LIST, "lists", "write_main"),
        (TRIAL, "trials", "trial_main"),
    ];
    for (words, text, name) in makers {
        let before = tree.calls();
        let misused = tree.run(&words[..2])?;
        require(misused.with(2) && tree.calls() == before, || {
            format!("{misused:?}")
        })?;
        let ended = tree.expect_of(words, text, 1)?;
        builds(tree, &ended, name, "")?;
        quiet(&tree.expect_of(words, text, 0)?)?;
    }
    quiet(&tree.expect("ten", 0)?)?;
    tree.edit("eleven")?;
    tree.expect("eleven", 1)?;
    for (words, text, _) in makers {
        tree.expect_of(words, text, 1)?;
    }
    quiet(&tree.expect("eleven", 0)?)?;
    for (words, text, _) in makers {
        quiet(&tree.expect_of(words, text, 0)?)?;
    }
    Ok(())
}

/// What `rt` made in the tree, and edits that have to fail, are no sources: they make no difference.
fn kept_in_tree(tree: &Tree) -> Result<(), String> {
    let kept = "crates/sale_main/out/incremental";
    told(fs::create_dir_all(tree.path(kept)))?;
    tree.write(&format!("{kept}/text"), "twelve")?;
    tree.write("crates/first/must-fail/wrong.edit", "two")?;
    quiet(&tree.expect("eleven", 0)?)?;
    tree.edit("twelve")?;
    tree.expect("twelve", 1).map(|_| ())
}

/// Status 0, and a line of the program's text.
fn sold(ended: &Ended, text: &str) -> Result<(), String> {
    let line = format!("settled by {text}\n");
    require(ended.with(0) && ended.output == line.as_bytes(), || {
        format!("{ended:?} where {text} is due")
    })
}

/// Nothing was said.
fn quiet(ended: &Ended) -> Result<(), String> {
    require(ended.errors.is_empty(), || format!("{ended:?}"))
}

/// Status 4, nothing printed, and these the last words.
fn failed(ended: &Ended, said: &str) -> Result<(), String> {
    let right = ended.with(4) && ended.output.is_empty() && ended.errors.ends_with(said.as_bytes());
    require(right, || format!("{ended:?} where {said:?} is due"))
}

fn date(path: &Path, date: SystemTime) -> Result<(), String> {
    told(
        File::options()
            .write(true)
            .open(path)
            .and_then(|file| file.set_modified(date)),
    )
}

fn require(holds: bool, wrong: impl FnOnce() -> String) -> Result<(), String> {
    holds.then_some(()).ok_or_else(wrong)
}
