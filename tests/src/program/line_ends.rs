//! What git writes where it is set to end lines with a carriage return: sheets, sales and scripts
//! are as they are here.

use std::fs;
use std::path::Path;
use std::process::Command;

use super::folder::Folder;
use super::{in_repository, told};
use crate::process::run;
use crate::tally::Tally;

/// What git does with a tree: it takes it in, and writes it out elsewhere.
const STEPS: [&[&str]; 3] = [
    &["init", "--quiet"],
    &["add", "."],
    &[
        "-c",
        "core.autocrlf=true",
        "checkout-index",
        "--all",
        "--prefix=out/",
    ],
];

pub fn compare(tally: &mut Tally) {
    tally.group("line ends", |tally| {
        let folder = Folder::new("line-ends").map(Some);
        let Some(folder) = tally.succeeds("a folder", folder) else {
            return;
        };
        let files = tally.succeeds("the files", copy(folder.path()));
        for step in STEPS {
            tally.succeeds(step.join(" "), git(folder.path(), step));
        }
        for file in &files {
            let out = Path::new("out").join(file);
            let [here, there] = [Path::new(file), &out]
                .map(|path| tally.succeeds(path.display(), fs::read(folder.path().join(path))));
            tally.text(file, &there, &here);
        }
    });
}

/// Copies the files that are compared, and what git is told of them, into a folder.
fn copy(folder: &Path) -> Result<Vec<String>, String> {
    let mut files = ["hokewhuni", ".ci/run", "tools/staticlib", ".gitattributes"]
        .map(String::from)
        .to_vec();
    for entry in told(fs::read_dir(in_repository("examples")))? {
        let name = told(entry)?.file_name();
        files.push(format!("examples/{}", name.to_string_lossy()));
    }
    for file in &files {
        let to = folder.join(file);
        let made = fs::create_dir_all(to.parent().unwrap_or(folder));
        let copied = made.and_then(|()| fs::copy(in_repository(file), &to));
        copied.map_err(|error| format!("{file}: {error}"))?;
    }
    Ok(files)
}

fn git(folder: &Path, step: &[&str]) -> Result<(), String> {
    match run(Command::new("git").args(step).current_dir(folder), b"") {
        Ok(ended) if ended.with(0) => Ok(()),
        ended => Err(format!("{ended:?}")),
    }
}
