//! The files of the tree: those of Rattle and antt in crates/, and all texts; and the words of their
//! lines.

use std::collections::HashSet;
use std::path::{Path, PathBuf};
use std::{fs, io};

/// A file, by its path from the repository's root.
pub struct Source {
    pub path: String,
    pub text: String,
}

/// What the files of crates/ end with that are proved.
const PROVED: [&str; 2] = ["antt", "rt"];

/// What texts end with, and those that end with nothing.
const TEXTS: [&str; 10] = [
    "antt", "c", "edit", "h", "md", "py", "rs", "rt", "toml", "txt",
];
const SCRIPTS: [&str; 3] = [".ci/run", "hokewhuni", "tools/staticlib"];

/// All files of Rattle and antt, in the order of their paths.
pub fn collect(root: &Path) -> io::Result<Vec<Source>> {
    let mut sources = Vec::new();
    collect_below(root, Path::new("crates"), &PROVED, &mut sources)?;
    Ok(sources)
}

/// All texts of the tree.
pub fn collect_texts(root: &Path) -> io::Result<Vec<Source>> {
    let mut sources = Vec::new();
    collect_below(root, Path::new(""), &TEXTS, &mut sources)?;
    for script in SCRIPTS {
        sources.push(source(root, Path::new(script))?);
    }
    Ok(sources)
}

/// Adds the files below a folder that have one of the endings, but for what is hidden or built.
fn collect_below(
    root: &Path,
    folder: &Path,
    endings: &[&str],
    sources: &mut Vec<Source>,
) -> io::Result<()> {
    let mut paths: Vec<PathBuf> = fs::read_dir(root.join(folder))?
        .map(|entry| entry.map(|entry| folder.join(entry.file_name())))
        .collect::<io::Result<_>>()?;
    paths.sort();
    for path in paths {
        let ending = path.extension().and_then(|ending| ending.to_str());
        if root.join(&path).is_dir() {
            if !is_apart(&path) {
                collect_below(root, &path, endings, sources)?;
            }
        } else if ending.is_some_and(|ending| endings.contains(&ending)) {
            sources.push(source(root, &path)?);
        }
    }
    Ok(())
}

/// Whether a folder is hidden, or has what is built: `target`, and `out` of a crate.
fn is_apart(folder: &Path) -> bool {
    let name = folder.file_name().unwrap_or_default().to_string_lossy();
    let of_crate = folder.starts_with("crates") && folder.components().count() == 3;
    name.starts_with('.') || name == "target" || of_crate && name == "out"
}

fn source(root: &Path, path: &Path) -> io::Result<Source> {
    Ok(Source {
        path: path.display().to_string(),
        text: fs::read_to_string(root.join(path))?,
    })
}

/// The file with a path.
pub fn find<'a>(sources: &'a [Source], path: &str) -> Option<&'a Source> {
    sources.iter().find(|source| source.path == path)
}

/// A line before its comment.
pub fn code(line: &str) -> &str {
    let line = line.split("--").next().unwrap_or_default();
    line.split("//").next().unwrap_or_default()
}

/// What stands between blanks and punctuation.
pub fn parts(code: &str) -> impl Iterator<Item = &str> {
    code.split(|c: char| c.is_whitespace() || "(){},;.&*!:".contains(c))
}

/// The words of a line before its comment; a type's parameters, too, are words of their own.
pub fn words(line: &str) -> impl Iterator<Item = &str> {
    let code = code(line);
    parts(code)
        .chain(parts(code).flat_map(|part| part.split(['<', '>'])))
        .chain(code.split_whitespace())
        .chain(code.contains("[]").then_some("[]"))
}

/// Whether a name is among the words. An operator's name has `◌` where its arguments stand; it is
/// written whole, or as the words between them.
pub fn is_used(name: &str, words: &HashSet<&str>) -> bool {
    let operator = name.contains('◌');
    let mut parts = name.split('◌').filter(|part| !part.is_empty());
    words.contains(name) || operator && parts.all(|part| words.contains(part))
}
