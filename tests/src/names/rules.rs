//! The rules of docs/RULES.md: their numbers, the files and names that they cite, and the places in
//! the tree that name a rule. Nothing may point to a document that is not in the tree.

use std::collections::BTreeSet;
use std::fmt::{self, Display, Formatter};
use std::io;
use std::path::Path;

use super::cited::{quoted, read, Citation};
use super::page::PAGE;
use super::sources::Source;
use super::Found;

const RULES: &str = "docs/RULES.md";

/// The last section.
const SECTIONS: usize = 13;

/// The last of the rules that are questions, which begin their section.
const LAST_QUESTION: Number = Number(3, 10);

/// These may point to documents that are not in the tree.
const HISTORY: [&str; 2] = ["docs/DECISIONS.md", "docs/changes/"];

/// A rule's section, and its number there.
#[derive(Clone, Copy, PartialEq, Eq, PartialOrd, Ord)]
struct Number(usize, usize);

struct Rule<'a> {
    /// The section that it stands in.
    section: usize,
    number: Number,
    /// What says it, and what shows it.
    said: Vec<Citation<'a>>,
    shown: Vec<Citation<'a>>,
}

/// Checks the rules, and all that the texts of the tree say of them.
pub fn check(root: &Path, texts: &[Source], found: &mut Found) -> io::Result<()> {
    let document = read(root, RULES)?;
    let rules = rules(&document);
    for wrong in misnumbered(&rules) {
        found.wrong.push(format!("{RULES}: {wrong}"));
    }
    for rule in &rules {
        for wrong in rule.wrong(root) {
            found
                .wrong
                .push(format!("{RULES}, {}: {wrong}", rule.number));
        }
    }
    let known: BTreeSet<Number> = rules.iter().map(|rule| rule.number).collect();
    for Source { path, text } in texts {
        for rule in named(text).difference(&known) {
            found.wrong.push(format!("{path}: there is no rule {rule}"));
        }
        if !HISTORY.iter().any(|history| path.starts_with(history)) {
            for document in outside(text) {
                found.wrong.push(format!("{path}: names {document}"));
            }
        }
    }
    found.reckoned.push(reckoned(&rules));
    Ok(())
}

/// The rules of the document, in order.
fn rules(document: &str) -> Vec<Rule<'_>> {
    let sections = document.split("\n## ").skip(1);
    sections.flat_map(rules_of).collect()
}

/// The rules of a section, which begins with its number and a full stop.
fn rules_of(section: &str) -> impl Iterator<Item = Rule<'_>> {
    let digits = section.split('.').next().unwrap_or_default();
    let place = digits.parse().unwrap_or_default();
    let parts = section.split("\n**").skip(1);
    parts.filter_map(move |part| rule(place, part))
}

/// A rule: its number, what says it and what shows it.
fn rule(section: usize, part: &str) -> Option<Rule<'_>> {
    let (digits, rest) = part.split_once("** ")?;
    let (_, cited) = rest.split_once("\n- Said by ").unwrap_or((rest, ""));
    let (said, shown) = cited.split_once("\n- Shown by ").unwrap_or((cited, ""));
    Some(Rule {
        section,
        number: number(digits)?,
        said: citations(said),
        shown: citations(shown),
    })
}

/// The citations of a list, as in `` `a`, `b` in FILE; `c` on the page; FILE. ``
fn citations(list: &str) -> Vec<Citation<'_>> {
    let items = list.trim_end().trim_end_matches('.').split(';');
    let cited = items.filter_map(|item| match item.split_whitespace().next_back()? {
        "page" => Some((item, PAGE)),
        file => Some((item, file)),
    });
    cited
        .map(|(item, file)| Citation {
            names: quoted(item).collect(),
            file: file.to_string(),
        })
        .collect()
}

impl Rule<'_> {
    /// What is wrong with it, a line for each.
    fn wrong(&self, root: &Path) -> Vec<String> {
        let cited = self.said.iter().chain(&self.shown);
        let mut wrong: Vec<String> = cited.flat_map(|citation| citation.wrong(root)).collect();
        if self.section != self.number.0 {
            wrong.push(format!("stands in section {}", self.section));
        }
        for (list, says) in [(&self.said, "says"), (&self.shown, "shows")] {
            if list.is_empty() {
                wrong.push(format!("nothing is named that {says} it"));
            }
        }
        wrong
    }
}

/// What is wrong with the order of the numbers.
fn misnumbered(rules: &[Rule]) -> Vec<String> {
    let mut wrong = Vec::new();
    let mut last = Number(1, 0);
    for rule in rules {
        let Number(section, place) = last;
        if ![Number(section, place + 1), Number(section + 1, 1)].contains(&rule.number) {
            wrong.push(format!("rule {} comes after rule {last}", rule.number));
        }
        last = rule.number;
    }
    if last.0 != SECTIONS {
        wrong.push(format!(
            "ends with rule {last} where section {SECTIONS} is the last"
        ));
    }
    if !rules.iter().any(|rule| rule.number == LAST_QUESTION) {
        wrong.push(format!(
            "there is no rule {LAST_QUESTION}, the last question"
        ));
    }
    wrong
}

/// The rules that a text names, as in "rule 2.4", "rules 2.1 and 2.2", "rules 3.1 to 3.8".
fn named(text: &str) -> BTreeSet<Number> {
    let mut numbers = BTreeSet::new();
    let mut naming = false;
    for word in bare_words(text) {
        match number(word) {
            Some(number) if naming => {
                numbers.insert(number);
            }
            _ => naming = is_rule(word) || naming && ["and", "to"].contains(&word),
        }
    }
    numbers
}

fn is_rule(word: &str) -> bool {
    ["rule", "rules"]
        .iter()
        .any(|rule| word.eq_ignore_ascii_case(rule))
}

/// The documents that a text names by a number that begins with 0: they are not in the tree.
fn outside(text: &str) -> Vec<String> {
    let words: Vec<&str> = bare_words(text).collect();
    let is_number = |word: &str| word.starts_with('0') && word[1..].starts_with(is_digit);
    let pairs = words
        .windows(2)
        .filter(|pair| pair[0].eq_ignore_ascii_case("document"));
    let outside = pairs.filter(|pair| is_number(pair[1]));
    outside.map(|pair| pair.join(" ")).collect()
}

/// The words of a text, across lines, without punctuation around them and the marks of comments.
fn bare_words(text: &str) -> impl Iterator<Item = &str> {
    let words = text.split_whitespace();
    let bare = words.map(|word| word.trim_matches(|c: char| !c.is_alphanumeric()));
    bare.filter(|word| !word.is_empty())
}

/// The number that a word begins with, as in "2.4" and "2.4's".
fn number(word: &str) -> Option<Number> {
    let end = word
        .find(|c| !is_digit(c) && c != '.')
        .unwrap_or(word.len());
    let (section, place) = word[..end].split_once('.')?;
    Some(Number(section.parse().ok()?, place.parse().ok()?))
}

fn is_digit(c: char) -> bool {
    c.is_ascii_digit()
}

/// What is said of the rules: how many there are, and what they cite.
fn reckoned(rules: &[Rule]) -> String {
    let said: Vec<&Citation> = rules.iter().flat_map(|rule| &rule.said).collect();
    let shown: Vec<&Citation> = rules.iter().flat_map(|rule| &rule.shown).collect();
    let (definitions, theorems) = (names_of_crates(&said), names_of_crates(&shown));
    let (tests, edits) = (files(&shown, ".rs"), files(&shown, ".edit"));
    format!(
        "the rules: {} rules, {definitions} definitions, {theorems} theorems, {tests} tests, \
         {edits} edits",
        rules.len()
    )
}

/// How many names are cited of files in crates/.
fn names_of_crates(citations: &[&Citation]) -> usize {
    let cited = citations
        .iter()
        .filter(|cited| cited.file.starts_with("crates/"));
    let names = cited.flat_map(|cited| cited.names.iter().map(|name| (&cited.file, name)));
    names.collect::<BTreeSet<_>>().len()
}

/// How many files are cited that have an ending.
fn files(citations: &[&Citation], ending: &str) -> usize {
    let files = citations.iter().map(|cited| &cited.file);
    let files = files.filter(|file| file.ends_with(ending));
    files.collect::<BTreeSet<_>>().len()
}

impl Display for Number {
    fn fmt(&self, f: &mut Formatter) -> fmt::Result {
        write!(f, "{}.{}", self.0, self.1)
    }
}
