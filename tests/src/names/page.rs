//! The page of the claim: how long it is, and what it rests on. Besides its own definitions that
//! may be the kit, the structs of the answers, and the words of the entries' contracts, which the
//! claim is about. Any other definition a reader would have to look up and believe.

use std::collections::{BTreeSet, HashSet};

use super::antt::{all_taken, definitions, head, is_use, passes_on};
use super::origin::{named, origin, Name, Origin, OURS};
use super::sources::{code, find, is_used, words, Source};
use super::Found;

pub const PAGE: &str = "crates/claim/specs/Claim.antt";

/// The most lines that it may have.
const MOST_LINES: usize = 431;

/// The most characters of a line.
const WIDEST: usize = 120;

/// What the page rests on besides itself and the kit.
struct Ground<'a> {
    sources: &'a [Source],
    /// The words of the contracts.
    contracts: &'a BTreeSet<Name>,
    structs: BTreeSet<String>,
    words: BTreeSet<Name>,
    others: BTreeSet<Name>,
}

/// Checks the page, given the words of the contracts.
pub fn check(sources: &[Source], contracts: &BTreeSet<Name>, found: &mut Found) {
    let Some(page) = find(sources, PAGE) else {
        found.wrong.push(format!("{PAGE} is not there"));
        return;
    };
    found.wrong.extend(wrong_lines(&page.text));
    let mut ground = Ground {
        sources,
        contracts,
        structs: BTreeSet::new(),
        words: BTreeSet::new(),
        others: BTreeSet::new(),
    };
    for taken in all_taken(&page.text) {
        match origin(sources, &taken) {
            Origin::Kit => {}
            Origin::Ours(name) => ground.add(name),
            Origin::Other => found.wrong.push(format!("{PAGE}: takes {}", taken.module)),
        }
    }
    for Name { file, name } in &ground.others {
        found
            .wrong
            .push(format!("{PAGE}: rests on {name} of {file}"));
    }
    found.reckoned.push(ground.reckoned(&page.text));
}

/// What is wrong with the page's lines: their number, their lengths, and modules of ours that they
/// name in any other way than by a `use` line.
fn wrong_lines(text: &str) -> Vec<String> {
    let mut wrong = Vec::new();
    let count = text.lines().count();
    if count > MOST_LINES {
        wrong.push(format!(
            "{PAGE}: {count} lines where {MOST_LINES} are the most"
        ));
    }
    for (number, line) in (1..).zip(text.lines()) {
        let place = format!("{PAGE}, line {number}");
        let width = line.chars().count();
        if width > WIDEST {
            wrong.push(format!(
                "{place}: {width} characters where {WIDEST} are the most"
            ));
        }
        if head(line).1 == "mod" || code(line).contains(OURS) && !is_whole_use(line) {
            wrong.push(format!("{place}: a module that no `use` line takes"));
        }
    }
    wrong
}

/// Whether a line is a `use` line that has all its names.
fn is_whole_use(line: &str) -> bool {
    (is_use(line) || passes_on(line)) && line.contains('{') == line.contains('}')
}

impl Ground<'_> {
    /// Adds a name, and with another's definition what that rests on.
    fn add(&mut self, name: Name) {
        if let Some(declared) = name.declared(self.sources) {
            self.structs.insert(declared.to_string());
        } else if self.contracts.contains(&name) {
            self.words.insert(name);
        } else if self.others.insert(name.clone()) {
            for used in self.used_by(&name) {
                self.add(used);
            }
        }
    }

    /// The names of ours that a definition uses: those that its file takes, and the file's own.
    fn used_by(&self, name: &Name) -> BTreeSet<Name> {
        let lines = self.lines_of(name);
        let words: HashSet<&str> = lines.iter().flat_map(|line| words(line)).collect();
        let text = self.text_of(name);
        let mut used = named(self.sources, text, &words);
        for own in definitions(text) {
            if is_used(own.name, &words) {
                used.insert(Name {
                    file: name.file.clone(),
                    name: own.name.to_string(),
                });
            }
        }
        used
    }

    /// The lines of a definition.
    fn lines_of(&self, name: &Name) -> Vec<&str> {
        let definitions = definitions(self.text_of(name)).into_iter();
        definitions
            .filter(|definition| definition.name == name.name)
            .flat_map(|definition| definition.lines)
            .collect()
    }

    /// The text of a name's file.
    fn text_of(&self, name: &Name) -> &str {
        find(self.sources, &name.file).map_or("", |source| &source.text)
    }

    /// What is said of the page.
    fn reckoned(&self, page: &str) -> String {
        let (own, length) = (definitions(page).len(), page.lines().count());
        let (structs, words) = (self.structs.len(), self.words.len());
        let others = match self.others.len() {
            0 => "nothing else of ours".to_string(),
            count => {
                let lines = self.others.iter().map(|name| self.lines_of(name).len());
                let lines: usize = lines.sum();
                format!("other definitions: {count}, of {lines} lines")
            }
        };
        format!(
            "the page: {own} definitions, {length} lines; {structs} structs and enums, \
             {words} of {} words of contracts; {others}",
            self.contracts.len()
        )
    }
}
