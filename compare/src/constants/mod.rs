//! Every constant of the Rust beside the definitions and the code, without trust in anybody's conversion:
//! the texts are read, each literal is rounded once to its format, and patterns are compared, both ways.
//! A constant has its name in the definitions, or its place in a list (`lists`); the literals and the words
//! of the functions are found by value.

mod code;
mod comparison;
mod lists;
mod ported;
mod specs;
mod text;
mod value;

use crate::port::failure;
use crate::tally::Tally;
use code::Code;
use comparison::{items, Comparison};
use ported::{Group, GROUPS, LITERALS};
use specs::{Item, Specs};
use std::fs;
use std::io;
use std::path::Path;

/// What was found in all files.
#[derive(Default)]
pub struct Found {
    constants: usize,
    without_pattern: usize,
    literals: usize,
    words: usize,
    patterns: usize,
    commented: usize,
    files: Vec<&'static str>,
}

impl std::fmt::Display for Found {
    fn fmt(&self, f: &mut std::fmt::Formatter) -> std::fmt::Result {
        write!(
            f,
            "constants: the Rust has {} ({} with no pattern beside them), {} literals and {} words in its functions; the definitions have {} \
            patterns and literals, {} of them with the Rust's literal beside them",
            self.constants,
            self.without_pattern,
            self.literals,
            self.words,
            self.patterns,
            self.commented
        )
    }
}

/// Compares all constants of the Rust in `libm` with the crates of `repository`.
pub fn compare(libm: &Path, repository: &Path, tally: &mut Tally) -> io::Result<Found> {
    let mut found = Found::default();
    for group in GROUPS {
        let rust = read_rust(libm, group)?;
        let specs = read_all(repository, group.specs, specs::read)?;
        let lent = read_all(repository, group.lent, specs::read)?;
        let code = read_all(repository, group.code, code::read)?;
        found.take_rust(&rust);
        found.take_specs(&specs);
        let mut both = Comparison {
            group,
            rust: &rust,
            tally: &mut *tally,
        };
        both.own_comments();
        both.definitions(&specs, &lent);
        both.code(&code);
    }
    for (file, specs) in read_all(repository, &LITERALS, specs::read)? {
        for definition in &specs.definitions {
            comparison::literal(file, definition, tally);
        }
    }
    every_file_is_known(repository, tally)?;
    Ok(found)
}

impl Found {
    fn take_rust(&mut self, rust: &Code) {
        for constant in &rust.constants {
            self.constants += constant.values.len();
            self.without_pattern += constant.beside.iter().filter(|p| p.is_none()).count();
        }
        self.literals += rust.literals.len();
        self.words += rust.words.len();
    }

    /// A file of definitions counts once, however many files of the Rust it is of.
    fn take_specs(&mut self, specs: &[(&'static str, Specs)]) {
        for (file, specs) in specs {
            if self.files.contains(file) {
                continue;
            }
            self.files.push(file);
            let items = || specs.definitions.iter().flat_map(|d| &d.items);
            self.patterns += items().count();
            self.commented += items().filter(|item| item.literal.is_some()).count();
        }
    }
}

fn text(path: &Path) -> io::Result<String> {
    fs::read_to_string(path).map_err(|e| failure(format!("{}: {e}", path.display())))
}

fn read_all<T>(
    repository: &Path,
    files: &[&'static str],
    read: fn(&str) -> T,
) -> io::Result<Vec<(&'static str, T)>> {
    let mut all = Vec::new();
    for file in files {
        all.push((*file, read(&text(&repository.join("crates").join(file))?)));
    }
    Ok(all)
}

/// The Rust's files of a group, as one.
fn read_rust(libm: &Path, group: &Group) -> io::Result<Code> {
    let mut all = Code::default();
    for file in group.rust {
        let one = code::read(&text(&libm.join("src/math").join(file))?);
        all.constants.extend(one.constants);
        all.literals.extend(one.literals);
        all.names.extend(one.names);
        all.words.extend(one.words);
        all.counts.extend(one.counts);
    }
    Ok(all)
}

/// No definition of a ported crate has patterns and is in no group.
fn every_file_is_known(repository: &Path, tally: &mut Tally) -> io::Result<()> {
    let known: Vec<&str> = GROUPS
        .iter()
        .flat_map(|g| g.specs)
        .copied()
        .chain(LITERALS)
        .collect();
    let mut crates: Vec<&str> = known
        .iter()
        .filter_map(|file| file.split('/').next())
        .collect();
    crates.sort_unstable();
    crates.dedup();
    for name in crates {
        for entry in fs::read_dir(repository.join("crates").join(name).join("specs"))? {
            let path = entry?.path();
            if path.extension().map_or(true, |e| e != "antt") {
                continue;
            }
            let file = format!(
                "{name}/specs/{}",
                path.file_name().unwrap().to_string_lossy()
            );
            let specs = [("", specs::read(&text(&path)?))];
            let is_known = known.contains(&file.as_str()) || !items(&specs).any(Item::is_pattern);
            tally.count(is_known, || {
                format!("{file} has patterns, and no Rust to compare them with")
            });
        }
    }
    Ok(())
}

#[cfg(test)]
mod tests;
