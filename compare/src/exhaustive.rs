//! The f32 leaves at all 2^32 patterns, by blocks of one sign and exponent. Each block that agrees is
//! noted in a file beside the other built ones, so that a run that was broken off goes on where it was.
//! What is only read from the notes is counted apart.

use crate::leaves::{Leaf, LEAVES};
use crate::port::{failure, repository, Program, BUILD};
use crate::tally::{Progress, Tally};
use std::collections::hash_map::DefaultHasher;
use std::collections::HashSet;
use std::fs::{self, File, OpenOptions};
use std::hash::{Hash, Hasher};
use std::io::{self, Write};
use std::path::{Path, PathBuf};

/// The patterns of one sign and exponent.
pub const BLOCK: u64 = 1 << 23;

/// The leaves whose one argument is an f32: words and whole parts, expf, logf and the four functions.
pub fn leaves() -> impl Iterator<Item = &'static Leaf> {
    LEAVES
        .iter()
        .filter(|l| matches!(l.number, 33..=39 | 41..=45))
}

/// The blocks that agreed, of one build of the program and one of the Rust side: a line of their marks,
/// then `LEAF BLOCK` on each.
pub struct Journal {
    done: HashSet<(u64, u64)>,
    file: File,
}

impl Journal {
    pub fn open(program: &Program) -> io::Result<Journal> {
        let notes = format!("target/compare/exhaustive-f32.{BUILD}");
        let (port, rust) = (file_of(program)?, std::env::current_exe()?);
        let marks = format!("program {:016x}, rust {:016x}", mark(&port)?, mark(&rust)?);
        Journal::with_marks(&repository()?.join(notes), &marks)
    }

    /// The notes of a file where its marks are these, and none where they are others.
    fn with_marks(path: &Path, marks: &str) -> io::Result<Journal> {
        let text = fs::read_to_string(path).unwrap_or_default();
        let whole = whole_lines(&text);
        let mut lines = whole.lines();
        if lines.next() != Some(marks) {
            let mut file = File::create(path)?;
            writeln!(file, "{marks}")?;
            let done = HashSet::new();
            return Ok(Journal { done, file });
        }
        let done = lines.filter_map(block_of).collect();
        let file = OpenOptions::new().append(true).open(path)?;
        file.set_len(whole.len() as u64)?;
        Ok(Journal { done, file })
    }

    fn add(&mut self, leaf: u64, block: u64) -> io::Result<()> {
        writeln!(self.file, "{leaf} {block}")
    }
}

/// The lines that were written to their ends: a run may have been broken off inside one.
fn whole_lines(text: &str) -> &str {
    &text[..text.rfind('\n').map_or(0, |at| at + 1)]
}

/// A line of a journal.
fn block_of(line: &str) -> Option<(u64, u64)> {
    let (leaf, block) = line.split_once(' ')?;
    let block = block.parse().ok().filter(|&b| b < 512)?;
    Some((leaf.parse().ok()?, block))
}

fn file_of(program: &Program) -> io::Result<PathBuf> {
    Ok(match program {
        Program::Named(name) => repository()?.join("crates").join(name).join("out").join(name),
        Program::File(path) => path.clone(),
    })
}

/// A number that changes with a file.
fn mark(path: &Path) -> io::Result<u64> {
    let bytes = fs::read(path).map_err(|e| failure(format!("{}: {e}", path.display())))?;
    let mut hasher = DefaultHasher::new();
    bytes.hash(&mut hasher);
    Ok(hasher.finish())
}

/// Asks a leaf every block that the journal does not have. `ask` compares `BLOCK` patterns from a
/// first one on.
pub fn each_block(
    leaf: &Leaf,
    journal: &mut Journal,
    tally: &mut Tally,
    mut ask: impl FnMut(u64, &mut Tally) -> io::Result<()>,
) -> io::Result<()> {
    let total = 1 << 32;
    let mut progress = Progress::new(format!("leaf {}, {}", leaf.number, leaf.name), total);
    for block in 0..512 {
        if journal.done.contains(&(leaf.number, block)) {
            tally.noted += BLOCK;
            continue;
        }
        let before = tally.differ;
        ask(block * BLOCK, tally)?;
        if tally.differ == before {
            journal.add(leaf.number, block)?;
        }
        progress.at((block + 1) * BLOCK);
    }
    progress.end();
    Ok(())
}

#[cfg(test)]
mod tests {
    use super::*;

    #[test]
    fn a_cut_line_is_no_block() {
        assert_eq!(whole_lines("41 510\n41 51"), "41 510\n");
        assert_eq!(whole_lines("program"), "");
        assert_eq!(block_of("41 511"), Some((41, 511)));
        assert_eq!(block_of("41 512"), None);
        assert_eq!(block_of("41 "), None);
        assert_eq!(block_of("41"), None);
    }

    #[test]
    fn notes_are_of_one_build_and_counted_apart() {
        let path = std::env::temp_dir().join(format!("journal-of-{}", std::process::id()));
        let leaf = leaves().next().unwrap();
        let run = |marks| {
            let mut journal = Journal::with_marks(&path, marks).unwrap();
            let mut tally = Tally::default();
            each_block(leaf, &mut journal, &mut tally, |first, tally| {
                tally.compared += BLOCK;
                tally.differ += u64::from(first == 0);
                Ok(())
            })
            .unwrap();
            (tally.compared / BLOCK, tally.noted / BLOCK)
        };
        assert_eq!(run("program 1, rust 1"), (512, 0));
        assert_eq!(run("program 1, rust 1"), (1, 511));
        assert_eq!(run("program 1, rust 2"), (512, 0));
        fs::remove_file(&path).unwrap();
    }

    #[test]
    fn every_pattern_is_in_a_block() {
        assert_eq!(512 * BLOCK, 1 << 32);
        assert_eq!(leaves().count(), 12);
    }
}
