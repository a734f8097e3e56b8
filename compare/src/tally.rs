//! The count of what was compared and what differs, with the progress on standard error where that is a
//! terminal.

use std::io::{self, IsTerminal};
use std::time::{Duration, Instant};

/// The differences of a part, or of each thread of it, that are printed whole.
const SHOWN: u64 = 20;

#[derive(Default)]
pub struct Tally {
    pub compared: u64,
    pub differ: u64,
    /// What an earlier run compared and noted as alike, and this one only read.
    pub noted: u64,
    /// The differences that were printed.
    shown: u64,
}

impl Tally {
    /// Counts a comparison, and prints it where the two differ and few did before.
    pub fn count(&mut self, is_same: bool, describe: impl FnOnce() -> String) {
        self.compared += 1;
        if is_same {
            return;
        }
        self.differ += 1;
        if self.shown < SHOWN {
            self.shown += 1;
            println!("{}", describe());
        }
    }

    /// Adds what a part of the run has counted.
    #[cfg(feature = "linked")]
    pub fn add(&mut self, part: &Tally) {
        self.compared += part.compared;
        self.differ += part.differ;
        self.shown += part.shown;
    }

    /// Prints the last line of a run, and answers its exit status.
    pub fn finish(&self) -> u8 {
        if self.differ > self.shown {
            println!("{} more differ", self.differ - self.shown);
        }
        println!("{}", self.sum());
        u8::from(self.differ > 0)
    }

    /// `N compared, M differ`, and `, K noted earlier` where there are notes.
    fn sum(&self) -> String {
        let mut sum = format!("{} compared, {} differ", self.compared, self.differ);
        if self.noted > 0 {
            sum += &format!(", {} noted earlier", self.noted);
        }
        sum
    }
}

/// How far a part of a run is.
pub struct Progress {
    what: String,
    total: u64,
    start: Instant,
    said: Instant,
    is_seen: bool,
}

impl Progress {
    pub fn new(what: String, total: u64) -> Progress {
        let start = Instant::now();
        Progress {
            what,
            total,
            start,
            said: start,
            is_seen: io::stderr().is_terminal(),
        }
    }

    /// Says every second how far it is. It looks at the clock only at some places.
    pub fn at(&mut self, done: u64) {
        if done & 0xffff != 0 || self.said.elapsed() < Duration::from_secs(1) {
            return;
        }
        self.said = Instant::now();
        self.say(done);
    }

    pub fn end(&self) {
        self.say(self.total);
    }

    fn say(&self, done: u64) {
        if !self.is_seen {
            return;
        }
        let seconds = self.start.elapsed().as_secs_f64();
        let rate = done as f64 / seconds.max(1e-9);
        eprintln!(
            "{}: {done} of {}, {seconds:.1} s, {rate:.0} a second",
            self.what, self.total
        );
    }
}

#[cfg(test)]
mod tests {
    use super::*;

    #[test]
    fn what_was_only_read_is_not_compared() {
        let mut tally = Tally::default();
        tally.count(true, || unreachable!());
        assert_eq!(tally.sum(), "1 compared, 0 differ");
        tally.noted += 5;
        assert_eq!(tally.sum(), "1 compared, 0 differ, 5 noted earlier");
    }
}
