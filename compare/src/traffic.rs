//! Streams of requests made from a seed, whole and damaged.

use crate::kinds::{kinds, Kind};
use crate::patterns::{Patterns, Width};
use crate::random::Random;
use crate::stream::kind_of;

/// Streams of requests of every kind.
pub struct Streams {
    doubles: Patterns,
    singles: Patterns,
}

impl Streams {
    pub fn new() -> Streams {
        Streams {
            doubles: Patterns::new(Width::Double),
            singles: Patterns::new(Width::Single),
        }
    }

    /// The patterns as wide as a kind's argument.
    fn patterns(&self, kind: &Kind) -> &Patterns {
        match kind.body {
            8 => &self.doubles,
            _ => &self.singles,
        }
    }

    /// Every kind at every systematic pattern of its width.
    pub fn systematic(&self) -> Vec<u8> {
        let mut stream = Vec::new();
        for kind in kinds() {
            for &bits in &self.patterns(kind).systematic {
                push_request(&mut stream, kind, bits);
            }
        }
        stream
    }

    /// So many whole requests of random kinds at random patterns.
    pub fn random(&self, random: &mut Random, count: u64) -> Vec<u8> {
        let mut stream = Vec::new();
        for _ in 0..count {
            let kind = &kinds()[random.below(kinds().len() as u64) as usize];
            push_request(&mut stream, kind, self.patterns(kind).random(random));
        }
        stream
    }

    /// A short stream, whole, cut, with an unknown kind between two records, or with a bit flipped.
    pub fn damaged(&self, random: &mut Random) -> Vec<u8> {
        let front = random.below(40);
        let mut stream = self.random(random, front);
        let boundary = stream.len();
        let back = 1 + random.below(40);
        stream.extend(self.random(random, back));
        match random.below(4) {
            0 => {}
            1 => stream.truncate(random.below(stream.len() as u64) as usize),
            2 => stream.insert(boundary, unknown_kind(random)),
            _ => {
                let at = random.below(stream.len() as u64) as usize;
                stream[at] ^= 1 << random.below(8);
            }
        }
        stream
    }
}

/// A byte that is no kind's. A kind is below 128.
pub fn unknown_kind(random: &mut Random) -> u8 {
    let byte = random.next() as u8;
    match kind_of(byte) {
        Some(_) => byte + 128,
        None => byte,
    }
}

/// Appends the request of a kind at a pattern.
fn push_request(stream: &mut Vec<u8>, kind: &Kind, bits: u64) {
    stream.push(kind.number);
    stream.extend(&bits.to_le_bytes()[..kind.body]);
}

#[cfg(test)]
mod tests {
    use super::*;

    #[test]
    fn a_damaged_stream_is_the_same_for_its_seed() {
        let streams = Streams::new();
        for place in 0..50 {
            let first = streams.damaged(&mut Random::at(1, place));
            assert_eq!(first, streams.damaged(&mut Random::at(1, place)));
        }
    }
}
