//! What is fed, made from a seed: streams, pieces, rooms, and states that no call has left.

use super::lent::noise;
use crate::feed::{FEED, STATE};
use crate::kinds::kinds;
use crate::random::Random;
use crate::traffic::{unknown_kind, Streams};

/// The room of the calls of one stream.
#[derive(Clone, Copy, PartialEq)]
pub enum Rooms {
    /// From 0 up.
    Small,
    /// From the longest answer up.
    Ample,
}

impl Rooms {
    /// The room of the next call, at times for most of a stream of so many bytes.
    pub fn next(self, random: &mut Random, length: usize) -> usize {
        let longest = longest_answer();
        match (self, random.below(8)) {
            (Rooms::Small, 0..=1) => 0,
            (Rooms::Small, 2..=3) => below(random, longest),
            (Rooms::Small, _) => below(random, 2 * longest + 4),
            (Rooms::Ample, 0..=3) => longest,
            (Rooms::Ample, 4..=5) => longest + below(random, longest + 2),
            (Rooms::Ample, _) => longest + below(random, 2 * length + 1),
        }
    }
}

fn longest_answer() -> usize {
    let lengths = kinds().iter().map(|kind| kind.answer_length());
    lengths.max().expect("there is a kind")
}

pub fn below(random: &mut Random, n: usize) -> usize {
    random.below(n as u64) as usize
}

/// How many requests a stream has: up to 8, some hundreds at times.
pub fn records(random: &mut Random) -> u64 {
    match random.below(100) {
        0 => random.below(400),
        _ => random.below(9),
    }
}

/// A stream of so many requests, damaged in half of the cases: an unknown kind between two records, bytes
/// cut off, taken out, swapped or inserted, a bit flipped, or noise.
pub fn requests(streams: &Streams, count: u64, random: &mut Random) -> Vec<u8> {
    let front = random.below(count + 1);
    let mut stream = streams.random(random, front);
    let boundary = stream.len();
    stream.extend(streams.random(random, count - front));
    let at = below(random, stream.len() + 1);
    match random.below(14) {
        0 => stream.insert(boundary, unknown_kind(random)),
        1 => stream.truncate(at),
        2 => stream.drain(..at).for_each(drop),
        3 => stream.insert(at, random.next() as u8),
        4 if at < stream.len() => stream.swap(at, at / 2),
        5 if at < stream.len() => stream[at] ^= 1 << random.below(8),
        6 => stream = noise(random, at),
        _ => {}
    }
    stream
}

/// How long the next piece is, where `rest` bytes are still to come, of which a call has just left
/// `untaken`: none, what was left, that and more, all, or up to `longest`.
pub fn piece_length(random: &mut Random, longest: usize, untaken: usize, rest: usize) -> usize {
    let length = match random.below(16) {
        0 | 1 => 0,
        2 | 3 => untaken,
        4 | 5 => untaken + 1 + below(random, longest),
        6 => rest,
        _ => 1 + below(random, longest),
    };
    length.min(rest)
}

/// A feed that no call has left: noise, or a kind, a start and a number that are nearly right.
pub fn made_up(random: &mut Random) -> [u8; FEED] {
    let mut feed = [0; FEED];
    feed.copy_from_slice(&noise(random, FEED));
    if random.below(8) == 0 {
        return feed;
    }
    if random.below(8) > 0 {
        feed[0] = kinds()[below(random, kinds().len())].number;
    }
    let mut number = random.below(11);
    if random.below(8) == 0 {
        number += (1 + random.below(255)) << (8 * (1 + random.below(7)));
    }
    feed[8..STATE].copy_from_slice(&number.to_le_bytes());
    if random.below(4) == 0 {
        feed[number.min(8) as usize..8].fill(0);
    }
    feed
}
