//! The fixed list of requests that the program `leaves` is replayed on.

use crate::distance::Pairs;
use crate::leaves::{request, Leaf, Second, LEAVES};
use crate::patterns::{Patterns, Width};
use crate::powers::Powers;
use crate::random::Random;

/// The random patterns asked of each leaf.
const RANDOM: usize = 40;

/// The random pairs asked of pow.
const PAIRS: usize = 400;

/// Requests to every leaf: the specials and random patterns to each, the neighbours of the cuts to
/// the leaves that look at them, those of tgammaf's besides to it, halves of every size to the whole parts,
/// every pair of the specials to the distances, and numbers that are no leaf's.
pub fn requests(seed: u64) -> Vec<[u8; 24]> {
    let mut list = Vec::new();
    for leaf in &LEAVES {
        let random = &mut Random::at(seed, leaf.number);
        let questions = questions(leaf, random);
        list.extend(questions.iter().map(|&(a, b)| request(leaf.number, a, b)));
    }
    for number in [
        0,
        11,
        13,
        15,
        21,
        31,
        32,
        46,
        47,
        52,
        63,
        74,
        79,
        87,
        95,
        100,
        255,
        u64::MAX,
    ] {
        list.push(request(number, 1, 1));
    }
    list
}

/// The arguments that a leaf is asked.
fn questions(leaf: &Leaf, random: &mut Random) -> Vec<(u64, u64)> {
    if let Second::Power = leaf.second {
        let powers = Powers::new();
        return (0..PAIRS).map(|_| powers.random(random)).collect();
    }
    if let Second::Beside = leaf.second {
        let pairs = Pairs::new(leaf.width);
        let places = 0..pairs.systematic() + RANDOM as u64;
        return places.map(|place| pairs.pair(place, random)).collect();
    }
    let patterns = Patterns::new(leaf.width);
    let mut arguments = leaf.width.specials();
    if looks_at_cuts(leaf) {
        arguments.extend(leaf.width.around(&leaf.width.cuts()));
    }
    if leaf.number == 44 {
        arguments.extend(leaf.width.around(&leaf.width.gamma_cuts()));
    }
    if [3, 12, 35, 45].contains(&leaf.number) {
        arguments.extend(leaf.width.halves());
    }
    arguments.extend((0..RANDOM).map(|_| patterns.random(random)));
    let pair = |a| (a, patterns.second(leaf.second, a, random));
    arguments.into_iter().map(pair).collect()
}

/// floor, the whole part, narrowing, exp, log and the functions have cuts of their own; the words of a size
/// are what the functions test; the longest Horner sums are the functions' own.
fn looks_at_cuts(leaf: &Leaf) -> bool {
    match leaf.width {
        Width::Double => {
            [2, 3, 4, 8, 12, 65, 66, 80, 81, 82, 83, 84, 85, 86].contains(&leaf.number)
        }
        Width::Single => [34, 35, 37, 38, 39, 41, 42, 43, 44, 45].contains(&leaf.number),
    }
}
