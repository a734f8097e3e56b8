//! The distance entries, linked into this program beside the distance by values.

use crate::distance::{answer, Pairs};
use crate::linked::{in_parts, ARCHIVE};
use crate::patterns::Width;
use crate::random::Random;
use crate::tally::{Progress, Tally};

#[link(name = "raveltrellis", kind = "static")]
extern "C" {
    fn rvt_distance(a: u64, b: u64) -> u64;
    fn rvt_distance_code(a: u64, b: u64) -> u64;
    fn rvt_distancef(a: u32, b: u32) -> u64;
    fn rvt_distancef_code(a: u32, b: u32) -> u64;
}

/// The distance of a pair and its code, by the entries, which take any numbers and return.
fn port(width: Width, a: u64, b: u64) -> (u64, u64) {
    match width {
        Width::Double => unsafe { (rvt_distance(a, b), rvt_distance_code(a, b)) },
        Width::Single => unsafe {
            let (a, b) = (a as u32, b as u32);
            (rvt_distancef(a, b), rvt_distancef_code(a, b))
        },
    }
}

/// Every pair of the specials of either width, and `count` random pairs.
pub fn compare(seed: u64, count: u64) -> u8 {
    let mut tally = Tally::default();
    println!("archive {ARCHIVE}");
    for (name, width) in [("distance", Width::Double), ("distancef", Width::Single)] {
        let before = tally.compared;
        let pairs = Pairs::new(width);
        let part = |from, upto| part_of(name, width, from, upto, seed, &pairs);
        for part in in_parts(pairs.systematic() + count, part) {
            tally.add(&part);
        }
        println!("{name}: {} compared", tally.compared - before);
    }
    tally.finish()
}

fn part_of(name: &str, width: Width, from: u64, upto: u64, seed: u64, pairs: &Pairs) -> Tally {
    let mut tally = Tally::default();
    let mut progress = Progress::new(format!("{name} from place {from}"), upto - from);
    for place in from..upto {
        let (a, b) = pairs.pair(place, &mut Random::at(seed, place));
        let (port, own) = (port(width, a, b), answer(width, a, b));
        tally.count(port == own, || {
            format!("{name} of {a:#x} and {b:#x}, with its code: port {port:?}, by values {own:?}")
        });
        progress.at(place - from);
    }
    progress.end();
    tally
}
