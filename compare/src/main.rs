//! Compares the port with the Rust, bit for bit: the leaves by the program `leaves`, the request
//! stream by the program `answers`, requests as text by the programs `lines` and `trip`, the C entries, their
//! feed and their distance by a call.

#[cfg(feature = "linked")]
mod apart;
mod constants;
mod cuts;
mod distance;
mod exhaustive;
#[cfg(any(feature = "linked", test))]
mod feed;
#[cfg(feature = "linked")]
mod feeding;
mod kinds;
mod leaves;
#[cfg(feature = "linked")]
mod linked;
mod patterns;
mod port;
mod powers;
mod random;
mod sample;
mod stored;
mod stream;
mod tally;
mod text;
mod traffic;

use distance::Pairs;
use leaves::{Leaf, Second, LEAVES};
use patterns::{Patterns, Width};
use port::{failure, Program};
use powers::Powers;
use random::Random;
use std::io::{self, Read, Write};
use std::path::Path;
use std::process::ExitCode;
use tally::{Progress, Tally};
use traffic::Streams;

const USAGE: &str = "usage:
  compare leaves SEED COUNT [FILE]   every leaf, at COUNT random patterns beside the systematic ones
  compare exhaustive-f32 [FILE]      the f32 leaves and functions, at all 2^32 patterns; a run that was
                                     broken off goes on where it was
  compare linked SEED COUNT          the C entries, linked: the f32 functions at all 2^32 patterns, the f64
                                     ones at COUNT random patterns beside the systematic ones (a build with
                                     the feature linked)
  compare feed SEED COUNT            the feed of the C entries, linked: COUNT streams of mixed kinds, damaged
                                     ones among them, cut at random, as many made-up states, and feeds of
                                     other lengths, with a model of the feed (such a build)
  compare distance SEED COUNT        the distance of the C entries, linked: every pair of the special patterns
                                     of either width and COUNT random pairs, with the distance by the values
                                     (such a build)
  compare stream SEED COUNT [FILE]   COUNT requests of mixed kinds beside the systematic ones, and
                                     damaged streams
  compare lines SEED COUNT [FILE]    requests as text: COUNT random lines, good and bad, beside the systematic
                                     ones, every damage of one byte, every front of a text, and long lines
  compare trip SEED COUNT [FILE]     text to requests and back: COUNT lines in texts, in rooms of every sort,
                                     and damaged streams
  compare stored                     the lists, streams and texts that the gate replays, answer by answer
  compare constants [DIR]            every constant of the Rust in DIR, with the definitions and the code
  compare sample SEED STDIN STDOUT   writes a list of requests to leaves, and the Rust's answers
  compare requests SEED COUNT        writes COUNT requests of mixed kinds
  compare text SEED COUNT            writes a text of COUNT lines, the last one without its newline
  compare answer                     the Rust in place of the program leaves
  compare answers                    the Rust in place of the program answers
  compare replies                    the Rust in place of the program lines
  compare tripped                    the Rust in place of the program trip
FILE is a program to ask in place of the port's own; DIR the folder of crate libm, where it is not the one
that this was built with.";

/// The damaged streams of one run.
const DAMAGED: u64 = 300;

/// The requests of one stream.
const STREAM: u64 = 1_000_000;

fn main() -> ExitCode {
    let words: Vec<String> = std::env::args().skip(1).collect();
    let words: Vec<&str> = words.iter().map(String::as_str).collect();
    match run(&words) {
        Ok(status) => ExitCode::from(status),
        Err(error) => {
            eprintln!("compare: {error}");
            ExitCode::from(2)
        }
    }
}

fn run(words: &[&str]) -> io::Result<u8> {
    match words {
        ["leaves", seed, count, file @ ..] => {
            compare_leaves(number(seed)?, count_of(count)?, &program("leaves", file)?)
        }
        #[cfg(feature = "linked")]
        ["linked", seed, count] => Ok(linked::compare(number(seed)?, count_of(count)?)),
        #[cfg(feature = "linked")]
        ["feed", seed, count] => Ok(feeding::compare(number(seed)?, count_of(count)?)),
        #[cfg(feature = "linked")]
        ["distance", seed, count] => Ok(apart::compare(number(seed)?, count_of(count)?)),
        ["exhaustive-f32", file @ ..] => compare_all_singles(&program("leaves", file)?),
        ["stream", seed, count, file @ ..] => {
            compare_streams(number(seed)?, count_of(count)?, &program("answers", file)?)
        }
        ["lines" | "trip" | "text" | "replies" | "tripped", ..] => text::run(words),
        ["stored"] => stored::compare(),
        ["constants", libm @ ..] => compare_constants(libm),
        ["sample", seed, requests, answers] => write_sample(number(seed)?, requests, answers),
        ["requests", seed, count] => {
            let random = &mut Random::at(number(seed)?, 0);
            io::stdout().write_all(&Streams::new().random(random, count_of(count)?))?;
            Ok(0)
        }
        ["answer"] => {
            let replies: Vec<_> = input()?
                .chunks_exact(24)
                .map(leaves::answer_bytes)
                .collect();
            io::stdout().write_all(&replies.concat())?;
            Ok(0)
        }
        ["answers"] => {
            io::stdout().write_all(&stream::program(&input()?))?;
            Ok(0)
        }
        _ => Err(failure(USAGE)),
    }
}

fn number(word: &str) -> io::Result<u64> {
    word.parse()
        .map_err(|_| failure(format!("{word} is not a number")))
}

/// A count below 2^48: no sum with the systematic ones overflows, and more no run could finish.
fn count_of(word: &str) -> io::Result<u64> {
    match number(word)? {
        count if count < 1 << 48 => Ok(count),
        _ => Err(failure(format!("{word} is too many"))),
    }
}

fn program(name: &'static str, file: &[&str]) -> io::Result<Program> {
    match file {
        [] => Ok(Program::Named(name)),
        [path] => Ok(Program::File(path.into())),
        _ => Err(failure(USAGE)),
    }
}

fn input() -> io::Result<Vec<u8>> {
    let mut bytes = Vec::new();
    io::stdin().read_to_end(&mut bytes)?;
    Ok(bytes)
}

fn write_sample(seed: u64, requests: &str, answers: &str) -> io::Result<u8> {
    let list = sample::requests(seed);
    std::fs::write(requests, list.concat())?;
    let replies: Vec<_> = list.iter().map(|r| leaves::answer_bytes(r)).collect();
    std::fs::write(answers, replies.concat())?;
    eprintln!("{} requests", list.len());
    Ok(0)
}

/// Asks a leaf `total` questions, which `question` makes from their places, and says each place.
fn ask_leaf(
    leaf: &Leaf,
    total: u64,
    question: impl Fn(u64) -> (u64, u64) + Sync,
    program: &Program,
    tally: &mut Tally,
    mut at: impl FnMut(u64),
) -> io::Result<()> {
    let number = leaf.number;
    let request = |place| {
        let (a, b) = question(place);
        leaves::request(number, a, b)
    };
    let check = |place, got| {
        let (a, b) = question(place);
        let want = leaves::answer(number, a, b);
        tally.count(got == want, || {
            let name = leaf.name;
            let told = leaves::told(number, got, want);
            let whose = match leaf.second {
                Second::Beside => "by values",
                _ => "Rust",
            };
            format!(
                "leaf {number}, {name}: a {a:#x}, b {b:#x}: port {got:#x}, {whose} {want:#x}{told}"
            )
        });
        at(place);
    };
    program.ask(total, request, check)
}

/// The same, with the progress.
fn compare_leaf(
    leaf: &Leaf,
    total: u64,
    question: impl Fn(u64) -> (u64, u64) + Sync,
    program: &Program,
    tally: &mut Tally,
) -> io::Result<()> {
    let what = format!("leaf {}, {}", leaf.number, leaf.name);
    let mut progress = Progress::new(what, total);
    ask_leaf(leaf, total, question, program, tally, |p| progress.at(p))?;
    progress.end();
    Ok(())
}

fn compare_leaves(seed: u64, count: u64, program: &Program) -> io::Result<u8> {
    let (doubles, singles) = (Patterns::new(Width::Double), Patterns::new(Width::Single));
    let powers = Powers::new();
    let mut tally = Tally::default();
    for leaf in &LEAVES {
        if let Second::Power = leaf.second {
            let question = |place| powers.pair(place, &mut Random::at(seed, place));
            let total = powers.systematic() + count;
            compare_leaf(leaf, total, question, program, &mut tally)?;
            continue;
        }
        if let Second::Beside = leaf.second {
            let pairs = Pairs::new(leaf.width);
            let question = |place| pairs.pair(place, &mut Random::at(seed, place));
            let total = pairs.systematic() + count;
            compare_leaf(leaf, total, question, program, &mut tally)?;
            continue;
        }
        let patterns = match leaf.width {
            Width::Double => &doubles,
            Width::Single => &singles,
        };
        let question = |place| question(leaf, patterns, seed, place);
        let total = patterns.systematic.len() as u64 + count;
        compare_leaf(leaf, total, question, program, &mut tally)?;
    }
    Ok(tally.finish())
}

/// The arguments of a leaf's question at a place: first the systematic patterns, then random ones.
fn question(leaf: &Leaf, patterns: &Patterns, seed: u64, place: u64) -> (u64, u64) {
    let mut random = Random::at(seed, place << 8 | leaf.number);
    let a = match patterns.systematic.get(place as usize) {
        Some(&a) => a,
        None => patterns.random(&mut random),
    };
    (a, patterns.second(leaf.second, a, &mut random))
}

fn compare_all_singles(program: &Program) -> io::Result<u8> {
    let mut tally = Tally::default();
    // a program that is not built yet is built now, before its mark is taken
    program.exchange(&[])?;
    let mut journal = exhaustive::Journal::open(program)?;
    for leaf in exhaustive::leaves() {
        exhaustive::each_block(leaf, &mut journal, &mut tally, |first, tally| {
            let question = |place| (first + place, 0);
            ask_leaf(leaf, exhaustive::BLOCK, question, program, tally, |_| ())
        })?;
    }
    Ok(tally.finish())
}

fn compare_streams(seed: u64, count: u64, program: &Program) -> io::Result<u8> {
    let streams = Streams::new();
    let mut tally = Tally::default();
    let mut progress = Progress::new("stream".to_string(), count);
    compare_stream(&streams.systematic(), program, &mut tally)?;
    let mut done = 0;
    while done < count {
        let part = STREAM.min(count - done);
        let requests = streams.random(&mut Random::at(seed, done), part);
        compare_stream(&requests, program, &mut tally)?;
        done += part;
        progress.at(done);
    }
    progress.end();
    let progress = Progress::new("damaged streams".to_string(), DAMAGED);
    for place in 0..DAMAGED {
        let requests = streams.damaged(&mut Random::at(!seed, place));
        compare_stream(&requests, program, &mut tally)?;
    }
    progress.end();
    Ok(tally.finish())
}

fn compare_constants(libm: &[&str]) -> io::Result<u8> {
    let libm = match libm {
        [] => env!("LIBM_DIR"),
        [libm] => libm,
        _ => return Err(failure(USAGE)),
    };
    let mut tally = Tally::default();
    let found = constants::compare(Path::new(libm), &port::repository()?, &mut tally)?;
    println!("{found}");
    Ok(tally.finish())
}

fn compare_stream(requests: &[u8], program: &Program, tally: &mut Tally) -> io::Result<()> {
    stream::compare(requests, &program.exchange(requests)?, tally);
    Ok(())
}
