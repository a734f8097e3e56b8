//! The program `lines` against the model: good lines of every name at patterns of every region, bad ones of
//! every sort, every damage of one byte, every front of a text, lines of any length, and any bytes.

use super::made::{below, damages, joined, noise, one_of, Lines};
use super::{bare, lines_of, question, replies, reply, shown, NAMES};
use crate::distance;
use crate::patterns::Width;
use crate::port::{Program, Turn};
use crate::random::Random;
use crate::tally::{Progress, Tally};
use std::io;

/// The lines of one text.
const TEXT: u64 = 1_000_000;

/// The lengths of long lines: those next to the longest good line, and next to the sizes that buffers have.
const LENGTHS: [usize; 17] = [
    24, 25, 26, 27, 28, 4095, 4096, 4097, 8191, 8192, 8193, 16384, 32768, 65535, 65536, 65537,
    100_000,
];

/// The bytes of a text of noise.
const NOISE: usize = 1 << 16;

/// The lines that are asked one after the other, each when those before it are answered.
const SPOKEN: u64 = 300;

pub fn compare(seed: u64, count: u64, program: &Program) -> io::Result<u8> {
    let made = Lines::new();
    let mut tally = Tally::default();
    let mut ask = |text: &[u8]| -> io::Result<()> {
        compare_replies(text, &program.exchange(text)?, &mut tally);
        Ok(())
    };
    let mut progress = Progress::new("lines".to_string(), count);
    let mut done = 0;
    while done < count {
        let part = TEXT.min(count - done);
        ask(&made.random(&mut Random::at(seed, done), part))?;
        done += part;
        progress.at(done);
    }
    progress.end();
    let texts = texts(&made, &mut Random::at(!seed, 0));
    let progress = Progress::new(
        "systematic, damaged, long and cut texts".to_string(),
        texts.len() as u64,
    );
    for text in texts {
        ask(&text)?;
    }
    progress.end();
    speak(&made, &mut Random::at(!seed, 1), program, &mut tally)?;
    Ok(tally.finish())
}

/// The texts of a run beside those of random lines.
pub fn texts(made: &Lines, random: &mut Random) -> Vec<Vec<u8>> {
    let behind = joined([made.good(&NAMES[5], random)]);
    let lines = made.each(random).into_iter();
    let damaged = lines.map(|line| damages(&joined([line]), &behind));
    let mut texts = vec![
        made.systematic(),
        made.every_sort(random),
        damaged.flatten().collect(),
    ];
    texts.extend(any_bytes(random));
    texts.extend(LENGTHS.iter().flat_map(|&l| long(made, l, random)));
    let short = made.short(random);
    texts.extend((0..=short.len()).map(|end| short[..end].to_vec()));
    texts
}

/// Texts with a line of so many bytes: such that a good line stands at its front, that none does, or that one
/// stands behind so many bytes, each with good lines after it; and at the end, without a newline.
fn long(made: &Lines, length: usize, random: &mut Random) -> [Vec<u8>; 4] {
    let after = joined(made.each(random));
    let good = made.good(one_of(random, &NAMES), random);
    let cycled: Vec<u8> = good.iter().copied().cycle().take(length).collect();
    let plain = b"x".repeat(length);
    let behind = [plain.as_slice(), &good].concat();
    let with_more = |line: &[u8]| [line, b"\n", &after].concat();
    [
        with_more(&cycled),
        with_more(&plain),
        with_more(&behind),
        [&after, behind.as_slice()].concat(),
    ]
}

/// Any bytes; bytes that lines are made of; and the pieces of lines in any order.
fn any_bytes(random: &mut Random) -> [Vec<u8>; 3] {
    const PIECES: [&[u8]; 20] = [
        b"tgamma",
        b"lgamma_r",
        b"erf",
        b"erfc",
        b"lgammaf_r",
        b"erff",
        b"erfcf",
        b" ",
        b" ",
        b" ",
        b"\n",
        b"\n",
        b"\n",
        b"3ff00000",
        b"00000000",
        b"bff80000",
        b"7",
        b"f",
        b"\r",
        b"\0",
    ];
    let few = b"tgamlr_efc 0123456789abdf\n\n\n";
    let pieces: Vec<&[u8]> = (0..NOISE / 4).map(|_| *one_of(random, &PIECES)).collect();
    [
        noise(random, NOISE),
        (0..NOISE).map(|_| *one_of(random, few)).collect(),
        pieces.concat(),
    ]
}

/// Compares what the port wrote for a text with the model's replies, line by line, and that nothing is behind
/// them.
pub fn compare_replies(text: &[u8], got: &[u8], tally: &mut Tally) {
    let mut written = lines_of(got);
    let mut before: &[u8] = &[];
    for line in lines_of(text).map(bare) {
        let port = written.next().unwrap_or(&[]);
        let rust = reply(line);
        tally.count(port == rust, || {
            let told = told(line, port, &rust);
            let (before, line) = (shown(before), shown(line));
            let (port, rust) = (shown(port), shown(&rust));
            format!("line {line}, behind {before}: port {port}, Rust {rust}{told}")
        });
        before = line;
    }
    let more = written.count();
    tally.count(more == 0, || {
        format!("text {}: {more} more replies than lines", shown(text))
    });
}

/// How far apart the values of two replies to a good line are, where both have one.
fn told(line: &[u8], port: &[u8], rust: &[u8]) -> String {
    let Some((name, _)) = question(line) else {
        return String::new();
    };
    let value = |reply: &[u8]| {
        let word = reply.split(|b| b" \n".contains(b)).nth(2)?;
        let digits = std::str::from_utf8(word).ok()?;
        u64::from_str_radix(digits, 16).ok()
    };
    let width = match name.digits {
        16 => Width::Double,
        _ => Width::Single,
    };
    match (value(port), value(rust)) {
        (Some(port), Some(rust)) if port >> 1 < width.sign_bit() => {
            distance::told(width, port, rust)
        }
        _ => String::new(),
    }
}

/// A text in pieces, each said when all lines that were complete before it are answered.
fn turns(text: &[u8], random: &mut Random) -> Vec<Turn> {
    let (mut turns, mut at, mut answered) = (Vec::new(), 0, 0);
    while at < text.len() {
        let end = text.len().min(at + 1 + below(random, 60));
        let complete = text[..end].iter().rposition(|&b| b == b'\n');
        let complete = complete.map_or(0, |newline| newline + 1).max(answered);
        turns.push(Turn {
            said: text[at..end].to_vec(),
            awaited: replies(&text[answered..complete]).len(),
        });
        (at, answered) = (end, complete);
    }
    turns
}

/// Speaks with the program: a text goes to it piece by piece, and the replies are awaited in between.
fn speak(
    made: &Lines,
    random: &mut Random,
    program: &Program,
    tally: &mut Tally,
) -> io::Result<()> {
    let text = made.random(random, SPOKEN);
    let text = bare(&text);
    let turns = turns(text, random);
    let talk = program.converse(&turns)?;
    tally.count(talk.late.is_none(), || {
        let at = talk.late.unwrap_or_default();
        let said = shown(&turns[at].said);
        format!("a talk: no reply came behind piece {at}, {said}, though a line was complete")
    });
    if talk.late.is_none() {
        compare_replies(text, &talk.heard, tally);
    }
    Ok(())
}
