//! Requests as text, from the words of the request alone, with the answers of libm: a reply to each line, and
//! text to the request stream and back. Nothing of the port is in it.

mod lines;
mod made;
mod questions;
mod trip;

use crate::port::failure;
use crate::random::Random;
use crate::stream::answer_to;
use std::io::{self, BufRead, Write};

/// A function that has lines.
pub struct Name {
    /// Its name in the Rust.
    word: &'static str,
    /// The byte at the front of its request.
    kind: u8,
    /// The hex digits of its argument, and of its answer.
    digits: usize,
}

const fn name(word: &'static str, kind: u8, digits: usize) -> Name {
    Name { word, kind, digits }
}

/// The functions that have lines. No later kind gets one, so these are not read from kinds.txt.
pub const NAMES: [Name; 7] = [
    name("tgamma", 1, 16),
    name("lgamma_r", 2, 16),
    name("erf", 3, 16),
    name("erfc", 4, 16),
    name("lgammaf_r", 17, 8),
    name("erff", 19, 8),
    name("erfcf", 20, 8),
];

/// The reply to a line that asks nothing.
const BAD: &[u8] = b"bad\n";

impl Name {
    /// The line that asks the function at a pattern, without its newline.
    fn line(&self, bits: u64) -> Vec<u8> {
        let digits = self.digits;
        format!("{} {bits:0digits$x}", self.word).into_bytes()
    }

    /// The same question in the request stream.
    fn record(&self, bits: u64) -> Vec<u8> {
        let mut record = vec![self.kind];
        record.extend(&bits.to_le_bytes()[..self.digits / 2]);
        record
    }

    /// The bits that a good line of this name asks about.
    fn asked(&self, line: &[u8]) -> Option<u64> {
        let digits = line
            .strip_prefix(self.word.as_bytes())?
            .strip_prefix(b" ")?;
        if digits.len() != self.digits {
            return None;
        }
        let mut bits = 0;
        for &byte in digits {
            bits = bits << 4 | value_of(byte)?;
        }
        Some(bits)
    }
}

/// The value of a lower-case hex digit.
fn value_of(byte: u8) -> Option<u64> {
    match byte {
        b'0'..=b'9' => Some(u64::from(byte - b'0')),
        b'a'..=b'f' => Some(u64::from(byte - b'a') + 10),
        _ => None,
    }
}

/// What a line asks, without its newline; nothing where it is a bad one.
fn question(line: &[u8]) -> Option<(&'static Name, u64)> {
    NAMES
        .iter()
        .find_map(|name| Some((name, name.asked(line)?)))
}

/// The reply to a line, which comes without its newline; the reply has one.
pub fn reply(line: &[u8]) -> Vec<u8> {
    let Some((name, bits)) = question(line) else {
        return BAD.to_vec();
    };
    let answer = answer_to(&name.record(bits)).expect("the name's kind is known");
    let (value, sign) = answer[1..].split_at(name.digits / 2);
    let mut reply = line.to_vec();
    reply.push(b' ');
    for byte in value.iter().rev() {
        reply.extend(format!("{byte:02x}").into_bytes());
    }
    match sign {
        [] => {}
        [255] => reply.extend(b" -"),
        _ => reply.extend(b" +"),
    }
    reply.push(b'\n');
    reply
}

/// The lines of a text, each with its newline; a last one without it counts where it has a byte.
fn lines_of(text: &[u8]) -> impl Iterator<Item = &[u8]> {
    text.split_inclusive(|&byte| byte == b'\n')
}

/// A line without its newline.
fn bare(line: &[u8]) -> &[u8] {
    line.strip_suffix(b"\n").unwrap_or(line)
}

/// What the program writes for a text.
pub fn replies(text: &[u8]) -> Vec<u8> {
    lines_of(text).flat_map(|line| reply(bare(line))).collect()
}

/// A trip from text to requests or back, as far as it went: the code, the counts, and what was written.
#[derive(Debug, PartialEq)]
struct Trip {
    code: u8,
    counts: [usize; 3],
    written: Vec<u8>,
}

/// Text to requests. The counts are the records made and the bytes read and written. It stops at a bad line,
/// and where the next record has no room.
fn to_requests(text: &[u8], room: usize) -> Trip {
    let (mut records, mut read, mut written) = (0, 0, Vec::new());
    let mut code = 0;
    for line in lines_of(text) {
        let Some((name, bits)) = question(bare(line)) else {
            code = 1;
            break;
        };
        let record = name.record(bits);
        if written.len() + record.len() > room {
            code = 3;
            break;
        }
        written.extend(record);
        records += 1;
        read += line.len();
    }
    Trip {
        code,
        counts: [records, read, written.len()],
        written,
    }
}

/// The line, with its newline, of the record at the front of a stream, and how long the record is; or the
/// code at which the trip stops there.
fn line_at(requests: &[u8], room: usize) -> Result<(Vec<u8>, usize), u8> {
    let of_kind = |name: &&Name| requests.first() == Some(&name.kind);
    let name = NAMES.iter().find(of_kind).ok_or(1)?;
    let body = requests.get(1..1 + name.digits / 2).ok_or(2)?;
    let bits = body.iter().rev().fold(0, |n, &b| n << 8 | u64::from(b));
    let mut line = name.line(bits);
    line.push(b'\n');
    if line.len() > room {
        return Err(3);
    }
    Ok((line, 1 + body.len()))
}

/// Requests to text. The counts are the records taken and the bytes read and written. It stops at a kind
/// without a name, at a record that is cut, and where the whole next line has no room.
fn to_text(requests: &[u8], room: usize) -> Trip {
    let (mut records, mut read, mut written) = (0, 0, Vec::new());
    let mut code = 0;
    while read < requests.len() {
        match line_at(&requests[read..], room - written.len()) {
            Ok((line, length)) => {
                written.extend(line);
                read += length;
                records += 1;
            }
            Err(stop) => {
                code = stop;
                break;
            }
        }
    }
    Trip {
        code,
        counts: [records, read, written.len()],
        written,
    }
}

/// Bytes as they can be printed; of many only the first, and how many they are.
fn shown(bytes: &[u8]) -> String {
    const SHOWN: usize = 120;
    match bytes.get(..SHOWN) {
        Some(front) => format!("\"{}\".. {} bytes", front.escape_ascii(), bytes.len()),
        None => format!("\"{}\"", bytes.escape_ascii()),
    }
}

/// The modes that this is asked by.
pub fn run(words: &[&str]) -> io::Result<u8> {
    match words {
        ["lines", seed, count, file @ ..] => {
            let program = crate::program("lines", file)?;
            lines::compare(crate::number(seed)?, crate::count_of(count)?, &program)
        }
        ["trip", seed, count, file @ ..] => {
            let program = crate::program("trip", file)?;
            trip::compare(crate::number(seed)?, crate::count_of(count)?, &program)
        }
        ["text", seed, count] => {
            let random = &mut Random::at(crate::number(seed)?, 0);
            let text = made::Lines::new().text(random, crate::count_of(count)?);
            io::stdout().write_all(bare(&text))?;
            Ok(0)
        }
        ["replies"] => {
            converse(io::stdin().lock(), io::stdout().lock())?;
            Ok(0)
        }
        ["tripped"] => {
            io::stdout().write_all(&trip::program(&crate::input()?))?;
            Ok(0)
        }
        _ => Err(failure(crate::USAGE)),
    }
}

/// Replies to each line as soon as it is there.
fn converse(mut input: impl BufRead, mut output: impl Write) -> io::Result<()> {
    let mut line = Vec::new();
    while input.read_until(b'\n', &mut line)? > 0 {
        output.write_all(&reply(bare(&line)))?;
        output.flush()?;
        line.clear();
    }
    Ok(())
}

pub use lines::compare_replies;
pub use trip::program as tripped;

#[cfg(test)]
mod tests;
#[cfg(test)]
mod wrong;
