//! What the program `trip` is asked: texts, streams and rooms.

use super::made::{below, joined, noise, one_of, Lines};
use super::trip::{Question, Way, MOST};
use super::{bare, to_requests, to_text, NAMES};
use crate::random::Random;

/// Exactly enough room, one byte less, more, none, or any less.
pub fn room(way: Way, content: &[u8], random: &mut Random) -> usize {
    let enough = way.enough(content);
    match random.below(40) {
        0 => MOST,
        1..=8 => enough,
        9..=16 => enough.saturating_sub(1),
        17..=24 => MOST.min(enough + below(random, 40)),
        25..=28 => 0,
        _ => below(random, enough + 1),
    }
}

/// How many lines a text has: none to some, as many as it holds at times.
pub fn lines(random: &mut Random) -> u64 {
    match random.below(100) {
        0 => 200,
        1..=9 => 0,
        10..=39 => 1,
        _ => random.below(20),
    }
}

/// A text of so many lines: good ones alone in two of three; half of them without a newline at the end.
pub fn text(made: &Lines, lines: u64, random: &mut Random) -> Vec<u8> {
    let is_good = random.below(3) > 0;
    let lines = (0..lines).map(|_| match is_good {
        true => made.good(one_of(random, &NAMES), random),
        false => made.any(random),
    });
    let mut text = joined(lines);
    text.truncate(MOST - 1);
    if random.below(2) == 0 {
        text.pop();
    }
    text
}

/// A stream of so many records of the names' kinds.
fn stream(made: &Lines, records: usize, random: &mut Random) -> Vec<u8> {
    let lines = (0..records).map(|_| made.good(one_of(random, &NAMES), random));
    to_requests(&joined(lines), MOST).written
}

/// A stream, at times cut, with a kind that has no name and records behind it, with a bit flipped, or noise.
pub fn damaged(made: &Lines, mut stream: Vec<u8>, random: &mut Random) -> Vec<u8> {
    let at = below(random, stream.len() + 1);
    match random.below(8) {
        0..=1 => stream.truncate(at),
        2 => {
            stream.push(nameless(random));
            let records = below(random, 4);
            stream.extend(self::stream(made, records, random));
        }
        3 => stream.insert(at, random.next() as u8),
        4 if at < stream.len() => stream[at] ^= 1 << random.below(8),
        5 => stream = noise(random, at),
        _ => {}
    }
    stream.truncate(MOST);
    stream
}

fn has_name(kind: u8) -> bool {
    NAMES.iter().any(|name| name.kind == kind)
}

/// A kind that has no name. A kind that has one is below 128.
fn nameless(random: &mut Random) -> u8 {
    let kind = random.next() as u8;
    if has_name(kind) {
        kind + 128
    } else {
        kind
    }
}

/// The questions that are asked whatever the count: every front and every room of a short text with bad lines, of
/// a line of every name, and of a stream with every kind; every kind without a name at each edge of it; and the longest texts and streams.
pub fn fixed(made: &Lines, random: &mut Random) -> Vec<Question> {
    let short = made.short(random);
    let text = bare(&joined(made.each(random))).to_vec();
    let requests = to_requests(&text, MOST).written;
    let mut questions = Vec::new();
    let asked = [
        (Way::ToRequests, &short),
        (Way::ToRequests, &text),
        (Way::ToText, &requests),
    ];
    for (way, content) in asked {
        let enough = way.enough(content);
        questions.extend((0..=enough + 1).map(|room| way.ask(content, room)));
        for end in 0..=content.len() {
            let front = &content[..end];
            let exact = way.enough(front);
            let rooms = [0, exact.saturating_sub(1), exact, exact + 1, enough + 40];
            questions.extend(rooms.map(|room| way.ask(front, room)));
        }
    }
    questions.extend(edges(&requests));
    questions.extend(longest(made, random));
    questions
}

/// Every kind without a name at each edge of a stream's records, with records behind it, alone, and with no room
/// for any line more.
fn edges(requests: &[u8]) -> Vec<Question> {
    let mut questions = Vec::new();
    let is_edge = |end: &usize| to_text(&requests[..*end], MOST).code == 0;
    for edge in (0..=requests.len()).filter(is_edge) {
        let (front, rest) = requests.split_at(edge);
        let taken = Way::ToText.enough(front);
        for kind in (0..=255).filter(|&kind| !has_name(kind)) {
            let alone = [front, &[kind]].concat();
            let amid = [&alone, rest].concat();
            questions.push(Way::ToText.ask(&amid, taken + 60));
            questions.push(Way::ToText.ask(&alone, taken));
        }
    }
    questions
}

/// Texts and streams of the greatest length, in the greatest room and in others.
fn longest(made: &Lines, random: &mut Random) -> Vec<Question> {
    let mut lines = made.random(random, 400);
    lines.truncate(MOST);
    let mut long = joined((0..400).map(|_| made.good(one_of(random, &NAMES[5..]), random)));
    long.truncate(MOST);
    let texts = [
        lines,
        long,
        b"\n".repeat(MOST),
        b"x".repeat(MOST),
        [b"x".repeat(MOST - 15), joined([NAMES[5].line(1 << 31)])].concat(),
    ];
    let mut requests = [stream(made, 400, random), stream(made, 400, random)].concat();
    requests.resize(MOST, NAMES[0].kind);
    let mut questions = Vec::new();
    for text in texts {
        let rooms = [MOST, 0, 100, Way::ToRequests.enough(&text)];
        questions.extend(rooms.map(|room| Way::ToRequests.ask(&text, room)));
    }
    for room in (MOST - 60..=MOST).chain([0, 24, 25, 26]) {
        questions.push(Way::ToText.ask(&requests, room));
    }
    questions
}
