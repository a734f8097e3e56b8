//! Wrong models of the two programs: what a run asks shows each of them.

use super::made::{damages, Lines};
use super::trip::{Question, Way, MOST};
use super::*;

/// A wrong reply to a line.
type Wrong = fn(&[u8]) -> Vec<u8>;

/// The reply to another line, with this line's words where it is a good one.
fn as_if(line: &[u8], other: &[u8]) -> Vec<u8> {
    match question(other) {
        None => BAD.to_vec(),
        Some(_) => [line, &reply(other)[other.len()..]].concat(),
    }
}

fn without(line: &[u8], drop: impl Fn(u8) -> bool) -> Vec<u8> {
    let kept = line.iter().copied().filter(|&byte| !drop(byte));
    kept.collect()
}

fn replaced(line: &[u8], old: &str, new: &str) -> Vec<u8> {
    let text: String = line.iter().map(|&byte| char::from(byte)).collect();
    let text = text.replacen(old, new, 1);
    text.chars().map(|c| c as u8).collect()
}

/// Models that look at a line in a wrong way.
const WRONG_LINES: [(&str, Wrong); 19] = [
    ("capital letters are taken", |l| {
        as_if(l, &l.to_ascii_lowercase())
    }),
    ("a missing digit is a zero", |l| match reply(l) == BAD {
        true => as_if(l, &replaced(l, " ", " 0")),
        false => reply(l),
    }),
    ("the sign is turned", |l| match reply(l) {
        r if r.ends_with(b"+\n") => replaced(&r, "+", "-"),
        r => replaced(&r, "-", "+"),
    }),
    ("a long line is answered twice", |l| match l.len() > 25 {
        true => [BAD, BAD].concat(),
        false => reply(l),
    }),
    ("a line of 25 bytes is too long", |l| match l.len() > 24 {
        true => BAD.to_vec(),
        false => reply(l),
    }),
    ("a long line's front is taken", |l| {
        as_if(l, &l[..l.len().min(25)])
    }),
    ("a long line's end is taken", |l| {
        as_if(l, &l[l.len().saturating_sub(25)..])
    }),
    ("a line is taken behind 8192 bytes", |l| {
        as_if(l, &l[l.len() / 8192 * 8192..])
    }),
    ("a CR is dropped", |l| {
        as_if(l, l.strip_suffix(b"\r").unwrap_or(l))
    }),
    ("a NUL ends the line", |l| {
        as_if(l, l.split(|&b| b == 0).next().unwrap_or(l))
    }),
    ("two spaces are one", |l| as_if(l, &replaced(l, "  ", " "))),
    ("a tab is a space", |l| as_if(l, &replaced(l, "\t", " "))),
    ("a space behind is dropped", |l| {
        as_if(l, l.strip_suffix(b" ").unwrap_or(l))
    }),
    ("high bytes are dropped", |l| {
        as_if(l, &without(l, |b| b > 127))
    }),
    ("the highest bit is dropped", |l| {
        let low: Vec<u8> = l.iter().map(|b| b & 127).collect();
        as_if(l, &low)
    }),
    ("an empty line has no reply", |l| match l.is_empty() {
        true => Vec::new(),
        false => reply(l),
    }),
    ("a NaN is not echoed as typed", |l| {
        let reply = reply(l);
        let nan = reply.windows(4).any(|w| w == b" 7ff" || w == b" fff");
        match nan {
            true => replaced(&reply, " fff", " 7ff"),
            false => reply,
        }
    }),
    ("g to i are digits", |l| as_if(l, &replaced(l, "g", "a"))),
    ("a later kind has a line", |l| {
        as_if(l, &replaced(l, "tgammaf ", "erff "))
    }),
];

/// Models that take a text apart in a wrong way.
const WRONG_TEXTS: [(&str, Wrong); 4] = [
    ("a last line without newline is dropped", |t| {
        let end = t.iter().rposition(|&b| b == b'\n');
        replies(&t[..end.map_or(0, |newline| newline + 1)])
    }),
    ("an empty line is behind the last newline", |t| {
        match t.ends_with(b"\n") {
            true => [&replies(t), BAD].concat(),
            false => replies(t),
        }
    }),
    ("a CR ends a line too", |t| {
        let ended = t.iter().map(|&b| if b == b'\r' { b'\n' } else { b });
        replies(&ended.collect::<Vec<_>>())
    }),
    ("the last newline is not supplied", |t| {
        match t.ends_with(b"\n") {
            true => replies(t),
            false => bare(&replies(t)).to_vec(),
        }
    }),
];

#[test]
fn each_wrong_line_is_seen() {
    let mut texts = lines::texts(&Lines::new(), &mut Random::at(1, 0));
    texts.sort_by_key(Vec::len);
    let right: Vec<_> = texts.iter().map(|text| replies(text)).collect();
    let is_seen = |wrong: &dyn Fn(&[u8]) -> Vec<u8>| {
        let mut all = texts.iter().zip(&right);
        all.any(|(text, right)| wrong(text) != *right)
    };
    for (what, wrong) in WRONG_LINES {
        let program = |text: &[u8]| lines_of(text).flat_map(|l| wrong(bare(l))).collect();
        assert!(is_seen(&program), "{what}");
    }
    for (what, wrong) in WRONG_TEXTS {
        assert!(is_seen(&wrong), "{what}");
    }
    assert!(!is_seen(&replies));
}

#[test]
fn every_damage_is_there() {
    let damaged = damages(b"erff 3f800000\n", b"|");
    let damaged: Vec<_> = damaged.split(|&b| b == b'|').collect();
    // one of the bytes is the mark itself
    assert_eq!(damaged.len(), 1 + 14 * (1 + 256 + 255) + 2 * 14);
    for one in [
        b"erf 3f800000\n".as_slice(),
        b"erff 3f80000\n",
        b"erff 3f800000",
        b"erff 3f800000\x80",
    ] {
        assert!(damaged.contains(&one), "{}", shown(one));
    }
}

/// A wrong end of a trip.
type Altered = fn(&Question, &mut Trip);

/// The question in another room, or about something else, answered in the buffer that was lent.
fn instead(question: &Question, content: &[u8], room: usize, trip: &mut Trip) {
    *trip = question.way.go(content, room);
    trip.written.truncate(question.room);
}

const WRONG_TRIPS: [(&str, Altered); 15] = [
    ("the rest of the buffer is cleared", |q, t| {
        t.written.resize(q.room, 0)
    }),
    ("a byte more is written", |q, t| {
        let end = q.room.min(t.written.len() + 1);
        t.written.resize(end, 0);
    }),
    ("half a record or line is written", |q, t| {
        let whole = q.way.go(&q.content, 4 * MOST).written;
        t.written = whole[..whole.len().min(q.room)].to_vec();
    }),
    ("room that is just enough is refused", |q, t| {
        instead(q, &q.content, q.room.saturating_sub(1), t);
    }),
    ("a byte too little is enough", |q, t| {
        instead(q, &q.content, q.room + 1, t)
    }),
    ("a bad line is skipped", |q, t| {
        if q.way == Way::ToRequests && t.code == 1 {
            t.code = 0;
        }
    }),
    ("a bad line is read", |q, t| {
        if q.way == Way::ToRequests && t.code == 1 {
            t.counts[1] += 1;
        }
    }),
    ("newlines are not read", |q, t| {
        if q.way == Way::ToRequests {
            t.counts[1] -= t.counts[0];
        }
    }),
    ("a missing newline is read", |q, t| {
        if q.way == Way::ToRequests && t.code == 0 && !q.content.ends_with(b"\n") {
            t.counts[1] += 1;
        }
    }),
    ("a last line without newline is dropped", |q, t| {
        if q.way == Way::ToRequests {
            let end = q.content.iter().rposition(|&b| b == b'\n');
            instead(q, &q.content[..end.map_or(0, |e| e + 1)], q.room, t);
        }
    }),
    ("room is looked at before a cut", |q, t| {
        if t.code == 2 && t.written.len() + 14 > q.room {
            t.code = 3;
        }
    }),
    ("room is looked at before the kind", |q, t| {
        if t.code == 1 && t.written.len() == q.room {
            t.code = 3;
        }
    }),
    ("kind 7 has a name", |q, t| {
        if t.code == 1 && q.content[t.counts[1]] == 7 {
            t.code = 2;
        }
    }),
    ("kind 18 has a name", |q, t| {
        if t.code == 1 && q.content[t.counts[1]] == 18 {
            t.code = 2;
        }
    }),
    ("a cut record at the end is none", |_, t| t.code %= 2),
];

#[test]
fn each_wrong_trip_is_seen() {
    let questions = questions::fixed(&Lines::new(), &mut Random::at(1, 0));
    for (what, alter) in WRONG_TRIPS {
        let is_seen = |question: &Question| {
            let right = question.way.go(&question.content, question.room);
            let mut wrong = question.way.go(&question.content, question.room);
            alter(question, &mut wrong);
            wrong != right
        };
        assert!(questions.iter().any(is_seen), "{what}");
    }
}
