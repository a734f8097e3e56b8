//! The program `trip` against the model: text to the request stream and back, in any room.

use super::made::{good_front, Lines};
use super::questions::{damaged, fixed, lines, room, text};
use super::{shown, to_requests, to_text, Trip};
use crate::port::Program;
use crate::random::Random;
use crate::tally::{Progress, Tally};
use std::io;

/// The most bytes of a text, a stream or a room.
pub const MOST: usize = 4096;

/// The bytes in front of a question's text or stream, and of an answer's buffer.
const QUESTION: usize = 5;
const ANSWER: usize = 7;

/// What the program fills a buffer with before it writes.
const UNTOUCHED: u8 = 0xaa;

/// The texts that are asked at once.
const TEXTS: usize = 4000;

#[derive(Clone, Copy, Debug, PartialEq)]
pub enum Way {
    ToRequests,
    ToText,
}

#[derive(Clone, Debug, PartialEq)]
pub struct Question {
    pub way: Way,
    pub room: usize,
    pub content: Vec<u8>,
}

impl Way {
    pub fn ask(self, content: &[u8], room: usize) -> Question {
        Question {
            way: self,
            room,
            content: content.to_vec(),
        }
    }

    pub fn go(self, content: &[u8], room: usize) -> Trip {
        match self {
            Way::ToRequests => to_requests(content, room),
            Way::ToText => to_text(content, room),
        }
    }

    /// The room that all of it needs, or as much as can be asked.
    pub fn enough(self, content: &[u8]) -> usize {
        self.go(content, 4 * MOST).written.len().min(MOST)
    }
}

impl Question {
    fn bytes(&self) -> Vec<u8> {
        let mut bytes = vec![self.way as u8];
        bytes.extend((self.room as u16).to_le_bytes());
        bytes.extend((self.content.len() as u16).to_le_bytes());
        bytes.extend(&self.content);
        bytes
    }

    /// The question at the front of some bytes, where there is one.
    fn at(bytes: &[u8]) -> Option<Question> {
        let &[mode, room, more_room, length, more_length] =
            bytes.get(..QUESTION)?.try_into().ok()?;
        let way = match mode {
            0 => Way::ToRequests,
            1 => Way::ToText,
            _ => return None,
        };
        let room = usize::from(u16::from_le_bytes([room, more_room]));
        let length = usize::from(u16::from_le_bytes([length, more_length]));
        let content = bytes.get(QUESTION..QUESTION + length)?;
        (room <= MOST && length <= MOST).then(|| way.ask(content, room))
    }

    fn answer(&self) -> Vec<u8> {
        self.way.go(&self.content, self.room).bytes(self.room)
    }
}

impl Trip {
    /// The code, the counts, and the whole buffer.
    fn bytes(&self, room: usize) -> Vec<u8> {
        let mut bytes = vec![self.code];
        for count in self.counts {
            bytes.extend((count as u16).to_le_bytes());
        }
        bytes.extend(&self.written);
        bytes.resize(ANSWER + room, UNTOUCHED);
        bytes
    }
}

/// What the program writes: the answer to each question until the input ends or something else comes.
pub fn program(input: &[u8]) -> Vec<u8> {
    let (mut rest, mut answers) = (input, Vec::new());
    while let Some(question) = Question::at(rest) {
        answers.extend(question.answer());
        rest = &rest[question.bytes().len()..];
    }
    answers
}

pub fn compare(seed: u64, count: u64, program: &Program) -> io::Result<u8> {
    let made = Lines::new();
    let mut tally = Tally::default();
    let random = &mut Random::at(seed, 0);
    ask(&fixed(&made, random), program, &mut tally)?;
    let mut progress = Progress::new("trip".to_string(), count);
    let mut done = 0;
    while done < count {
        let random = &mut Random::at(seed, 1 + done);
        let mut texts = Vec::new();
        while done < count && texts.len() < TEXTS {
            let lines = lines(random).min(count - done);
            texts.push(text(&made, lines, random));
            done += lines.max(1);
        }
        there(&texts, random, program, &mut tally)?;
        back(&made, &texts, random, program, &mut tally)?;
        progress.at(done);
    }
    progress.end();
    ended(&made, random, program, &mut tally)?;
    Ok(tally.finish())
}

/// Asks all the questions in one run, compares the answers, and gives the port's.
fn ask(questions: &[Question], program: &Program, tally: &mut Tally) -> io::Result<Vec<Vec<u8>>> {
    let stream: Vec<u8> = questions.iter().flat_map(Question::bytes).collect();
    let got = program.exchange(&stream)?;
    let (mut rest, mut answers) = (got.as_slice(), Vec::new());
    for question in questions {
        let (port, more) = rest.split_at(rest.len().min(ANSWER + question.room));
        let rust = question.answer();
        tally.count(port == rust, || {
            let Question { way, room, content } = question;
            let (content, port, rust) = (shown(content), told(port, &rust), told(&rust, port));
            format!("{way:?}, room {room}, of {content}: port {port}, Rust {rust}")
        });
        answers.push(port.to_vec());
        rest = more;
    }
    tally.count(rest.is_empty(), || {
        format!("{} bytes more than the answers", rest.len())
    });
    Ok(answers)
}

/// An answer in words: its code, its counts, and its buffer from near the place on where it differs.
fn told(answer: &[u8], other: &[u8]) -> String {
    let Some((front, buffer)) = answer.get(..ANSWER).map(|f| (f, &answer[ANSWER..])) else {
        return shown(answer);
    };
    let counts = front[1..].chunks_exact(2);
    let counts: Vec<_> = counts.map(|c| u16::from_le_bytes([c[0], c[1]])).collect();
    let alike = answer.iter().zip(other).take_while(|(a, b)| a == b).count();
    let from = alike.saturating_sub(ANSWER + 30).min(buffer.len());
    let code = front[0];
    format!(
        "code {code}, {counts:?}, from {from} {}",
        shown(&buffer[from..])
    )
}

/// The texts to requests, each in some room.
fn there(
    texts: &[Vec<u8>],
    random: &mut Random,
    program: &Program,
    tally: &mut Tally,
) -> io::Result<()> {
    let question = |text: &Vec<u8>| Way::ToRequests.ask(text, room(Way::ToRequests, text, random));
    let questions: Vec<_> = texts.iter().map(question).collect();
    ask(&questions, program, tally).map(|_| ())
}

/// The texts to requests, in just enough room, and what the port made of them back to text: the lines before the
/// first bad one are there as they were, each with its newline. Then the streams once more, damaged and in some room.
fn back(
    made: &Lines,
    texts: &[Vec<u8>],
    random: &mut Random,
    program: &Program,
    tally: &mut Tally,
) -> io::Result<()> {
    let enough = |text: &Vec<u8>| Way::ToRequests.ask(text, Way::ToRequests.enough(text));
    let questions: Vec<_> = texts.iter().map(enough).collect();
    let streams = ask(&questions, program, tally)?;
    let streams = streams.iter().map(|answer| answer.get(ANSWER..));
    let streams: Vec<_> = streams.map(Option::unwrap_or_default).collect();
    let lines: Vec<_> = texts.iter().map(|text| good_front(text)).collect();
    let pairs = streams.iter().zip(&lines);
    let questions: Vec<_> = pairs
        .map(|(stream, lines)| Way::ToText.ask(stream, lines.len()))
        .collect();
    let returned = ask(&questions, program, tally)?;
    for (answer, lines) in returned.iter().zip(&lines) {
        let port = answer.get(ANSWER..).unwrap_or_default();
        tally.count(port == lines, || {
            format!("lines {} came back as {}", shown(lines), shown(port))
        });
    }
    let questions: Vec<_> = streams
        .iter()
        .map(|stream| {
            let stream = damaged(made, stream.to_vec(), random);
            Way::ToText.ask(&stream, room(Way::ToText, &stream, random))
        })
        .collect();
    ask(&questions, program, tally).map(|_| ())
}

/// A byte that is no mode ends the program, whatever is behind it.
fn ended(
    made: &Lines,
    random: &mut Random,
    program: &Program,
    tally: &mut Tally,
) -> io::Result<()> {
    for mode in [2, 3, 128, 255] {
        let text = made.random(random, 3);
        let question = Way::ToRequests.ask(&text, 30);
        let mut other = question.bytes();
        other[0] = mode;
        let input = [question.bytes(), other, question.bytes()].concat();
        let (port, rust) = (program.exchange(&input)?, question.answer());
        tally.count(port == rust, || {
            format!(
                "mode {mode} behind a question: port {}, Rust {}",
                shown(&port),
                shown(&rust)
            )
        });
    }
    Ok(())
}
