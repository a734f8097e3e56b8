//! Lines made from a seed: good ones of every name, bad ones of every sort, and texts of them.

use super::{bare, lines_of, reply, Name, NAMES};
use crate::patterns::{Patterns, Width};
use crate::random::Random;

pub fn below(random: &mut Random, n: usize) -> usize {
    random.below(n as u64) as usize
}

pub fn one_of<'a, T>(random: &mut Random, all: &'a [T]) -> &'a T {
    &all[below(random, all.len())]
}

pub fn noise(random: &mut Random, length: usize) -> Vec<u8> {
    (0..length).map(|_| random.next() as u8).collect()
}

/// Lines in a row, each with its newline.
pub fn joined(lines: impl IntoIterator<Item = Vec<u8>>) -> Vec<u8> {
    let ended = lines.into_iter().map(|line| [line, vec![b'\n']].concat());
    ended.flatten().collect()
}

/// The lines of a text before its first bad one, each with its newline.
pub fn good_front(text: &[u8]) -> Vec<u8> {
    let good = lines_of(text).map(bare).take_while(|line| is_good(line));
    joined(good.map(<[u8]>::to_vec))
}

fn is_good(line: &[u8]) -> bool {
    super::question(line).is_some()
}

/// What a bad line is made from: a good one in its two words.
struct Words<'a> {
    word: &'a str,
    digits: &'a str,
    line: &'a [u8],
}

/// A way to spoil a good line.
type Sort = fn(&Words, &mut Random) -> Vec<u8>;

/// Every sort of bad line.
const SORTS: [Sort; 27] = [
    |_, _| Vec::new(),
    |w, r| with(w, r, b"ABCDEF"),
    |w, r| with(w, r, b"/:`g@G-+. \t\r\0"),
    |w, r| with(w, r, b"\x80\xb0\xb1\xe1\xe6\xff"),
    |w, _| format!("{} {}", w.word.to_uppercase(), w.digits).into(),
    |w, _| [w.line[..1].to_ascii_uppercase(), w.line[1..].to_vec()].concat(),
    |w, _| format!("{} {}", w.word, &w.digits[1..]).into(),
    |w, _| format!("{} 0{}", w.word, w.digits).into(),
    |w, _| format!("{} {}0", w.word, w.digits).into(),
    |w, _| format!("{}  {}", w.word, w.digits).into(),
    |w, _| format!("{}  {}", w.word, &w.digits[1..]).into(),
    |w, _| format!(" {} {}", w.word, w.digits).into(),
    |w, _| format!("{} {} ", w.word, w.digits).into(),
    |w, _| format!("{}\t{}", w.word, w.digits).into(),
    |w, _| format!("{} {}\r", w.word, w.digits).into(),
    |w, _| format!("{} {}\0", w.word, w.digits).into(),
    |w, _| format!("{}{}", w.word, w.digits).into(),
    |w, _| w.word.into(),
    |w, _| format!("{} ", w.word).into(),
    |w, _| w.digits.into(),
    |w, _| format!("{} 0x{}", w.word, w.digits).into(),
    |w, _| format!("{} 0x{}", w.word, &w.digits[2..]).into(),
    // as many digits as the other width has
    |w, _| match w.digits.len() {
        8 => format!("{} {}{}", w.word, w.digits, w.digits).into(),
        _ => format!("{} {}", w.word, &w.digits[..8]).into(),
    },
    |w, r| format!("{} {}", one_of(r, &NO_NAMES), w.digits).into(),
    // the reply in place of the question
    |w, _| bare(&reply(w.line)).to_vec(),
    // over 25 bytes by some, or by many
    |w, r| {
        let most = 1 << (1 + below(r, 9));
        let length = 26 + below(r, most);
        w.line.iter().copied().cycle().take(length).collect()
    },
    |_, r| {
        let length = 1 + below(r, 40);
        let mut bytes = noise(r, length);
        bytes.retain(|&byte| byte != b'\n');
        bytes
    },
];

/// Words that no line begins with: those of later kinds, and what comes near a name.
const NO_NAMES: [&str; 16] = [
    "tgammaf",
    "lgamma",
    "lgammaf",
    "erf_erfc",
    "whole_gamma",
    "gamma",
    "bad",
    "er",
    "erfcff",
    "erffc",
    "lgammar",
    "lgamma_r_",
    "lgammaf_",
    "ltgamma",
    "sinpi",
    "",
];

/// The line with another byte in place of a digit.
fn with(words: &Words, random: &mut Random, bytes: &[u8]) -> Vec<u8> {
    let mut line = words.line.to_vec();
    let at = line.len() - 1 - below(random, words.digits.len());
    line[at] = *one_of(random, bytes);
    line
}

/// A line with one byte replaced, inserted or taken out, at random.
fn damaged(mut line: Vec<u8>, random: &mut Random) -> Vec<u8> {
    let at = below(random, line.len());
    match random.below(3) {
        0 => line[at] = random.next() as u8,
        1 => line.insert(at, random.next() as u8),
        _ => {
            line.remove(at);
        }
    }
    line
}

/// Every damage of one byte to a line that has its newline, each with the good line `behind` it: each byte
/// replaced by every other one, every byte inserted at each place, each byte taken out.
pub fn damages(line: &[u8], behind: &[u8]) -> Vec<u8> {
    let mut text = Vec::new();
    let mut push = |front: &[u8], byte: Option<u8>, rest: &[u8]| {
        text.extend(front);
        text.extend(byte);
        text.extend(rest);
        text.extend(behind);
    };
    for at in 0..line.len() {
        let (front, rest) = line.split_at(at);
        push(front, None, &rest[1..]);
        for byte in 0..=255 {
            push(front, Some(byte), rest);
            if byte != rest[0] {
                push(front, Some(byte), &rest[1..]);
            }
        }
    }
    text
}

/// The patterns of a width, with those that are asked first.
struct Arguments {
    patterns: Patterns,
    specials: Vec<u64>,
    near_cuts: Vec<u64>,
}

impl Arguments {
    fn new(width: Width) -> Arguments {
        Arguments {
            patterns: Patterns::new(width),
            specials: width.specials(),
            near_cuts: width.around(&width.cuts()),
        }
    }

    fn random(&self, random: &mut Random) -> u64 {
        match random.below(16) {
            0 => *one_of(random, &self.specials),
            1 => *one_of(random, &self.near_cuts),
            _ => self.patterns.random(random),
        }
    }
}

/// Lines of every name.
pub struct Lines {
    doubles: Arguments,
    singles: Arguments,
}

impl Lines {
    pub fn new() -> Lines {
        Lines {
            doubles: Arguments::new(Width::Double),
            singles: Arguments::new(Width::Single),
        }
    }

    /// The arguments as wide as a name's.
    fn arguments(&self, name: &Name) -> &Arguments {
        match name.digits {
            16 => &self.doubles,
            _ => &self.singles,
        }
    }

    /// A good line of a name, at a random pattern.
    pub fn good(&self, name: &Name, random: &mut Random) -> Vec<u8> {
        name.line(self.arguments(name).random(random))
    }

    /// A good line of each name.
    pub fn each(&self, random: &mut Random) -> Vec<Vec<u8>> {
        NAMES.iter().map(|name| self.good(name, random)).collect()
    }

    /// A bad line of a name, of the sort at a place; the sorts come in turn.
    fn bad(&self, name: &Name, place: usize, random: &mut Random) -> Vec<u8> {
        let line = self.good(name, random);
        let text = String::from_utf8_lossy(&line).into_owned();
        let (word, digits) = text.split_at(name.word.len());
        let words = Words {
            word,
            digits: &digits[1..],
            line: &line,
        };
        SORTS[place % SORTS.len()](&words, random)
    }

    /// A line of any sort: most of them good, some bad, some good ones with a byte damaged.
    pub fn any(&self, random: &mut Random) -> Vec<u8> {
        let name = one_of(random, &NAMES);
        match random.below(16) {
            0 => damaged(self.good(name, random), random),
            1..=3 => self.bad(name, below(random, SORTS.len()), random),
            _ => self.good(name, random),
        }
    }

    /// So many lines of any sort.
    pub fn random(&self, random: &mut Random, count: u64) -> Vec<u8> {
        joined((0..count).map(|_| self.any(random)))
    }

    /// Every sort of bad line of every name, some times, and every word that is no name with digits of
    /// either width.
    pub fn every_sort(&self, random: &mut Random) -> Vec<u8> {
        let mut lines = Vec::new();
        for place in 0..8 * SORTS.len() {
            lines.extend(NAMES.iter().map(|name| self.bad(name, place, random)));
        }
        for word in NO_NAMES {
            lines.push(format!("{word} 3ff0000000000000").into());
            lines.push(format!("{word} 3f800000").into());
        }
        joined(lines)
    }

    /// Every name at every special pattern and at both sides of every cut.
    pub fn systematic(&self) -> Vec<u8> {
        let of_name = |name: &'static Name| {
            let Arguments {
                specials,
                near_cuts,
                ..
            } = self.arguments(name);
            let all = specials.iter().chain(near_cuts);
            all.map(|&bits| name.line(bits))
        };
        joined(NAMES.iter().flat_map(of_name))
    }

    /// A text of so many lines: three of four are good, first every name at the special patterns, then at
    /// neighbours of the cuts; the others have every sort of bad line in turn.
    pub fn text(&self, random: &mut Random, count: u64) -> Vec<u8> {
        let mut good = 0;
        let lines = (0..count as usize).map(|place| {
            if place % 4 == 3 {
                return self.bad(one_of(random, &NAMES), place / 4, random);
            }
            let name = &NAMES[good % NAMES.len()];
            let arguments = self.arguments(name);
            let bits = match arguments.specials.get(good / NAMES.len()) {
                Some(&bits) => bits,
                None => *one_of(random, &arguments.near_cuts),
            };
            good += 1;
            name.line(bits)
        });
        joined(lines)
    }

    /// A short text with a good line of each name, lines of 25 to 40 bytes, an empty one, a CR and high bytes,
    /// and no newline at its end.
    pub fn short(&self, random: &mut Random) -> Vec<u8> {
        let mut lines = self.each(random);
        lines.insert(2, Vec::new());
        let long = |length| lines[1].iter().copied().cycle().take(length).collect();
        let more: [Vec<u8>; 6] = [
            long(26),
            long(40),
            [&lines[0], b"\r".as_slice()].concat(),
            b"\xe9\xff\x80 \x8a".to_vec(),
            b"x".repeat(25),
            Vec::new(),
        ];
        for (place, line) in more.into_iter().enumerate() {
            lines.insert(2 * place + 1, line);
        }
        bare(&joined(lines)).to_vec()
    }
}

#[cfg(test)]
mod tests {
    use super::*;

    /// The good lines of a text, each with its newline.
    fn good_lines(text: &[u8]) -> Vec<u8> {
        let good = lines_of(text).map(bare).filter(|line| is_good(line));
        joined(good.map(<[u8]>::to_vec))
    }

    #[test]
    fn every_sort_of_bad_line_is_bad() {
        let made = Lines::new();
        let random = &mut Random::at(1, 0);
        let text = made.every_sort(random);
        assert!(lines_of(&text).count() > 8 * SORTS.len() * NAMES.len());
        assert_eq!(good_lines(&text), b"");
    }

    #[test]
    fn other_lines_are_good() {
        let made = Lines::new();
        let random = &mut Random::at(1, 0);
        assert_eq!(good_lines(&made.systematic()), made.systematic());
        let text = made.text(random, 400);
        assert_eq!(lines_of(&good_lines(&text)).count(), 300);
        let short = made.short(random);
        assert_eq!(lines_of(&good_lines(&short)).count(), NAMES.len());
        assert!(short.len() > 200 && !short.ends_with(b"\n"));
        for sort in ["\n\n", "\r\n", "\u{e9}"] {
            let latin: Vec<u8> = sort.chars().map(|c| c as u8).collect();
            assert!(short.windows(latin.len()).any(|w| w == latin), "{sort:?}");
        }
    }
}
