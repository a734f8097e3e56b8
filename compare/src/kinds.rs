//! The kinds of request, from kinds.txt at the top of the repository.

use std::sync::OnceLock;

/// A line of kinds.txt.
#[derive(Debug, PartialEq)]
pub struct Kind {
    /// The byte at the front of a request.
    pub number: u8,
    /// The function's name in the Rust.
    pub name: &'static str,
    /// The bytes of the argument: 8 of an f64, 4 of an f32.
    pub body: usize,
    /// The bytes of each value in the answer.
    pub values: Vec<usize>,
    /// The names of the bytes behind the values.
    pub tail: Vec<&'static str>,
}

impl Kind {
    pub fn request_length(&self) -> usize {
        1 + self.body
    }

    pub fn answer_length(&self) -> usize {
        1 + self.values.iter().sum::<usize>() + self.tail.len()
    }
}

/// The kinds of the table, in its order.
pub fn kinds() -> &'static [Kind] {
    static KINDS: OnceLock<Vec<Kind>> = OnceLock::new();
    KINDS.get_or_init(|| read(include_str!("../../kinds.txt")).expect("kinds.txt is well formed"))
}

/// A table from its text, or the line that is wrong.
fn read(text: &'static str) -> Result<Vec<Kind>, &'static str> {
    let mut kinds: Vec<Kind> = Vec::new();
    for line in text.lines() {
        let words: Vec<_> = line.split('#').next().unwrap().split_whitespace().collect();
        if words.is_empty() {
            continue;
        }
        let kind = kind(&words).ok_or(line)?;
        if kinds.iter().any(|k| k.number == kind.number) {
            return Err(line);
        }
        kinds.push(kind);
    }
    Ok(kinds)
}

/// KIND NAME BODY VALUES TAIL. The answer's first byte is the kind's plus 128, so a kind is below 128.
fn kind(words: &[&'static str]) -> Option<Kind> {
    let &[number, name, body, values, tail] = words else {
        return None;
    };
    let width = |word: &str| word.parse().ok().filter(|w| [4, 8].contains(w));
    Some(Kind {
        number: number.parse().ok().filter(|&n| n < 128)?,
        name,
        body: width(body)?,
        values: values.split('+').map(width).collect::<Option<_>>()?,
        tail: tail.split('+').filter(|&name| name != "-").collect(),
    })
}

#[cfg(test)]
mod tests {
    use super::*;

    #[test]
    fn a_line_is_a_kind() {
        let wide = read("# more\n7 erf_erfc 8 8+8 -\n\n6 pole 8 8 sign+pole # two\n").unwrap();
        assert_eq!(wide.len(), 2);
        assert_eq!((wide[0].request_length(), wide[0].answer_length()), (9, 17));
        assert_eq!((wide[1].request_length(), wide[1].answer_length()), (9, 11));
        assert_eq!(wide[1].tail, ["sign", "pole"]);
    }

    #[test]
    fn a_line_that_is_none() {
        for line in [
            "1 tgamma 8 8",
            "1 tgamma 8 8 - -",
            "128 tgamma 8 8 -",
            "1 tgamma 8 7 -",
            "1 tgamma 3 8 -",
            "one tgamma 8 8 -",
            "1 tgamma 8 8+ -",
        ] {
            assert_eq!(read(line), Err(line));
        }
        assert_eq!(read("1 a 8 8 -\n1 b 8 8 -"), Err("1 b 8 8 -"));
    }

    #[test]
    fn the_base_is_there() {
        let base = [
            (1, "tgamma", 9, 9),
            (2, "lgamma_r", 9, 10),
            (3, "erf", 9, 9),
            (4, "erfc", 9, 9),
            (17, "lgammaf_r", 5, 6),
            (19, "erff", 5, 5),
            (20, "erfcf", 5, 5),
        ];
        for (number, name, request, answer) in base {
            let kind = kinds().iter().find(|k| k.number == number).unwrap();
            assert_eq!(kind.name, name);
            assert_eq!(kind.request_length(), request);
            assert_eq!(kind.answer_length(), answer);
        }
    }
}
