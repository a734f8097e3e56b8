//! The numbers of a file of definitions: patterns as `bits 0x3FE0000000000000`, literals as `0·5`, and
//! words as `0x3FEB0000`; with what the comments beside them say.

use super::value::Value;
use crate::patterns::Width;

/// A number in a definition or in a record's field.
pub struct Item {
    pub line: usize,
    pub value: Value,
    /// The Rust's name and its literal, as the comment beside a pattern has them.
    pub named: Option<String>,
    pub literal: Option<Value>,
}

impl Item {
    pub fn is_pattern(&self) -> bool {
        matches!(self.value, Value::Pattern(..))
    }

    /// A number with no comment beside it.
    pub fn plain(line: usize, value: Value) -> Item {
        let (named, literal) = (None, None);
        Item {
            line,
            value,
            named,
            literal,
        }
    }
}

/// A definition or a record's field, with its numbers in order.
pub struct Definition {
    pub name: String,
    pub line: usize,
    pub items: Vec<Item>,
}

#[derive(Default)]
pub struct Specs {
    pub definitions: Vec<Definition>,
    pub words: Vec<(usize, u64)>,
    /// Decimal whole numbers.
    pub counts: Vec<u64>,
    /// Patterns with another number of digits than 16 or 8.
    pub odd: Vec<(usize, String)>,
}

/// Reads a file.
pub fn read(text: &str) -> Specs {
    let mut specs = Specs::default();
    for (line, text) in (1..).zip(text.lines()) {
        let (code, comment) = split_comment(text);
        let words: Vec<&str> = code
            .split(|c: char| c.is_whitespace() || "(){};,".contains(c))
            .filter(|word| !word.is_empty())
            .collect();
        if matches!(
            words.first(),
            Some(&"use" | &"pub" | &"abbrev" | &"unfoldable" | &"infixl")
        ) {
            continue;
        }
        let body = match head(&words) {
            Some((name, length)) => {
                let name = name.to_string();
                let items = Vec::new();
                specs.definitions.push(Definition { name, line, items });
                &words[length..]
            }
            None => &words[..],
        };
        let items = read_line(body, line, &mut specs);
        let items = with_comment(items, comment);
        if let Some(definition) = specs.definitions.last_mut() {
            definition.items.extend(items);
        }
    }
    specs
}

fn split_comment(line: &str) -> (&str, &str) {
    match line.find("--") {
        Some(0) => ("", &line[2..]),
        Some(at) if line[..at].ends_with(' ') => (&line[..at], &line[at + 2..]),
        _ => (line, ""),
    }
}

/// The name that a line defines, and how many words stand up to its `=`.
fn head<'a>(words: &[&'a str]) -> Option<(&'a str, usize)> {
    let equals = words.iter().position(|&word| word == "=")?;
    match words[0] {
        "let" | "=" => None,
        name => Some((name, equals + 1)),
    }
}

/// The numbers of a line; words and counts go to the file's.
fn read_line(words: &[&str], line: usize, specs: &mut Specs) -> Vec<Item> {
    let mut items = Vec::new();
    let mut item = |value| items.push(Item::plain(line, value));
    let mut is_pattern = false;
    for word in words {
        let digits = word.strip_prefix("0x");
        match digits.map(|d| u64::from_str_radix(d, 16)) {
            Some(Ok(bits)) if is_pattern => match word.len() {
                18 => item(Value::Pattern(Width::Double, bits)),
                10 => item(Value::Pattern(Width::Single, bits)),
                _ => specs.odd.push((line, word.to_string())),
            },
            Some(Ok(number)) => specs.words.push((line, number)),
            _ if is_pattern && *word == "0" => item(Value::Pattern(Width::Double, 0)),
            _ => {
                if let Some(literal) = literal_name(word) {
                    item(literal);
                } else if let Ok(number) = word.parse() {
                    specs.counts.push(number);
                }
            }
        }
        is_pattern = *word == "bits" || word.ends_with(".bits");
    }
    items
}

/// The literal that a name such as 0·5 or -1·0 stands for.
pub fn literal_name(name: &str) -> Option<Value> {
    let name = name.rsplit('.').next()?;
    let (whole, part) = name.split_once('·')?;
    let digits = |text: &str| !text.is_empty() && text.chars().all(|c| c.is_ascii_digit());
    let is_literal = digits(whole.strip_prefix('-').unwrap_or(whole)) && digits(part);
    is_literal.then(|| Value::Decimal(format!("{whole}.{part}")))
}

/// The items of a line with what its comment says: for each pattern a literal, and before it a name where
/// it has one. A comment with another number of literals says nothing of them.
fn with_comment(mut items: Vec<Item>, comment: &str) -> Vec<Item> {
    let mut said = Vec::new();
    let mut name = None;
    for word in comment.split(|c: char| c.is_whitespace() || ",;".contains(c)) {
        match literal_in(word) {
            Some(literal) => said.push((name.take(), literal)),
            None => name = Some(word.to_string()).filter(|word| is_name(word)),
        }
    }
    let mut patterns: Vec<&mut Item> = items.iter_mut().filter(|i| i.is_pattern()).collect();
    if said.len() == patterns.len() {
        for (item, (named, literal)) in patterns.iter_mut().zip(said) {
            item.named = named;
            item.literal = Some(literal);
        }
    }
    items
}

/// A literal as the Rust writes it, its infinity, or the pattern of its `from_bits`.
fn literal_in(word: &str) -> Option<Value> {
    let bits = |width, text: &str| {
        let digits = text.strip_suffix(')')?.replace('_', "");
        let bits = u64::from_str_radix(digits.strip_prefix("0x")?, 16).ok()?;
        Some(Value::Pattern(width, bits))
    };
    if let Some(text) = word.strip_prefix("f64::from_bits(") {
        return bits(Width::Double, text);
    }
    if let Some(text) = word.strip_prefix("f32::from_bits(") {
        return bits(Width::Single, text);
    }
    if ["f64::INFINITY", "f32::INFINITY"].contains(&word) {
        return Some(Value::Decimal("inf".to_string()));
    }
    let is_literal = word.contains('.') && word.parse::<f64>().is_ok();
    is_literal.then(|| Value::Decimal(word.to_string()))
}

/// X, X1, X[1], X_H, x1p54
fn is_name(word: &str) -> bool {
    word.starts_with(|c: char| c.is_ascii_alphabetic())
        && word
            .chars()
            .all(|c| c.is_ascii_alphanumeric() || "_[]".contains(c))
}

#[cfg(test)]
mod tests {
    use super::*;

    const TEXT: &str = "-- erf.rs: 0x12345678 is no word
use words.specs.F64.{◌⊕◌, bits, 0·5}

abbrev pub SNUM : List Float
SNUM =
    bits 0x4215EA5143C1A49E ∷ -- SNUM[0] 23531376880.410759688572007674451636754734846804940
    bits 0x40040D931FF62705 ∷ []  -- 2.5066282746310002701649081771338373386264310793408

erf64 = record {
  at0·84375 = 0x3FEB0000;
  one = bits 0x3FF0000000000000;
  zero = bits 0;
  ERX = bits 0x3FEB0AC160000000;  -- ERX 8.45062911510467529297e-01
  x1pUp = bits 0x4350000000000000;  -- x1p54 f64::from_bits(0x4350000000000000)
}

DP·H k = if k =? 0 then 0·0 else bits 0x3FE2B80340000000  -- DP_H[1] 5.84962487220764160156e-01

sS x =
    let h = x ⊗ bits 0x3F000000 in
    if x <· -1·0 then F64.0·5 else (h ⊕ bits 0x3FE) / 2 ^ 20
";

    #[test]
    fn patterns_literals_and_words() {
        let specs = read(TEXT);
        let of = |name: &str| {
            let found = specs.definitions.iter().find(|d| d.name == name).unwrap();
            found
                .items
                .iter()
                .map(|i| i.value.to_string())
                .collect::<Vec<_>>()
        };
        assert_eq!(of("SNUM"), ["0x4215EA5143C1A49E", "0x40040D931FF62705"]);
        assert_eq!(of("one"), ["0x3FF0000000000000"]);
        assert_eq!(of("zero"), ["0x0000000000000000"]);
        assert_eq!(of("sS"), ["0x3F000000", "-1.0", "0.5"]);
        assert_eq!(specs.words, [(10, 0x3FEB_0000)]);
        assert_eq!(specs.counts, [0, 2, 20]);
        assert_eq!(specs.odd, [(21, "0x3FE".to_string())]);
    }

    #[test]
    fn comments() {
        let specs = read(TEXT);
        let snum = &specs.definitions[0].items;
        assert_eq!(snum[0].named.as_deref(), Some("SNUM[0]"));
        assert!(snum
            .iter()
            .all(|i| i.literal.as_ref().unwrap().is_same(&i.value)));
        assert_eq!(snum[1].named, None);
        let last = |name: &str| {
            let found = specs.definitions.iter().find(|d| d.name == name).unwrap();
            let item = found.items.last().unwrap();
            let literal = item.literal.as_ref().unwrap();
            assert!(literal.is_same(&item.value));
            item.named.clone().unwrap()
        };
        assert_eq!(last("ERX"), "ERX");
        assert_eq!(last("x1pUp"), "x1p54");
        assert_eq!(last("DP·H"), "DP_H[1]");
    }
}
