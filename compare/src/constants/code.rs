//! The numbers of a Rust file, and of a file of the port's code, which is written alike.

use super::text::{in_brackets, tokens, without, Token};
use super::value::{pattern_in, Value};
use crate::patterns::Width;

/// A named constant: one number, or a list of them.
pub struct Constant {
    pub name: String,
    pub line: usize,
    pub width: Width,
    pub is_list: bool,
    pub values: Vec<Value>,
    /// The patterns in the comments beside the values.
    pub beside: Vec<Option<u64>>,
}

impl Constant {
    /// The values, rounded to the constant's format.
    pub fn patterns(&self) -> Vec<Value> {
        let pattern = |value: &Value| match value.bits(self.width) {
            Some(bits) => Value::Pattern(self.width, bits),
            None => value.clone(),
        };
        self.values.iter().map(pattern).collect()
    }
}

/// What stands in a file. Each thing has its line.
#[derive(Default)]
pub struct Code {
    pub constants: Vec<Constant>,
    /// Float literals in functions, with their signs; patterns of `from_bits`; infinity; lengths of lists
    /// as floats.
    pub literals: Vec<(usize, Value)>,
    /// The names that patterns of `from_bits` have in functions.
    pub names: Vec<(String, Value)>,
    /// Hexadecimal whole numbers, and shifted ones as the number that they are.
    pub words: Vec<(usize, u64)>,
    /// Decimal whole numbers from 10 on that no shift is by.
    pub counts: Vec<(usize, u64)>,
}

/// Reads a file. Left out are its tests, what is only there to raise a flag, and contracts.
pub fn read(text: &str) -> Code {
    let text = text.split("#[cfg(test)]").next().unwrap();
    let (found, comments) = tokens(text);
    let found = without(&found, ghost_length);
    let found = without_unused(&found);
    let (mut code, mut at) = (Code::default(), 0);
    while at < found.len() {
        at += match found[at].text.as_str() {
            "const" => constant(&found[at..], &comments, &mut code),
            "static" if is_struct(&found[at..]) => fields(&found[at..], &comments, &mut code),
            "static" => constant(&found[at..], &comments, &mut code),
            _ => number(&found, at, &mut code),
        };
    }
    code
}

fn texts(tokens: &[Token], count: usize) -> Vec<&str> {
    let first = &tokens[..count.min(tokens.len())];
    first.iter().map(|t| t.text.as_str()).collect()
}

/// The length of what says nothing of a result: force_eval!(..), a contract's clause, a ghost line.
fn ghost_length(tokens: &[Token]) -> Option<usize> {
    match texts(tokens, 2)[..] {
        ["force_eval", "!"] => Some(2 + in_brackets(&tokens[2..])),
        ["ensures" | "requires", "{"] => Some(1 + in_brackets(&tokens[1..])),
        ["ghost", _] => tokens.iter().position(|t| t.is(";")),
        _ => None,
    }
}

/// Without each `let NAME = f64::from_bits(..);` whose name no longer stands anywhere else.
fn without_unused(tokens: &[Token]) -> Vec<Token> {
    without(tokens, |at| {
        let ["let", name, "=", "f64" | "f32", "::", "from_bits", "(", _, ")", ";"] =
            texts(at, 10)[..]
        else {
            return None;
        };
        let uses = tokens.iter().filter(|t| t.is(name)).count();
        (uses == 1).then_some(10)
    })
}

/// Whether a static has fields.
fn is_struct(tokens: &[Token]) -> bool {
    let value = tokens.iter().skip_while(|t| !t.is("="));
    value.skip(2).next().is_some_and(|t| t.is("{"))
}

/// Reads `static NAME: TYPE<WIDTH> = TYPE { field: .., .. };`, and answers its length. A field with a float is a constant of its name, in
/// capitals; the others have words and counts.
fn fields(tokens: &[Token], comments: &[(usize, String)], code: &mut Code) -> usize {
    let equals = tokens.iter().position(|t| t.is("=")).unwrap_or(0);
    let kind = texts(&tokens[..equals], equals);
    let width = match kind.contains(&"f64") {
        true => Width::Double,
        false => Width::Single,
    };
    let length = equals + 2 + in_brackets(&tokens[equals + 2..]);
    let mut at = equals + 3;
    while at + 2 < length {
        let end = value_length(&tokens[at..length - 1]);
        let value = &tokens[at + 2..at + end];
        if value.iter().any(|t| t.is_float()) {
            let name = tokens[at].text.to_uppercase();
            let is_list = value.iter().any(|t| t.is("["));
            named(
                &name,
                tokens[at].line,
                width,
                is_list,
                value,
                comments,
                code,
            );
        } else {
            let mut place = 0;
            while place < value.len() {
                place += number(value, place, code);
            }
        }
        at += end + 1;
    }
    length
}

/// How many tokens there are before the comma behind a field's value.
fn value_length(tokens: &[Token]) -> usize {
    let mut depth = 0;
    for (at, token) in tokens.iter().enumerate() {
        match token.text.as_str() {
            "[" | "(" | "{" => depth += 1,
            "]" | ")" | "}" => depth -= 1,
            "," if depth == 0 => return at,
            _ => {}
        }
    }
    tokens.len()
}

/// Reads `const NAME: TYPE = ..;`, and answers its length.
fn constant(tokens: &[Token], comments: &[(usize, String)], code: &mut Code) -> usize {
    let end = |text| {
        tokens
            .iter()
            .position(|t| t.is(text))
            .unwrap_or(tokens.len())
    };
    let equals = end("=");
    let kind = texts(&tokens[..equals], equals);
    let width = match (kind.contains(&"f64"), kind.contains(&"f32")) {
        (true, _) => Width::Double,
        (_, true) => Width::Single,
        // a whole number's
        _ => return equals,
    };
    // a semicolon stands inside the type of a list too
    let length = equals + tokens[equals..].iter().position(|t| t.is(";")).unwrap_or(0);
    let is_list = kind.contains(&"[");
    named(
        kind[1],
        tokens[0].line,
        width,
        is_list,
        &tokens[equals..length],
        comments,
        code,
    );
    length
}

/// Takes in a constant: its name, and the numbers of its value.
fn named(
    name: &str,
    line: usize,
    width: Width,
    is_list: bool,
    value: &[Token],
    comments: &[(usize, String)],
    code: &mut Code,
) {
    let mut numbers = Vec::new();
    for at in 0..value.len() {
        if value[at].is_float() {
            numbers.push((value[at].line, signed(value, at)));
        }
    }
    let beside = |place: usize| {
        let line = numbers[place].0;
        let is_last = numbers.get(place + 1).map_or(true, |next| next.0 != line);
        let comment = comments.iter().find(|(l, _)| *l == line && is_last)?;
        pattern_in(&comment.1, width)
    };
    code.constants.push(Constant {
        name: name.to_string(),
        line,
        width,
        is_list,
        beside: (0..numbers.len()).map(beside).collect(),
        values: numbers.iter().map(|(_, value)| value.clone()).collect(),
    });
}

/// The literal at a place, with the minus before it where that is a sign.
fn signed(tokens: &[Token], at: usize) -> Value {
    let text = tokens[at].text.replace('_', "");
    let text = text.trim_end_matches("f64").trim_end_matches("f32");
    let value = Value::Decimal(text.to_string());
    let is_negative = at > 0 && tokens[at - 1].is("-") && !(at > 1 && tokens[at - 2].is_operand());
    match is_negative {
        true => value.negated(),
        false => value,
    }
}

/// The whole number of a token.
fn whole(token: &str) -> Option<u64> {
    match token.strip_prefix("0x") {
        Some(digits) => {
            let end = digits.find(|c: char| !c.is_ascii_hexdigit() && c != '_');
            let digits = digits[..end.unwrap_or(digits.len())].replace('_', "");
            u64::from_str_radix(&digits, 16).ok()
        }
        None => {
            let end = token.find(|c: char| !c.is_ascii_digit() && c != '_');
            token[..end.unwrap_or(token.len())]
                .replace('_', "")
                .parse()
                .ok()
        }
    }
}

/// Takes the number at a place in, where there is one, and answers the length of what it looked at.
fn number(tokens: &[Token], at: usize, code: &mut Code) -> usize {
    let line = tokens[at].line;
    match texts(&tokens[at..], 7)[..] {
        [width @ ("f64" | "f32"), "::", "from_bits", "(", digits, ")", ..] => {
            let width = if width == "f64" {
                Width::Double
            } else {
                Width::Single
            };
            if let Some(bits) = whole(digits) {
                code.literals.push((line, Value::Pattern(width, bits)));
                if at > 1 && tokens[at - 1].is("=") {
                    let name = tokens[at - 2].text.clone();
                    code.names.push((name, Value::Pattern(width, bits)));
                }
            }
            return 6;
        }
        ["f64" | "f32", "::", "INFINITY", ..] => {
            code.literals
                .push((line, Value::Decimal("inf".to_string())));
            return 3;
        }
        [list, ".", "len", "(", ")", ..] => {
            if let Some(found) = code.constants.iter().find(|c| c.name == list) {
                let length = Value::Decimal(format!("{}.0", found.values.len()));
                code.literals.push((line, length));
            }
            return 5;
        }
        ["(", a, "-", b, ")", "<<", k] => {
            if let (Some(a), Some(b), Some(k)) = (whole(a), whole(b), whole(k)) {
                code.words.push((line, (a - b) << k));
                return 7;
            }
        }
        _ => {}
    }
    let token = &tokens[at];
    if token.is_float() {
        code.literals.push((line, signed(tokens, at)));
    } else if let Some(n) = whole(&token.text).filter(|_| token.is_number()) {
        let is_shift = at > 0 && (tokens[at - 1].is("<<") || tokens[at - 1].is(">>"));
        if token.text.starts_with("0x") {
            code.words.push((line, n));
        } else if n >= 10 && !is_shift {
            code.counts.push((line, n));
        }
    }
    1
}

#[cfg(test)]
mod tests {
    use super::*;

    #[test]
    fn constants_and_literals() {
        let code = read(
            "const A: f64 = -1.5; /* 0xBFF80000, 0x00000000 */
            const B: [f64; 2] = [0.0, 5.84962487220764160156e-01]; /* 0x3fe2b803_40000000 */
            const N: usize = 12;
            fn f(x: f64) {
                let big = f64::from_bits(0x7fe0000000000000);
                let flag = f64::from_bits(0x36a0000000000000);
                force_eval!(flag / 3.0);
                if ix < (0x3ff - 54) << 20 || x <= B.len() as f64 { return -0.5 * x - 1. + f64::INFINITY; }
                k -= 54; hx >> 31; big * y & 0x7fff_ffff_i32
            }
            #[cfg(test)]
            mod tests { const C: f64 = 2.0; }",
        );
        let names: Vec<_> = code.constants.iter().map(|c| c.name.as_str()).collect();
        assert_eq!(names, ["A", "B"]);
        assert_eq!(
            code.constants[0].values,
            [Value::Decimal("-1.5".to_string())]
        );
        assert_eq!(code.constants[0].beside, [Some(0xBFF8_0000_0000_0000)]);
        assert!(!code.constants[0].is_list && code.constants[1].is_list);
        assert_eq!(
            code.constants[1].beside,
            [None, Some(0x3FE2_B803_4000_0000)]
        );
        let literals: Vec<_> = code.literals.iter().map(|l| l.1.to_string()).collect();
        assert_eq!(literals, ["0x7FE0000000000000", "2.0", "-0.5", "1.", "inf"]);
        assert_eq!(code.names.len(), 1);
        assert_eq!(code.names[0].0, "big");
        let words: Vec<_> = code.words.iter().map(|w| w.1).collect();
        assert_eq!(words, [0x3C90_0000, 0x7FFF_FFFF]);
        let counts: Vec<_> = code.counts.iter().map(|c| c.1).collect();
        assert_eq!(counts, [12, 54]);
    }

    #[test]
    fn a_static_with_fields_has_a_constant_for_each() {
        let code = read(
            "static EXP: Constants<f64> = Constants {
                to_tiny: 0x3e300000,
                ln2hi: 1.5, /* 0x3FF80000, 0x00000000 */
                p: &[0.5, -0.25],
            };
            static FACT: [f64; 2] = [1.0, 2.0];",
        );
        let names: Vec<_> = code.constants.iter().map(|c| c.name.as_str()).collect();
        assert_eq!(names, ["LN2HI", "P", "FACT"]);
        assert!(!code.constants[0].is_list && code.constants[1].is_list);
        assert_eq!(code.constants[0].beside, [Some(0x3FF8_0000_0000_0000)]);
        assert_eq!(code.constants[1].values[1].to_string(), "-0.25");
        assert_eq!(code.words, [(2, 0x3E30_0000)]);
    }

    #[test]
    fn contracts_are_left_out() {
        let code = read(
            "ghost use lib.Ieee.{binary64};
            fn f(x: u32) -> f64
                requires { ⌜ (0x3C900000 ≤ x) ⌝ }
                ensures { λ r. ⌜ r ≡ g 0x10 ⌝ }
            { if x < 0x40 { 1.0 } else { -2.0 } }",
        );
        assert_eq!(code.words, [(5, 0x40)]);
        assert_eq!(code.literals.len(), 2);
    }
}
