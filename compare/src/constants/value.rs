//! A number as a text writes it: a decimal literal, or a bit pattern.

use crate::patterns::Width;

#[derive(Clone, Debug, PartialEq)]
pub enum Value {
    /// A decimal literal, by its text.
    Decimal(String),
    /// The number of a bit pattern.
    Pattern(Width, u64),
}

impl Value {
    /// The pattern of the number in a format, where a literal is rounded once, as the compiler does it.
    /// There is none of a pattern of another format.
    pub fn bits(&self, width: Width) -> Option<u64> {
        match self {
            Value::Decimal(text) => decimal(text, width),
            Value::Pattern(_, 0) => Some(0),
            Value::Pattern(own, bits) => Some(*bits).filter(|_| *own == width),
        }
    }

    /// Whether the two are one number, in a format in which both are known.
    pub fn is_same(&self, other: &Value) -> bool {
        let width = match (self, other) {
            (Value::Pattern(width, _), _) | (_, Value::Pattern(width, _)) => *width,
            _ => Width::Double,
        };
        let bits = self.bits(width);
        bits.is_some() && bits == other.bits(width)
    }

    pub fn negated(&self) -> Value {
        match self {
            Value::Decimal(text) => Value::Decimal(match text.strip_prefix('-') {
                Some(size) => size.to_string(),
                None => format!("-{text}"),
            }),
            Value::Pattern(width, bits) => Value::Pattern(*width, bits ^ width.sign_bit()),
        }
    }
}

impl std::fmt::Display for Value {
    fn fmt(&self, f: &mut std::fmt::Formatter) -> std::fmt::Result {
        match self {
            Value::Decimal(text) => write!(f, "{text}"),
            Value::Pattern(Width::Double, bits) => write!(f, "{bits:#018X}"),
            Value::Pattern(Width::Single, bits) => write!(f, "{bits:#010X}"),
        }
    }
}

fn decimal(text: &str, width: Width) -> Option<u64> {
    match width {
        Width::Double => text.parse::<f64>().ok().map(f64::to_bits),
        Width::Single => text.parse::<f32>().ok().map(|x| u64::from(x.to_bits())),
    }
}

/// The pattern that a comment beside a constant begins with, in one of the Rust's forms: 0x3FEB0AC1,
/// 0x60000000; 3fe62e42 fee00000; 0x3fe2b803_40000000; 0x3f58560b; -0xb55215.0p-32.
pub fn pattern_in(comment: &str, width: Width) -> Option<u64> {
    let comment = comment.trim();
    let (sign, text) = match comment.strip_prefix('-') {
        Some(rest) => (width.sign_bit(), rest),
        None => (0, comment),
    };
    let (digits, rest) = hex_digits(text)?;
    if let Some(exponent) = rest.strip_prefix(".0p") {
        let size = u64::from_str_radix(&digits, 16).ok()?;
        return Some(sign + scaled(size, leading_number(exponent)?, width)?);
    }
    let all = match (width, digits.len()) {
        (Width::Double, 16) | (Width::Single, 8) => digits,
        (Width::Double, 8) => digits + &hex_digits(rest.trim_start_matches([',', ' ']))?.0,
        _ => return None,
    };
    u64::from_str_radix(&all, 16).ok().filter(|_| sign == 0)
}

/// Hexadecimal digits at the front, with or without 0x and _, and what follows.
fn hex_digits(text: &str) -> Option<(String, &str)> {
    let text = text.strip_prefix("0x").unwrap_or(text);
    let end = text
        .find(|c: char| !c.is_ascii_hexdigit() && c != '_')
        .unwrap_or(text.len());
    let digits = text[..end].replace('_', "");
    Some((digits, &text[end..])).filter(|(digits, _)| digits.len() >= 6)
}

fn leading_number(text: &str) -> Option<i32> {
    let end = text[1..]
        .find(|c: char| !c.is_ascii_digit())
        .map_or(text.len(), |at| at + 1);
    text[..end].parse().ok()
}

/// The pattern of size * 2^exponent, which the format holds.
fn scaled(size: u64, exponent: i32, width: Width) -> Option<u64> {
    let x = size as f64 * 2f64.powi(exponent);
    let bits = Value::Decimal(format!("{x:e}")).bits(width)?;
    let back = match width {
        Width::Double => f64::from_bits(bits),
        Width::Single => f64::from(f32::from_bits(bits as u32)),
    };
    Some(bits).filter(|_| back == x)
}

#[cfg(test)]
mod tests {
    use super::*;

    #[test]
    fn forms_of_a_pattern() {
        let double = |text| pattern_in(text, Width::Double);
        let single = |text| pattern_in(text, Width::Single);
        assert_eq!(
            double(" 0x3FEB0AC1, 0x60000000 "),
            Some(0x3FEB_0AC1_6000_0000)
        );
        assert_eq!(double("3fe62e42 fee00000"), Some(0x3FE6_2E42_FEE0_0000));
        assert_eq!(
            double(" 0x3feec709_dc3a03fd =2/(3ln2) "),
            Some(0x3FEE_C709_DC3A_03FD)
        );
        assert_eq!(
            double(" -0x15555554cbac77.0p-55 "),
            Some(0xBFC5_5555_54CB_AC77)
        );
        assert_eq!(single(" 0x3f58560b "), Some(0x3F58_560B));
        assert_eq!(single(" -0xb55215.0p-32 "), Some(0xBB35_5215));
        assert_eq!(double(" -(1024-log2(ovfl+.5ulp)) "), None);
        assert_eq!(double(" 0x3f58560b "), None);
        assert_eq!(single(" parallel comp "), None);
    }

    #[test]
    fn a_literal_is_rounded_once() {
        let third = Value::Decimal("0.3333333333333333333333".to_string());
        assert_eq!(third.bits(Width::Double), Some(0x3FD5_5555_5555_5555));
        assert_eq!(third.bits(Width::Single), Some(0x3EAA_AAAB));
        let below = Value::Pattern(Width::Double, 0x3FD5_5555_5555_5554);
        assert!(!third.is_same(&below));
        assert!(third.is_same(&Value::Pattern(Width::Single, 0x3EAA_AAAB)));
        assert!(!Value::Decimal("-0.0".to_string()).is_same(&Value::Decimal("0.0".to_string())));
    }
}
