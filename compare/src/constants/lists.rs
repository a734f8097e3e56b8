//! Where a constant of the Rust has its place in a definition: under its own name, or in a list.
//!
//! A `·` or `_` in a name makes no difference. `MINUS·X` is -X. A list X is X0, X1, .. of the Rust in this
//! order; X·even and X·odd have every second of them, X·0, X·1 and X·2 every third. It has no X0 where that
//! has a name of its own, and it begins with 1.0 where the Rust has no X0.

use super::code::{Code, Constant};
use super::value::Value;
use crate::patterns::Width;

/// A number of the Rust, with the constant's name and, in a list, its number.
#[derive(Clone, Debug)]
pub struct Place {
    name: String,
    at: Option<usize>,
    pub value: Value,
}

impl Place {
    /// The 1.0 before a list.
    fn one() -> Place {
        Place {
            name: "1.0".to_string(),
            at: None,
            value: Value::Decimal("1.0".to_string()),
        }
    }

    /// The constant that it is of.
    pub fn list(&self) -> &str {
        &self.name
    }

    /// Whether a comment's name is its own. The 1.0 before a list has none.
    pub fn is_named(&self, name: &str) -> bool {
        let own = match self.at {
            Some(at) => format!("{}[{at}]", self.name),
            None => self.name.clone(),
        };
        plain(&own) == plain(name) || self.at.is_some() && plain(&self.name) == plain(name)
    }
}

impl std::fmt::Display for Place {
    fn fmt(&self, f: &mut std::fmt::Formatter) -> std::fmt::Result {
        match self.at {
            Some(at) => write!(f, "{}[{at}] is {}", self.name, self.value),
            None => write!(f, "{} is {}", self.name, self.value),
        }
    }
}

/// The numbers of the Rust's constants, and which of them were looked for.
pub struct Places<'a> {
    constants: &'a [Constant],
    seen: Vec<bool>,
}

/// A name without what makes no difference.
fn plain(name: &str) -> String {
    name.chars().filter(|c| !"_·«»".contains(*c)).collect()
}

impl<'a> Places<'a> {
    pub fn new(rust: &'a Code) -> Places<'a> {
        let constants = &rust.constants;
        let seen = vec![false; constants.len()];
        Places { constants, seen }
    }

    /// Every number of every constant, and whether it was looked for.
    pub fn all(&self) -> impl Iterator<Item = (Place, bool)> + '_ {
        let both = self.constants.iter().zip(&self.seen);
        both.flat_map(|(constant, &seen)| numbers(constant).into_iter().map(move |p| (p, seen)))
    }

    /// What a definition of this name has to hold, where the name is one of the Rust's and the numbers are
    /// of its format. `names` are those of all definitions.
    pub fn of(&mut self, name: &str, numbers: &[Value], names: &[String]) -> Option<Vec<Place>> {
        let width = numbers.iter().find_map(|value| match value {
            Value::Pattern(width, _) => Some(*width),
            Value::Decimal(_) => None,
        });
        self.list(name, numbers.len(), names)
            .or_else(|| self.single(name, numbers.len(), width))
            .or_else(|| self.negated(name, width))
    }

    fn constant(&self, name: &str) -> Option<usize> {
        let name = plain(name);
        self.constants.iter().position(|c| plain(&c.name) == name)
    }

    /// A constant under its own name. One number stands for a list whose others are literals.
    fn single(&mut self, name: &str, length: usize, width: Option<Width>) -> Option<Vec<Place>> {
        let at = self.constant(name)?;
        let constant = &self.constants[at];
        if width.is_some_and(|width| width != constant.width) {
            return None;
        }
        self.seen[at] = true;
        let mut places = numbers(constant);
        if length == 1 {
            places.drain(..places.len() - 1);
        }
        Some(places)
    }

    fn negated(&mut self, name: &str, width: Option<Width>) -> Option<Vec<Place>> {
        let name = plain(name).strip_prefix("MINUS")?.to_string();
        let at = self.constant(&name)?;
        if self.constants[at].is_list {
            return None;
        }
        let mut places = self.single(&name, 1, width)?;
        for place in &mut places {
            place.value = place.value.negated();
            place.name = format!("-{}", place.name);
        }
        Some(places)
    }

    fn list(&mut self, name: &str, length: usize, names: &[String]) -> Option<Vec<Place>> {
        let (stem, first, step) = stem(name)?;
        let of = |number: usize| format!("{stem}{number}");
        let found = |number: usize| {
            self.constant(&of(number))
                .filter(|&at| !self.constants[at].is_list)
        };
        // a list may have no 0
        let numbered: Vec<usize> = (first..)
            .step_by(step)
            .take_while(|&number| number == 0 || found(number).is_some())
            .filter(|&number| !names.contains(&of(number)))
            .filter_map(found)
            .collect();
        if numbered.is_empty() {
            return None;
        }
        let mut places: Vec<Place> = numbered
            .iter()
            .flat_map(|&at| numbers(&self.constants[at]))
            .collect();
        if found(0).is_none() && step == 1 && length == places.len() + 1 {
            places.insert(0, Place::one());
        }
        for at in numbered {
            self.seen[at] = true;
        }
        Some(places)
    }
}

/// The stem of a list's name, the first number of what it has, and the step to the next.
fn stem(name: &str) -> Option<(&str, usize, usize)> {
    let name = name.trim_matches(['«', '»']);
    match name.rsplit_once(['·', '_']) {
        None => Some((name, 0, 1)),
        Some((stem, "even" | "EVEN")) => Some((stem, 0, 2)),
        Some((stem, "odd" | "ODD")) => Some((stem, 1, 2)),
        Some((stem, number @ ("0" | "1" | "2"))) => Some((stem, number.parse().ok()?, 3)),
        Some(_) => None,
    }
}

fn numbers(constant: &Constant) -> Vec<Place> {
    let place = |(at, value)| Place {
        name: constant.name.clone(),
        at: constant.is_list.then_some(at),
        value,
    };
    constant
        .patterns()
        .into_iter()
        .enumerate()
        .map(place)
        .collect()
}

#[cfg(test)]
mod tests {
    use super::super::code;
    use super::*;

    fn names(name: &str, length: usize, rust: &str, others: &[&str]) -> Option<Vec<String>> {
        let rust = code::read(rust);
        let others: Vec<String> = others.iter().map(|o| o.to_string()).collect();
        let numbers = vec![Value::Decimal("0.1".to_string()); length];
        let places = Places::new(&rust).of(name, &numbers, &others)?;
        Some(places.iter().map(|p| p.name.clone()).collect())
    }

    fn rust(names: &[&str]) -> String {
        names
            .iter()
            .map(|n| format!("const {n}: f64 = 0.1;\n"))
            .collect()
    }

    #[test]
    fn a_name_and_a_list() {
        let all = rust(&["LG2_H", "W0", "W1", "W2", "V1", "V2", "PI"]);
        let of = |name, length| names(name, length, &all, &["W0"]).unwrap();
        assert_eq!(of("LG2·H", 1), ["LG2_H"]);
        assert_eq!(of("W", 2), ["W1", "W2"]);
        assert_eq!(of("«V»", 3), ["1.0", "V1", "V2"]);
        assert_eq!(of("V", 2), ["V1", "V2"]);
        assert_eq!(of("MINUS·PI", 1), ["-PI"]);
        assert_eq!(names("one", 1, &all, &[]), None);
        assert_eq!(names("L", 1, &all, &[]), None);
    }

    #[test]
    fn every_second_and_every_third() {
        let all = rust(&["T0", "T1", "T2", "T3", "T4", "LG1", "LG2", "LG3", "LG4"]);
        let of = |name, length| names(name, length, &all, &[]).unwrap();
        assert_eq!(of("T·0", 2), ["T0", "T3"]);
        assert_eq!(of("T_1", 2), ["T1", "T4"]);
        assert_eq!(of("T·2", 1), ["T2"]);
        assert_eq!(of("LG·even", 2), ["LG2", "LG4"]);
        assert_eq!(of("LG_ODD", 2), ["LG1", "LG3"]);
    }
}
