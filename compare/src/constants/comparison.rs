//! One group of files: the Rust, the definitions and the code, each constant of the one in the others.

use super::code::Code;
use super::lists::{Place, Places};
use super::ported::{Group, Otherwise, BY_VALUE, MASKS, SAID_OTHERWISE, STEPS};
use super::specs::{self, Definition, Item, Specs};
use super::value::Value;
use crate::tally::Tally;

/// The Rust of one group, and what is compared with it.
pub struct Comparison<'a> {
    pub group: &'a Group,
    pub rust: &'a Code,
    pub tally: &'a mut Tally,
}

impl Comparison<'_> {
    fn rust_names(&self) -> String {
        self.group.rust.join(" and ")
    }

    /// The patterns in the Rust's own comments are those of its literals.
    pub fn own_comments(&mut self) {
        for constant in &self.rust.constants {
            for (value, beside) in constant.values.iter().zip(&constant.beside) {
                let Some(bits) = beside else { continue };
                let is_same = value.bits(constant.width) == Some(*bits);
                let (name, files) = (&constant.name, self.rust_names());
                self.tally.count(is_same, || {
                    format!("{files}: {name} is {value}, and the comment beside it says {bits:#X}")
                });
            }
        }
    }

    fn is_literal(&self, value: &Value) -> bool {
        let by_value = |name: &str| BY_VALUE.contains(&name);
        let lists = self.rust.constants.iter().filter(|c| by_value(&c.name));
        let listed = lists.flat_map(|c| &c.values);
        let literals = self.rust.literals.iter().map(|(_, literal)| literal);
        literals.chain(listed).any(|literal| literal.is_same(value))
    }

    /// The definitions have what the Rust has, and nothing else. What is lent to them counts too where
    /// something of the Rust is looked for.
    pub fn definitions(&mut self, specs: &[(&'static str, Specs)], lent: &[(&'static str, Specs)]) {
        let mut places = Places::new(self.rust);
        let names = all_names(specs);
        for (file, specs) in specs {
            for definition in &specs.definitions {
                let values: Vec<Value> = definition.items.iter().map(|i| i.value.clone()).collect();
                let wanted = places.of(&definition.name, &values, &names);
                self.definition(file, definition, wanted);
            }
            for (line, word) in &specs.odd {
                self.tally.count(false, || {
                    format!("{file}:{line}: {word} has neither 16 nor 8 digits")
                });
            }
        }
        let all = items(specs).chain(items(lent));
        let values: Vec<&Value> = all.map(|item| &item.value).collect();
        self.all_found(&places, &values, self.group.specs);
        self.words(specs);
        self.counts(specs);
    }

    fn definition(&mut self, file: &str, definition: &Definition, wanted: Option<Vec<Place>>) {
        let name = &definition.name;
        literal(file, definition, self.tally);
        if let Some(places) = &wanted {
            let is_same = places.len() == definition.items.len();
            self.tally.count(is_same, || {
                let (line, has) = (definition.line, definition.items.len());
                format!(
                    "{file}:{line}: {name} has {has} numbers, and the Rust {}",
                    places.len()
                )
            });
        }
        for (at, item) in definition.items.iter().enumerate() {
            let place = wanted.as_ref().and_then(|places| places.get(at));
            self.item(file, name, item, place);
            self.comment(file, item, place);
        }
    }

    fn item(&mut self, file: &str, name: &str, item: &Item, place: Option<&Place>) {
        let (line, value) = (item.line, &item.value);
        match place {
            Some(place) => self.tally.count(place.value.is_same(value), || {
                format!("{file}:{line}: {name} has {value}, and the Rust's {place}")
            }),
            None => {
                let is_known = self.is_literal(value) || is_own_step(file, value);
                let files = self.rust_names();
                self.tally.count(is_known, || {
                    format!("{file}:{line}: {value} in {name} is nothing that {files} has")
                });
            }
        }
    }

    /// What stands beside a pattern is its literal, and the name of the constant that it is.
    fn comment(&mut self, file: &str, item: &Item, place: Option<&Place>) {
        let Some(literal) = &item.literal else { return };
        let (line, value) = (item.line, &item.value);
        self.tally.count(literal.is_same(value), || {
            format!("{file}:{line}: the comment says {literal}, which is not {value}")
        });
        let Some(name) = &item.named else { return };
        let is_named = match place {
            Some(place) => place.is_named(name),
            None => self.is_named_literal(name, value),
        };
        self.tally.count(is_named, || match place {
            Some(place) => format!("{file}:{line}: the comment says {name}, and it is {place}"),
            None => format!("{file}:{line}: the Rust's {name} is not {value}"),
        });
    }

    /// Whether a name in one of the Rust's functions stands for a pattern.
    fn is_named_literal(&self, name: &str, value: &Value) -> bool {
        let mut named = self.rust.names.iter().filter(|(own, _)| own == name);
        named.any(|(_, literal)| literal.is_same(value))
    }

    /// Every constant of the Rust has a place that was looked at, and every literal stands somewhere.
    fn all_found(&mut self, places: &Places, values: &[&Value], files: &[&str]) {
        let rust = self.rust_names();
        let stands = |value: &Value| values.iter().any(|other| other.is_same(value));
        for (place, is_seen) in places.all() {
            let is_found = is_seen || BY_VALUE.contains(&place.list()) && stands(&place.value);
            self.tally.count(is_found, || {
                format!("{rust}: {place} is not in {}", files.join(", "))
            });
        }
        for (line, literal) in &self.rust.literals {
            self.tally
                .count(stands(literal) || is_left_out(files, literal), || {
                    format!(
                        "{rust}: {literal} in line {line} is not in {}",
                        files.join(", ")
                    )
                });
        }
    }

    /// The words of the Rust stand in the definitions, and no others do.
    fn words(&mut self, specs: &[(&'static str, Specs)]) {
        let rust = self.rust_names();
        let known: Vec<u64> = self.rust.words.iter().map(|w| w.1).collect();
        let all = specs.iter().flat_map(|(_, specs)| &specs.words);
        let all: Vec<u64> = all.map(|w| w.1).collect();
        for &(line, word) in &self.rust.words {
            let said = |s: &Otherwise| s.rust == Some(word) && all.contains(&s.here);
            let is_found = all.contains(&word) || SAID_OTHERWISE.iter().any(said);
            self.tally.count(is_found || MASKS.contains(&word), || {
                format!("{rust}: {word:#X} in line {line} is in none of its definitions")
            });
        }
        for (file, specs) in specs {
            for &(line, word) in &specs.words {
                let is_known = |w: Option<u64>| w.map_or(true, |w| known.contains(&w));
                let said = |s: &Otherwise| s.here == word && is_known(s.rust);
                let is_found = known.contains(&word) || SAID_OTHERWISE.iter().any(said);
                self.tally.count(is_found, || {
                    format!("{file}:{line}: {word:#X} is nothing that {rust} has")
                });
            }
        }
    }

    /// The whole numbers of the Rust stand in the definitions, or are the last place in a list.
    fn counts(&mut self, specs: &[(&'static str, Specs)]) {
        let rust = self.rust_names();
        let all = specs.iter().flat_map(|(_, specs)| &specs.counts);
        let lengths = self.rust.constants.iter().map(|c| c.values.len() as u64);
        let known: Vec<u64> = all.copied().chain(lengths.map(|n| n - 1)).collect();
        for &(line, count) in &self.rust.counts {
            self.tally.count(known.contains(&count), || {
                format!("{rust}: {count} in line {line} is in none of its definitions")
            });
        }
    }

    /// The code has the constants and the literals of the Rust.
    pub fn code(&mut self, files: &[(&'static str, Code)]) {
        let mut places = Places::new(self.rust);
        let constants = files.iter().flat_map(|(_, code)| &code.constants);
        let names: Vec<String> = constants.map(|c| c.name.clone()).collect();
        let mut values = Vec::new();
        for (file, code) in files {
            for constant in &code.constants {
                let numbers: Vec<Value> = constant.patterns();
                // one number under the name of such a list is a literal of the port's own
                let is_literal = !constant.is_list && BY_VALUE.contains(&constant.name.as_str());
                let wanted = match is_literal {
                    true => None,
                    false => places.of(&constant.name, &numbers, &names),
                };
                let is_same = wanted
                    .as_ref()
                    .map_or(true, |w| w.len() == constant.values.len());
                let (name, line) = (&constant.name, constant.line);
                self.tally.count(is_same, || {
                    format!("{file}:{line}: {name} has another length than the Rust's")
                });
                for (at, value) in numbers.into_iter().enumerate() {
                    let place = wanted.as_ref().and_then(|places| places.get(at));
                    self.item(file, name, &Item::plain(line, value.clone()), place);
                    values.push(value);
                }
            }
            for (line, literal) in &code.literals {
                let item = Item::plain(*line, literal.clone());
                self.item(file, "a function", &item, None);
                values.push(literal.clone());
            }
        }
        let values: Vec<&Value> = values.iter().collect();
        self.all_found(&places, &values, self.group.code);
    }
}

/// A definition or a field that has a literal for its name is that number, and its comment says so.
pub fn literal(file: &str, definition: &Definition, tally: &mut Tally) {
    let Some(literal) = specs::literal_name(&definition.name) else {
        return;
    };
    let values = definition.items.iter().map(|item| &item.value);
    let comments = definition.items.iter().filter_map(|i| i.literal.as_ref());
    for value in values.chain(comments) {
        tally.count(literal.is_same(value), || {
            format!("{file}:{}: {literal} is not {value}", definition.line)
        });
    }
}

fn all_names(specs: &[(&'static str, Specs)]) -> Vec<String> {
    let definitions = specs.iter().flat_map(|(_, specs)| &specs.definitions);
    definitions.map(|d| d.name.clone()).collect()
}

pub fn items<'a>(specs: &'a [(&'static str, Specs)]) -> impl Iterator<Item = &'a Item> {
    let definitions = specs.iter().flat_map(|(_, specs)| &specs.definitions);
    definitions.flat_map(|definition| &definition.items)
}

/// Whether a literal of the code belongs to a step that it takes otherwise than the Rust.
fn is_own_step(file: &str, value: &Value) -> bool {
    let own = STEPS.iter().filter(|step| step.code == file);
    own.flat_map(|step| step.own)
        .any(|text| Value::Decimal((*text).into()).is_same(value))
}

/// Whether the code of some files does without a literal of the Rust.
fn is_left_out(files: &[&str], literal: &Value) -> bool {
    let steps = STEPS.iter().filter(|step| files.contains(&step.code));
    steps
        .map(|step| Value::Decimal(step.without.into()))
        .any(|without| without.is_same(literal))
}
