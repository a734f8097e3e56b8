//! The constants agree, and one that is changed is found.

use super::ported::MASKS;
use super::*;
use crate::patterns::Width;

fn group() -> Group {
    Group {
        rust: &["f.rs"],
        specs: &["F.antt"],
        lent: &[],
        code: &["f.rt"],
    }
}

const RUST: &str = "const A0: f64 = 0.1;
const A1: f64 = -0.2; /* 0xBFC99999, 0x9999999A */
const TC: f64 = 1.5e0;
pub fn f(x: f64) -> f64 {
    if ix >= 0x3FEB0000 { return 2.0 * x; }
    TC + A0 + x * A1
}
";

const SPECS: &str = "abbrev pub A : List Float
A = bits 0x3FB999999999999A ∷ bits 0xBFC999999999999A ∷ []  -- A0 0.1, A1 -0.2

abbrev pub TC : Float
TC = bits 0x3FF8000000000000

fS x = if ix ≥? 0x3FEB0000 then bits 0x4000000000000000 ⊗ x else TC
";

const CODE: &str = "const A: [f64; 2] = [0.1, -0.2];
const TC: f64 = 1.5e0;
pub fn f(x: f64) -> f64 { if ix >= 0x3feb_0000 { return 2.0 * x; } TC + horner(&A, x) }
";

/// How many differ.
fn differ(rust: &str, specs: &str, code: &str) -> u64 {
    let (rust, mut tally) = (code::read(rust), Tally::default());
    let mut both = Comparison {
        group: &group(),
        rust: &rust,
        tally: &mut tally,
    };
    both.own_comments();
    both.definitions(&[("F.antt", specs::read(specs))], &[]);
    both.code(&[("f.rt", code::read(code))]);
    assert!(tally.compared > 20);
    tally.differ
}

#[test]
fn alike() {
    assert_eq!(differ(RUST, SPECS, CODE), 0);
}

#[test]
fn a_changed_definition_is_found() {
    for (old, new) in [
        ("0x3FB999999999999A", "0x3FB999999999999B"),
        ("0x3FF8000000000000", "0x3FF8000000000001"),
        ("0x3FEB0000", "0x3FEB0001"),
        ("0x4000000000000000", "0x4000000000000001"),
        ("A0 0.1", "A0 0.10000000000000002"),
        ("A0 0.1", "TC 0.1"),
        // two exchanged, one left out, one too many
        (
            "bits 0x3FB999999999999A ∷ bits 0xBFC999999999999A",
            "bits 0xBFC999999999999A ∷ bits 0x3FB999999999999A",
        ),
        ("bits 0x3FB999999999999A ∷ ", ""),
        ("∷ []", "∷ bits 0x4000000000000000 ∷ []"),
        ("TC = ", "TD = "),
        ("0x3FF8000000000000", "0x3FF800000000000"),
    ] {
        assert!(SPECS.contains(old));
        assert!(
            differ(RUST, &SPECS.replace(old, new), CODE) > 0,
            "{old} to {new}"
        );
    }
}

#[test]
fn a_changed_rust_or_code_is_found() {
    for (old, new) in [
        (
            "const A0: f64 = 0.1;",
            "const A0: f64 = 0.1000000000000001;",
        ),
        ("0x9999999A */", "0x9999999B */"),
        ("return 2.0 * x", "return 3.0 * x"),
        ("0x3FEB0000", "0x3FEC0000"),
        ("TC + A0", "TC + 7.0 + A0"),
        ("const TC", "const TD"),
        ("const TC: f64", "const TC: f32"),
    ] {
        assert!(RUST.contains(old));
        assert!(
            differ(&RUST.replace(old, new), SPECS, CODE) > 0,
            "{old} to {new}"
        );
    }
    for (old, new) in [
        ("0.1,", "0.1000000000000001,"),
        ("1.5e0", "1.6"),
        ("2.0 * x", "4.0 * x"),
    ] {
        assert!(CODE.contains(old));
        assert!(
            differ(RUST, SPECS, &CODE.replace(old, new)) > 0,
            "{old} to {new}"
        );
    }
}

#[test]
fn the_repository_agrees_with_the_rust() {
    let repository = Path::new(env!("CARGO_MANIFEST_DIR")).parent().unwrap();
    let mut tally = Tally::default();
    let found = compare(Path::new(env!("LIBM_DIR")), repository, &mut tally).unwrap();
    assert_eq!(tally.differ, 0);
    assert_eq!((found.constants, found.without_pattern), (367, 62));
    assert!(found.patterns > 400);
}

/// Every number of every definition, with another last digit, is found.
#[test]
fn no_changed_digit_is_missed() {
    let repository = Path::new(env!("CARGO_MANIFEST_DIR")).parent().unwrap();
    let mut tried = 0;
    for group in GROUPS {
        let rust = read_rust(Path::new(env!("LIBM_DIR")), group).unwrap();
        let lent = read_all(repository, group.lent, specs::read).unwrap();
        for (at, file) in group.specs.iter().enumerate() {
            let whole = text(&repository.join("crates").join(file)).unwrap();
            for place in ends_of_numbers(&whole) {
                let changed = if &whole[place..=place] == "7" {
                    "8"
                } else {
                    "7"
                };
                let changed = format!("{}{changed}{}", &whole[..place], &whole[place + 1..]);
                let mut specs = read_all(repository, group.specs, specs::read).unwrap();
                specs[at].1 = specs::read(&changed);
                let mut tally = Tally::default();
                let mut both = Comparison {
                    group,
                    rust: &rust,
                    tally: &mut tally,
                };
                both.definitions(&specs, &lent);
                assert!(tally.differ > 0, "{file}: byte {place}");
                tried += 1;
            }
        }
    }
    assert!(tried > 500);
}

/// Where the last digits of hexadecimal numbers stand, but for those in comments.
fn ends_of_numbers(text: &str) -> Vec<usize> {
    let (mut ends, mut line_start) = (Vec::new(), 0);
    for line in text.split_inclusive('\n') {
        let code = line.split("--").next().unwrap();
        for (at, _) in code.match_indices("0x") {
            let digits = code[at + 2..].find(|c: char| !c.is_ascii_hexdigit());
            ends.push(line_start + at + 1 + digits.unwrap_or(code.len() - at - 2));
        }
        line_start += line.len();
    }
    ends
}

/// What the Rust tests a size for, the comparison asks about on both sides.
#[test]
fn every_tested_word_is_a_cut() {
    for group in GROUPS.iter().filter(|g| g.rust != ["pow.rs"]) {
        let rust = read_rust(Path::new(env!("LIBM_DIR")), group).unwrap();
        let width = rust.constants[0].width;
        let mut cuts = width.cuts();
        cuts.extend(width.specials());
        for (line, word) in rust.words {
            let is_size = word >= 1 << 20 && !MASKS.contains(&word);
            let cut = match width {
                Width::Double => word << 32,
                Width::Single => word,
            };
            let file = group.rust[0];
            assert!(cuts.contains(&cut) || !is_size, "{file}:{line}: {word:#x}");
        }
    }
}
