//! Which file of the Rust is ported where.

/// Files of the Rust (src/math), the definitions that say what they say, and the code that does it.
pub struct Group {
    pub rust: &'static [&'static str],
    pub specs: &'static [&'static str],
    /// Definitions of other groups whose constants these use.
    pub lent: &'static [&'static str],
    pub code: &'static [&'static str],
}

pub const GROUPS: &[Group] = &[
    Group {
        rust: &["tgamma.rs"],
        specs: &[
            "tgamma/specs/Tgamma.antt",
            "tgamma/specs/Lanczos.antt",
            "sinpi/specs/Sinpi.antt",
        ],
        lent: &[],
        code: &[
            "tgamma/src/lib.rt",
            "tgamma/src/lanczos.rt",
            "sinpi/src/lib.rt",
        ],
    },
    Group {
        rust: &["lgamma_r.rs"],
        specs: &["lgamma/specs/Lgamma64.antt", "sinpi/specs/Sinpi.antt"],
        lent: &[],
        code: &[
            "lgamma/src/double.rt",
            "words/src/real.rt",
            "sinpi/src/lib.rt",
        ],
    },
    Group {
        rust: &["lgammaf_r.rs"],
        specs: &["lgammaf/specs/Lgammaf.antt", "sinpi/specs/Sinpif.antt"],
        lent: &["sinpi/specs/Sinpi.antt"],
        code: &[
            "lgammaf/src/single.rt",
            "words/src/real.rt",
            "sinpi/src/single.rt",
        ],
    },
    Group {
        rust: &["erf.rs"],
        specs: &["erf/specs/Erf64.antt"],
        lent: &[],
        code: &["erf/src/lib.rt"],
    },
    Group {
        rust: &["erff.rs"],
        specs: &["erff/specs/Erff.antt"],
        lent: &[],
        code: &["erff/src/lib.rt"],
    },
    Group {
        rust: &["exp.rs"],
        specs: &["exp/specs/Exp.antt"],
        lent: &[],
        code: &["exp/src/lib.rt", "words/src/real.rt"],
    },
    Group {
        rust: &["expf.rs"],
        specs: &["exp/specs/Expf.antt"],
        lent: &[],
        code: &["exp/src/single.rt", "words/src/real.rt"],
    },
    Group {
        rust: &["log.rs"],
        specs: &["logarithm/specs/Log.antt"],
        lent: &[],
        code: &["logarithm/src/lib.rt", "words/src/real.rt"],
    },
    Group {
        rust: &["logf.rs"],
        specs: &["logarithm/specs/Logf.antt"],
        lent: &[],
        code: &["logarithm/src/single.rt", "words/src/real.rt"],
    },
    Group {
        rust: &["pow.rs"],
        specs: &[
            "pow/specs/Pow.antt",
            "pow_exp/specs/Exp2.antt",
            "pow_log/specs/Log2.antt",
        ],
        lent: &[],
        code: &["pow/src/lib.rt", "pow_exp/src/lib.rt", "pow_log/src/lib.rt"],
    },
    Group {
        rust: &["k_sin.rs", "k_cos.rs"],
        specs: &["trig/specs/KSin.antt", "trig/specs/KCos.antt"],
        lent: &[],
        code: &["trig/src/lib.rt"],
    },
    Group {
        rust: &["k_sinf.rs", "k_cosf.rs"],
        specs: &["trig/specs/KSinf.antt", "trig/specs/KCosf.antt"],
        lent: &[],
        code: &["trig/src/single.rt"],
    },
];

/// Where the literals that several definitions write have their names.
pub const LITERALS: [&str; 2] = ["words/specs/F64.antt", "words/specs/F32.antt"];

/// Lists of the Rust whose numbers are plain literals in the port.
pub const BY_VALUE: [&str; 3] = ["HALF", "BP", "FACT"];

/// Literals of code that takes a step otherwise, and the Rust's literal that it does without. sinpi goes by tests
/// of t = x mod 2, where the Rust cuts 4 t to a whole number, and takes n / 2 for each n; that both are one
/// is proved.
pub struct Step {
    pub code: &'static str,
    pub own: &'static [&'static str],
    pub without: &'static str,
}

const QUARTERS: [&str; 5] = ["0.25", "0.75", "1.25", "1.75", "1.5"];

pub const STEPS: [Step; 2] = [
    Step {
        code: "sinpi/src/lib.rt",
        own: &QUARTERS,
        without: "4.0",
    },
    Step {
        code: "sinpi/src/single.rt",
        own: &QUARTERS,
        without: "4.0",
    },
];

/// Masks of the lowest or the highest bits: a definition has a remainder or a quotient by a power of 2.
pub const MASKS: [u64; 5] = [
    0x000f_ffff,
    0x007f_ffff,
    0x7fff_ffff,
    0xffff_ffff,
    0xffff_e000,
];

/// A word that stands otherwise in a definition. Where the Rust has none it is the definition's own.
pub struct Otherwise {
    pub rust: Option<u64>,
    pub here: u64,
}

pub const SAID_OTHERWISE: [Otherwise; 2] = [
    // expf.rs: `hx > 0x3f851592` is hx from the next word on
    Otherwise {
        rust: Some(0x3f85_1592),
        here: 0x3f85_1593,
    },
    // pow.rs: `k + 1` with k = (i >> 20) - 0x3ff is i / 2 ^ 20 less 0x3FE
    Otherwise {
        rust: None,
        here: 0x3fe,
    },
];
