//! The functions of numbers that are compared and timed: one entry each.

use crate::ffi::*;
use crate::inputs::{Random, frame_limits, limits};
use crate::js::{js_max, js_min, js_to_fixed};
use crate::report::{Case, Compared};
use crate::transcript::envelope::{frame_at, frame_ceil, frame_from_zero, frame_seconds};

/// A function of one or two numbers, ours and the Rust's, over the bits of each number.
pub struct Number {
    name: &'static str,
    takes: Takes,
    gives: Gives,
    ours: fn(u64, u64) -> u64,
    rust: fn(u64, u64) -> u64,
}

#[derive(PartialEq)]
enum Takes {
    One,
    Two,
    Frame,
}

#[derive(PartialEq)]
enum Gives {
    Double,
    Whole,
}

use Gives::{Double, Whole};
use Takes::{Frame, One, Two};

fn f(bits: u64) -> f64 {
    f64::from_bits(bits)
}

/// Every function of numbers.
pub const NUMBERS: &[Number] = &[
    Number {
        name: "js_min",
        takes: Two,
        gives: Double,
        ours: |a, b| qiluvrait_js_min(f(a), f(b)).to_bits(),
        rust: |a, b| js_min(f(a), f(b)).to_bits(),
    },
    Number {
        name: "js_max",
        takes: Two,
        gives: Double,
        ours: |a, b| qiluvrait_js_max(f(a), f(b)).to_bits(),
        rust: |a, b| js_max(f(a), f(b)).to_bits(),
    },
    Number {
        name: "js_to_fixed",
        takes: One,
        gives: Double,
        ours: |x, _| qiluvrait_js_to_fixed(f(x)).to_bits(),
        rust: |x, _| js_to_fixed(f(x), 3).to_bits(),
    },
    Number {
        name: "sqrt",
        takes: One,
        gives: Double,
        ours: |x, _| qiluvrait_sqrt(f(x)).to_bits(),
        rust: |x, _| f(x).sqrt().to_bits(),
    },
    Number {
        name: "frame_at",
        takes: One,
        gives: Whole,
        ours: |t, _| qiluvrait_frame_at(f(t)) as u64,
        rust: |t, _| frame_at(f(t)) as u64,
    },
    Number {
        name: "frame_ceil",
        takes: One,
        gives: Whole,
        ours: |t, _| qiluvrait_frame_ceil(f(t)) as u64,
        rust: |t, _| frame_ceil(f(t)) as u64,
    },
    Number {
        name: "frame_from_zero",
        takes: One,
        gives: Whole,
        ours: |t, _| qiluvrait_frame_from_zero(f(t)) as u64,
        rust: |t, _| frame_from_zero(f(t)) as u64,
    },
    Number {
        name: "frame_seconds",
        takes: Frame,
        gives: Double,
        ours: |k, _| qiluvrait_frame_seconds(k as i64).to_bits(),
        rust: |k, _| frame_seconds(k as i64).to_bits(),
    },
];

impl Number {
    /// What differs, in hexadecimal digits; nothing where both sides agree bit for bit, or are NaN.
    fn differs(&self, a: u64, b: u64) -> Option<String> {
        let (ours, rust) = ((self.ours)(a, b), (self.rust)(a, b));
        let both_nan = self.gives == Double && f(ours).is_nan() && f(rust).is_nan();
        if ours == rust || both_nan {
            return None;
        }
        let second = if self.takes == Two {
            format!(" {b:016X}")
        } else {
            String::new()
        };
        Some(format!(
            "{a:016X}{second}: ours {ours:016X}, the Rust's {rust:016X}"
        ))
    }

    fn case(&self, a: u64, b: u64) -> Case {
        Case::new(1, self.differs(a, b))
    }
}

impl Compared for Number {
    fn name(&self) -> &str {
        self.name
    }

    fn limits(&self) -> Vec<Case> {
        match self.takes {
            One => limits().iter().map(|&x| self.case(x, 0)).collect(),
            Frame => frame_limits().iter().map(|&k| self.case(k, 0)).collect(),
            Two => {
                let list = limits();
                let pairs = list.iter().flat_map(|&a| list.iter().map(move |&b| (a, b)));
                pairs.map(|(a, b)| self.case(a, b)).collect()
            }
        }
    }

    fn random(&self, random: &mut Random) -> Case {
        match self.takes {
            One => self.case(random.float(), 0),
            Frame => self.case(random.frame(), 0),
            Two => {
                let a = random.float();
                // one time in four the same magnitude, of either sign
                let same = random.below(4) == 0;
                let b = if same {
                    a ^ (random.below(2) << 63)
                } else {
                    random.float()
                };
                self.case(a, b)
            }
        }
    }
}
