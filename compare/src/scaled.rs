//! A recording and the same one louder or softer: each sample is the other's times 2^k, exactly, with
//! one sign for all.

use crate::ffi::{self, Over};
use crate::inputs::Random;
use crate::places::Places;
use crate::recordings::HOP;

/// Below this level a recording is silence.
const LEAST: f64 = 1e-9;

/// The levels and the floor that the library gives for samples.
pub struct Heard {
    pub levels: Vec<f64>,
    pub floor: f64,
    pub count: usize,
}

impl Heard {
    pub fn new(samples: &[f32]) -> Heard {
        let mut levels = Places::new(samples.len() / HOP);
        let answer = ffi::envelope(samples, &mut levels);
        assert_eq!(answer.refusal, 0, "an envelope refused");
        let levels = levels.held().iter().copied().map(f64::from_bits).collect();
        let (floor, count) = (answer.floor, samples.len());
        Heard {
            levels,
            floor,
            count,
        }
    }

    pub fn over(&self) -> Over<'_> {
        Over {
            levels: &self.levels,
            floor: self.floor,
            count: self.count,
        }
    }

    fn reaches(&self) -> bool {
        reaches(&self.levels)
    }
}

/// Whether there is no frame, or a level reaches 1e-9.
pub fn reaches(levels: &[f64]) -> bool {
    levels.is_empty() || levels.iter().any(|&level| level >= LEAST)
}

/// Both recordings as they are heard, and what the second one is of the first.
pub struct Scaled {
    pub one: Heard,
    pub other: Heard,
    pub power: i32,
    pub turned: bool,
    /// Whether a sample of the second one is subnormal.
    pub subnormal: bool,
}

/// The samples times 2^power, or none where one of them isn't exact. Either zero stands for a zero.
pub fn times(samples: &[f32], power: i32, turned: bool, random: &mut Random) -> Option<Vec<f32>> {
    let sign = if turned { -1.0 } else { 1.0 };
    let by = sign * 2f64.powi(power);
    let zeros = random.bits();
    let scale = |(at, &sample): (usize, &f32)| {
        if sample == 0.0 {
            return Some(if zeros >> (at % 64) & 1 == 0 {
                0.0
            } else {
                -0.0
            });
        }
        let exact = f64::from(sample) * by;
        let scaled = exact as f32;
        (sample.is_nan() || f64::from(scaled) == exact).then_some(scaled)
    };
    samples.iter().enumerate().map(scale).collect()
}

impl Scaled {
    /// The samples times a power of two that is drawn, as far as that is exact and both recordings
    /// reach 1e-9; else the samples with one sign.
    pub fn random(samples: &[f32], random: &mut Random) -> Scaled {
        let one = Heard::new(samples);
        let turned = random.below(2) == 0;
        let most = random.of(&[3, 20, 40, 150]);
        let mut power = random.around(most) as i32;
        loop {
            if let Some(scaled) = times(samples, power, turned, random) {
                let other = Heard::new(&scaled);
                if power == 0 || one.reaches() && other.reaches() {
                    let subnormal = scaled.iter().any(|sample| sample.is_subnormal());
                    return Scaled {
                        one,
                        other,
                        power,
                        turned,
                        subnormal,
                    };
                }
            }
            power /= 2;
        }
    }
}
