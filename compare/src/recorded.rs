//! Short recordings under words: frames of loud and quiet samples, with the levels that the Rust
//! gives.

use crate::inputs::Random;
use crate::recordings::HOP;
use crate::sounds::{Sound, paused};
use crate::transcript::envelope::envelope;

/// Samples, and their levels and floor.
pub struct Recorded {
    pub sound: Sound,
    pub samples: Vec<f32>,
}

/// How loud a recording is: as they occur, around the 1e-9 below which it is silence, at both ends
/// of what samples can be.
const SCALES: [f32; 12] = [
    0.5, 0.5, 0.5, 0.5, 0.25, 0.8, 1.0, 3e4, 1e-9, 9e-10, 1e-42, 3e38,
];

/// What a loud frame has of that, and what a quiet one has: from about the floor down.
const LOUD: [f32; 6] = [1.0, 1.0, 1.0, 0.7, 0.3, 0.0101];
const QUIET: [f32; 6] = [0.0, -0.0, 0.001, 0.0099, 0.01, 0.005];

/// Frames: few, or up to 400.
fn frames(random: &mut Random) -> usize {
    let most = random.of(&[4, 40, 80, 120, 120, 160, 200, 400]);
    random.below(most + 1) as usize
}

/// The samples of a frame: all alike, of one size and either sign, or of any size up to one.
fn frame(samples: &mut Vec<f32>, size: f32, is_noise: bool, random: &mut Random) {
    let signed = |bits: u64| if bits & 1 == 0 { size } else { -size };
    if is_noise {
        let noise = |bits: u64| (bits as i32) as f32 / 2_147_483_648.0 * size;
        samples.extend((0..HOP).map(|_| noise(random.bits())));
    } else {
        let bits = random.bits();
        let turns = if bits & 2 == 0 { 1 } else { 0 };
        samples.extend((0..HOP as u64).map(|at| signed(bits ^ (at & turns))));
    }
}

impl Recorded {
    /// A recording of the frames that are to be loud, and some samples past the last.
    pub fn new(loud: Vec<bool>, random: &mut Random) -> Recorded {
        let mut samples = Vec::with_capacity((loud.len() + 1) * HOP);
        let scale = random.of(&SCALES);
        let is_noise = random.below(16) == 0;
        for &is_loud in &loud {
            let part = random.of(if is_loud { &LOUD } else { &QUIET });
            frame(&mut samples, scale * part, is_noise, random);
        }
        let any = random.below(HOP as u64) as usize;
        let tail = random.of(&[0, 0, HOP - 1, any]);
        samples.extend(std::iter::repeat_n(scale, tail));
        Recorded::of(loud, samples)
    }

    /// These samples, with their levels.
    fn of(loud: Vec<bool>, samples: Vec<f32>) -> Recorded {
        let sound = Sound {
            kind: "recorded",
            loud,
            levels: envelope(&samples),
            count: samples.len(),
        };
        Recorded { sound, samples }
    }

    /// These samples, whose loud frames are those that the Rust finds.
    pub fn heard(samples: Vec<f32>) -> Recorded {
        let heard = envelope(&samples);
        let loud = (0..heard.frames()).map(|frame| heard.loud(frame));
        Recorded::of(loud.collect(), samples)
    }

    /// A recording with pauses, or, seldom, all loud, all quiet, or with a NaN or an infinity.
    pub fn random(random: &mut Random) -> Recorded {
        let frames = frames(random);
        let loud = match random.below(32) {
            0 => vec![true; frames],
            1 => vec![false; frames],
            _ => paused(frames, random),
        };
        let Recorded { sound, mut samples } = Recorded::new(loud, random);
        if random.below(32) == 0 && !samples.is_empty() {
            let at = random.below(samples.len() as u64) as usize;
            samples[at] = random.of(&[f32::NAN, f32::INFINITY, f32::NEG_INFINITY]);
            return Recorded::of(sound.loud, samples);
        }
        Recorded { sound, samples }
    }
}
