//! Recordings: kinds of sound, and the lengths at which some rule changes.

use crate::inputs::Random;

/// Samples in a frame.
pub const HOP: usize = 160;
/// The most frames in one piece.
pub const MAX_FRAMES: usize = 2000;
/// The most samples that are taken.
pub const MAX_SAMPLES: usize = 57_600_000;
/// The most frames of a recording that is drawn.
const LONGEST: usize = 6100;

/// A recording: the name of its kind, and its samples.
pub struct Recording {
    pub kind: &'static str,
    pub samples: Vec<f32>,
}

/// What a kind gives for a part of a recording: a sample from 64 random bits, with a scale that is
/// drawn for that part.
struct Kind {
    name: &'static str,
    scale: fn(&mut Random) -> f32,
    sample: fn(u64, f32) -> f32,
}

const KINDS: &[Kind] = &[
    Kind {
        name: "bursts and pauses",
        scale: loudness,
        sample: noise,
    },
    Kind {
        name: "noise",
        scale: |_| 0.25,
        sample: noise,
    },
    Kind {
        name: "16-bit noise",
        scale: |_| 32_768.0,
        sample: |bits, scale| (bits as i16) as f32 / scale,
    },
    Kind {
        name: "silence",
        scale: |_| 0.0,
        sample: |bits, scale| signed(bits, scale),
    },
    Kind {
        name: "constant levels",
        scale: loudness,
        sample: signed,
    },
    Kind {
        name: "subnormals",
        scale: |_| 0.0,
        sample: |bits, _| f32::from_bits(bits as u32 & 0x807F_FFFF),
    },
    Kind {
        name: "hardly any sound",
        scale: |_| 1e-9,
        sample: noise,
    },
    Kind {
        name: "very large",
        scale: |_| f32::MAX,
        sample: noise,
    },
    Kind {
        name: "any size",
        scale: |_| 0.0,
        sample: |bits, _| finite(bits as u32),
    },
    Kind {
        name: "any bits",
        scale: |_| 0.0,
        sample: |bits, _| f32::from_bits(bits as u32),
    },
    Kind {
        name: "some NaN",
        scale: |_| 0.25,
        sample: |bits, scale| rarely(bits, f32::NAN, scale),
    },
    Kind {
        name: "some infinities",
        scale: |_| 0.25,
        sample: |bits, scale| rarely(bits, f32::INFINITY, scale),
    },
];

/// From -scale to scale.
fn noise(bits: u64, scale: f32) -> f32 {
    (bits as i32) as f32 / 2_147_483_648.0 * scale
}

/// The scale, of either sign.
fn signed(bits: u64, scale: f32) -> f32 {
    if bits & 1 == 0 { scale } else { -scale }
}

/// Any number that is finite: the largest exponent becomes the one below.
fn finite(bits: u32) -> f32 {
    let x = f32::from_bits(bits);
    if x.is_finite() {
        x
    } else {
        f32::from_bits(bits ^ 0x0080_0000)
    }
}

/// Noise, and once in some 6,000 samples another, of either sign.
fn rarely(bits: u64, other: f32, scale: f32) -> f32 {
    if bits >> 48 < 11 {
        signed(bits, other)
    } else {
        noise(bits, scale)
    }
}

/// Loud, or quiet enough to lie below the floor, or between.
fn loudness(random: &mut Random) -> f32 {
    let loud = random.of(&[0.8, 0.5, 0.3, 0.1]);
    loud * random.of(&[1.0, 1.0, 1.0, 0.01, 0.01, 0.009, 0.001, 0.0])
}

impl Kind {
    /// A recording of so many samples, in parts of up to 60 frames, or of 9.
    fn record(&self, random: &mut Random, length: usize) -> Recording {
        let mut samples = Vec::with_capacity(length);
        while samples.len() < length {
            let frames = random.of(&[9, 60]);
            let part = 1 + random.below(frames * HOP as u64) as usize;
            let scale = (self.scale)(random);
            let draw = || (self.sample)(random.bits(), scale);
            samples.extend(std::iter::repeat_with(draw).take(part.min(length - samples.len())));
        }
        let kind = self.name;
        Recording { kind, samples }
    }
}

/// Frames: few, some, or around the ends of the pieces.
fn frames(random: &mut Random) -> usize {
    let frames = match random.below(4) {
        0 => random.below(40),
        1 => random.below(MAX_FRAMES as u64),
        2 => random.below(LONGEST as u64),
        _ => (1 + random.below(3)) * MAX_FRAMES as u64 + random.below(5) - 2,
    };
    frames as usize
}

/// Samples past the last frame: none, one, all but one that a frame needs, or any number.
fn tail(random: &mut Random) -> usize {
    let any = random.below(HOP as u64) as usize;
    random.of(&[0, 1, HOP - 1, any])
}

/// A recording of any kind and length.
pub fn random(random: &mut Random) -> Recording {
    let kind = &KINDS[random.below(KINDS.len() as u64) as usize];
    let length = frames(random) * HOP + tail(random);
    kind.record(random, length)
}

/// The lengths that are always compared: around the first multiples of 160, and around those of
/// 2,000 frames.
fn lengths() -> impl Iterator<Item = usize> {
    let near = |frames: usize| frames.saturating_sub(1)..=frames + 1;
    let frames = (0..20).chain((1..=3).flat_map(move |n| near(n * MAX_FRAMES)));
    frames.flat_map(|frames| [0, 1, HOP - 1].map(|tail| frames * HOP + tail))
}

/// The recordings that are always compared: every kind at every such length.
pub fn limits(random: &mut Random) -> impl Iterator<Item = Recording> {
    let all = lengths().flat_map(|length| KINDS.iter().map(move |kind| (kind, length)));
    all.map(|(kind, length)| kind.record(random, length))
}
