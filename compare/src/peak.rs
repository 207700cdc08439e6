//! What is compared of peaks: the largest magnitude between two times, and the refusals.

use crate::ffi;
use crate::inputs::Random;
use crate::recordings::{self, MAX_SAMPLES, Recording};
use crate::report::{Case, Compared};
use crate::transcript::envelope::RATE;
use crate::transcript::transcriber::peak_between;

/// Ranges of one recording.
const RANGES: usize = 24;
/// Times are taken up to this one, of either sign.
const LAST: f64 = 7200.0;

pub struct Peak;

/// A time around the `at`th sample: its own, a neighbour's or one between.
fn time(at: i64, random: &mut Random) -> f64 {
    let between = random.of(&[0.0, 0.0, 0.5, -0.5, 1.0, -1.0]);
    let t = (at as f64 + between) / RATE;
    match random.below(4) {
        0 => t.next_up(),
        1 => t.next_down(),
        _ => t,
    }
}

/// A range: a word's, one at an end of the recording, an empty one, or the whole.
fn range(length: usize, random: &mut Random) -> (f64, f64) {
    let length = length as i64;
    let any = random.below(length as u64 + 1) as i64;
    let start = random.of(&[any, any, 0, length, -1, 0]);
    let span = random.below(16_000) as i64;
    let end = random.of(&[
        start + span,
        start + span,
        start,
        start - span,
        start + 1,
        length,
    ]);
    let (start, end) = (time(start, random), time(end, random));
    let start = random.of(&[
        start,
        start,
        start,
        start,
        0.0,
        -0.0,
        -f64::MIN_POSITIVE,
        LAST,
    ]);
    (
        start,
        random.of(&[end, end, end, end, end, 0.0, -LAST, LAST]),
    )
}

/// The two levels, where they differ.
fn differs(samples: &[f32], (start, end): (f64, f64)) -> Option<String> {
    let ours = ffi::peak(samples, start, end);
    let rust = peak_between(samples, start, end);
    let same = ours.level.to_bits() == rust.to_bits() || ours.level.is_nan() && rust.is_nan();
    if ours.refusal == 0 && same {
        return None;
    }
    let (refusal, ours, rust) = (ours.refusal, ours.level.to_bits(), rust.to_bits());
    Some(format!(
        "{start:?} to {end:?}: ours {refusal}, {ours:016X}, the Rust's {rust:016X}"
    ))
}

/// A call that has to be refused.
fn refused(samples: &[f32], (start, end): (f64, f64), refusal: u32) -> Option<String> {
    let ours = ffi::peak(samples, start, end).refusal;
    (ours != refusal).then(|| format!("{start:?} to {end:?}: ours {ours}, and it is {refusal}"))
}

/// Times outside their range, in either place.
fn refusals(samples: &[f32]) -> Case {
    let outside = [
        LAST.next_up(),
        -LAST.next_up(),
        f64::INFINITY,
        f64::NEG_INFINITY,
        f64::NAN,
    ];
    let ranges: Vec<(f64, f64)> = outside
        .iter()
        .flat_map(|&t| [(t, 0.0), (0.0, t), (t, t)])
        .collect();
    let difference = ranges.iter().find_map(|&range| refused(samples, range, 1));
    Case::new(ranges.len(), difference)
}

/// One sample more than is taken: 4 comes before 1.
fn too_many() -> Case {
    let samples = vec![0.0; MAX_SAMPLES + 1];
    let ranges = [(0.0, 1.0), (f64::NAN, 1.0)];
    Case::new(
        2,
        ranges
            .into_iter()
            .find_map(|range| refused(&samples, range, 4)),
    )
}

fn case(recording: Recording, random: &mut Random) -> Case {
    let Recording { kind, samples } = recording;
    let mut ranges = (0..RANGES).map(|_| range(samples.len(), random));
    let difference = ranges.find_map(|range| differs(&samples, range));
    let n = samples.len();
    Case::new(
        RANGES,
        difference.map(|text| format!("{kind}, {n} samples: {text}")),
    )
}

impl Compared for Peak {
    fn name(&self) -> &str {
        "peak"
    }

    fn weight(&self) -> u64 {
        10_000
    }

    fn limits(&self) -> Vec<Case> {
        let (mut sound, mut random) = (Random::new(0, 1), Random::new(0, 2));
        let limits = recordings::limits(&mut sound);
        let mut cases: Vec<Case> = limits.map(|r| case(r, &mut random)).collect();
        let before = differs(&[0.5; 200], (-LAST, 0.01));
        cases.extend([
            Case::new(1, before),
            refusals(&[]),
            refusals(&[0.5; 200]),
            too_many(),
        ]);
        cases
    }

    fn random(&self, random: &mut Random) -> Case {
        let recording = recordings::random(random);
        case(recording, random)
    }
}
