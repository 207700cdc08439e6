//! Times both sides on an hour of sound.

use std::hint::black_box;
use std::time::Instant;

use crate::bench::{head, print};
use crate::ffi;
use crate::inputs::Random;
use crate::places::Places;
use crate::recordings::{HOP, MAX_SAMPLES};
use crate::transcript::envelope::{Envelope, envelope};
use crate::transcript::pieces::pieces;

/// Samples of a millisecond.
const MS: u64 = 16;

/// Noise like speech: words of 0.15 to 0.6 s, each of a loudness of its own, with 20 to 120 ms
/// between, and after one word in eight a pause of 0.3 to 1.2 s.
fn speech(seed: u64) -> Vec<f32> {
    let mut random = Random::new(seed, 0);
    let mut samples = Vec::with_capacity(MAX_SAMPLES);
    let mut part = |random: &mut Random, loudness: f32, least: u64, most: u64| {
        let length = (least + random.below(most - least)) * MS;
        let length = (length as usize).min(MAX_SAMPLES - samples.len());
        let draw = || (random.bits() as i32) as f32 / 2_147_483_648.0 * loudness;
        samples.extend(std::iter::repeat_with(draw).take(length));
        samples.len() < MAX_SAMPLES
    };
    loop {
        let loudness = 0.1 + random.below(500) as f32 / 1000.0;
        let pause = if random.below(8) == 0 {
            (300, 1200)
        } else {
            (20, 120)
        };
        if !part(&mut random, loudness, 150, 600) || !part(&mut random, 0.001, pause.0, pause.1) {
            return samples;
        }
    }
}

/// Milliseconds of a call.
pub fn time(call: &mut dyn FnMut()) -> f64 {
    let start = Instant::now();
    call();
    start.elapsed().as_secs_f64() * 1000.0
}

/// The two sides in turn, `runs` times after one run that is not counted; prints the medians.
fn row(name: &str, runs: usize, ours: &mut dyn FnMut(), rust: &mut dyn FnMut()) {
    let (mut a, mut b) = (Vec::new(), Vec::new());
    for run in 0..=runs {
        let (x, y) = (time(ours), time(rust));
        if run > 0 {
            a.push(x);
            b.push(y);
        }
    }
    print(name, a, b);
}

/// Prints the table: medians over `runs` runs, in milliseconds a call, and ours over the Rust's.
/// Gives the samples, and their levels.
pub fn bench(seed: u64, runs: usize) -> (Vec<f32>, Envelope) {
    let samples = speech(seed);
    let frames = samples.len() / HOP;
    let heard = envelope(&samples);
    let n = pieces(&heard, samples.len()).len();
    let text = format!("{runs} runs of an hour, {frames} frames, {n} pieces");
    head(&text, "milliseconds");
    let sound = || black_box(&samples[..]);
    // the Rust makes room for its answer in the call: so does ours
    row(
        "envelope of an hour",
        runs,
        &mut || {
            let mut levels = Places::new(frames);
            black_box(ffi::envelope(sound(), &mut levels).floor);
            black_box(levels.bits());
        },
        &mut || {
            black_box(envelope(sound()));
        },
    );
    let levels = || black_box(&heard);
    let need = (frames - 1) / 1203 + 1;
    row(
        "pieces of an hour",
        runs,
        &mut || {
            let Envelope { env, floor } = levels();
            let [mut starts, mut ends] = [(); 2].map(|()| Places::new(need));
            black_box(ffi::pieces(env, *floor, samples.len(), &mut starts, &mut ends).pieces);
            black_box((starts.bits(), ends.bits()));
        },
        &mut || {
            black_box(pieces(levels(), samples.len()));
        },
    );
    (samples, heard)
}
