//! Writes the stored answers of last runs and of fitted words: rows for crates/fit_vectors, with the
//! answers of the Rust.

use crate::check::HeardWord;
use crate::recordings::HOP;
use crate::text::{Cue, Script};
use crate::transcript::envelope::Envelope;
use crate::transcript::fit::{PhraseGroups, fit_file, fit_to_sound, last_run};
use crate::vectors::{DURATION, Heard, moved, word};

/// Letters of a row's word.
const LETTERS: u32 = 4;
/// The answer where there is no sound: a NaN.
const NO_SOUND: u64 = 0xFFF8_0000_0000_0000;

/// Where the search of a last run ends, and the bursts of sound.
const RUNS: &[Heard] = &[
    // document 01: 15 quiet frames are bridged, 16 are not, and 3 loud frames are no run
    (0.23, &[(0, 4), (19, 23)]),
    (0.24, &[(0, 4), (20, 24)]),
    (0.64, &[(10, 13)]),
    // 4 frames, also with quiet ones among them; a run of 3 after a longer one
    (0.64, &[(10, 14)]),
    (0.64, &[(10, 11), (13, 14)]),
    (0.64, &[(0, 10), (40, 43)]),
    // 3 and 4 frames of a burst before the end of the search
    (0.23, &[(20, 40)]),
    (0.24, &[(20, 40)]),
    // up to -0, up to a time before zero, and past the recording
    (-0.0, &[(0, 64)]),
    (-0.3, &[(0, 64)]),
    (7200.0, &[(0, 64)]),
];

/// A word's start, and the bursts of sound.
const FITTED: &[Heard] = &[
    // no sound, and in silence before a burst
    (0.1, &[]),
    (0.1, &[(20, 45)]),
    // 2 and 3 loud frames before a longer burst
    (0.1, &[(20, 22), (30, 60)]),
    (0.1, &[(20, 23), (30, 60)]),
    // the last frame at which a sound may start, and the next
    (0.1, &[(60, 64)]),
    (0.1, &[(61, 64)]),
    // 15 and 14 quiet frames between bursts
    (0.1, &[(10, 35), (50, 58)]),
    (0.1, &[(10, 35), (49, 58)]),
    // what the letters need, a frame less, and a step less
    (0.0, &[(0, 20)]),
    (0.0, &[(0, 19)]),
    (0.1, &[(10, 30)]),
    // past the sound, and past the recording
    (0.5, &[(0, 40)]),
    (0.7, &[(50, 64)]),
    // before zero, and at -0
    (-0.2, &[(5, 40)]),
    (-0.2, &[(0, 40)]),
    (-0.0, &[(0, 30)]),
];

/// The same, where the word is in a phrase.
const FILED: &[Heard] = &[
    (0.1, &[]),
    // runs of 4 and 3 frames after the word
    (0.05, &[(5, 25), (45, 49)]),
    (0.05, &[(5, 25), (45, 48)]),
    // 0.15 s after the word, and a frame later
    (0.05, &[(5, 25), (40, 46)]),
    (0.05, &[(5, 25), (41, 46)]),
    // before the span, at -0, and past it
    (-0.2, &[(0, 40)]),
    (-0.0, &[(0, 30)]),
    (0.7, &[(50, 64)]),
];

/// The planted row: document 01's second run.
const PLANTED: Heard = (0.24, &[(0, 4), (20, 24)]);

/// A time of the last run.
fn run(to: f64, levels: &Envelope, asked: fn((f64, f64)) -> f64) -> u64 {
    let found = last_run(levels, 0.0, to);
    found.map_or(NO_SOUND, |run| asked(run).to_bits())
}

fn run_start(to: f64, levels: &Envelope) -> u64 {
    run(to, levels, |(start, _)| start)
}

fn run_end(to: f64, levels: &Envelope) -> u64 {
    run(to, levels, |(_, end)| end)
}

/// The word, fitted to its sound.
fn fitted(start: f64, levels: &Envelope) -> HeardWord {
    let mut words = [word(start, DURATION, LETTERS)];
    fit_to_sound(&mut words, levels, DURATION).unwrap();
    words[0]
}

/// The word, fitted as a phrase of its own. The samples of a frame are its level, so that the Rust
/// finds the same frames loud.
fn filed(start: f64, levels: &Envelope) -> HeardWord {
    let mut words = [word(start, DURATION, LETTERS)];
    let samples: Vec<f32> = levels
        .env
        .iter()
        .flat_map(|&level| [level as f32; HOP])
        .collect();
    let span = Cue {
        text: Script { count: 1 },
        start: 0.0,
        end: DURATION,
    };
    let groups = PhraseGroups {
        spans: &[span],
        phrase: &[0],
    };
    fit_file(&mut words, &samples, Some(groups)).unwrap();
    words[0]
}

/// All rows, always the same.
pub fn write() {
    for &heard in RUNS {
        moved('R', heard, run_start);
        moved('Q', heard, run_end);
    }
    for &heard in FITTED {
        moved('I', heard, |start, levels| {
            fitted(start, levels).start.to_bits()
        });
        moved('J', heard, |start, levels| {
            fitted(start, levels).end.to_bits()
        });
    }
    for &heard in FILED {
        moved('M', heard, |start, levels| {
            filed(start, levels).start.to_bits()
        });
        moved('N', heard, |start, levels| {
            filed(start, levels).end.to_bits()
        });
    }
    // one step past the Rust's answer
    moved('X', PLANTED, |to, levels| run_start(to, levels) + 1);
}
