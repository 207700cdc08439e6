//! Times both sides on as many words as are taken, over an hour's levels.

use std::hint::black_box;

use crate::bench::{head, print};
use crate::check::{HeardWord, Text};
use crate::ffi::{self, Over};
use crate::hour::time;
use crate::inputs::Random;
use crate::recordings::MAX_SAMPLES;
use crate::stages::STAGES;
use crate::transcript::envelope::{Envelope, frame_seconds};
use crate::transcript::loops::collapse_loops;
use crate::transcript::transcriber::peak_between;
use crate::words::{LAST, Lent, MAX_WORDS};
use crate::words_alone;
use crate::words_fit;

/// The end of the hour.
pub const HOUR: f64 = 3600.0;

/// A word of eight letters, with a key of its own.
fn word(at: usize, start: f64, end: f64) -> HeardWord {
    let text = Text {
        letters: 8,
        units: 9,
        key: at as u32,
    };
    HeardWord { text, start, end }
}

/// As many words as are taken.
pub fn each(times: impl Fn(usize) -> (f64, f64)) -> Vec<HeardWord> {
    let word = |at| {
        let (start, end) = times(at);
        word(at, start, end)
    };
    (0..MAX_WORDS).map(word).collect()
}

/// The runs of loud frames, each from its first frame to past its last.
pub fn bursts(heard: &Envelope) -> Vec<(i64, i64)> {
    let mut bursts = Vec::new();
    let mut start = None;
    for frame in 0..=heard.frames() {
        match (start, heard.loud(frame)) {
            (None, true) => start = Some(frame),
            (Some(first), false) => {
                bursts.push((first, frame));
                start = None;
            }
            _ => (),
        }
    }
    bursts
}

/// Words as they are heard: one for each burst, which starts up to 80 ms late and ends up to 0.3 s
/// late, or, one in sixteen, has no length. Once in 50 words, one is said four times.
pub fn ordinary(heard: &Envelope, random: &mut Random) -> Vec<HeardWord> {
    let bursts = bursts(heard);
    assert!(bursts.len() > MAX_WORDS, "{} bursts", bursts.len());
    let mut words = Vec::new();
    for pair in bursts.windows(2).take(MAX_WORDS) {
        let ((first, past), (next, _)) = (pair[0], pair[1]);
        let start = first + random.below(9) as i64;
        let end = (past + random.below(31) as i64).min(next);
        let end = if random.below(16) == 0 { start } else { end };
        let key = if words.len() % 50 < 4 {
            0
        } else {
            random.below(500) as usize
        };
        words.push(word(key, frame_seconds(start), frame_seconds(end)));
    }
    words
}

/// The two sides in turn, each on a copy of the words that is made before its time begins, `runs`
/// times after one run that is not counted; prints the medians.
pub fn row(
    name: &str,
    runs: usize,
    words: &[HeardWord],
    ours: &dyn Fn(&mut Lent),
    rust: &dyn Fn(&mut [HeardWord]),
) {
    let (mut a, mut b) = (Vec::new(), Vec::new());
    for run in 0..=runs {
        let (mut lent, mut list) = (Lent::new(words), words.to_vec());
        let x = time(&mut || ours(black_box(&mut lent)));
        let y = time(&mut || rust(black_box(&mut list)));
        black_box((lent, list));
        if run > 0 {
            a.push(x);
            b.push(y);
        }
    }
    print(name, a, b);
}

/// A row of the loops.
fn loops(name: &str, runs: usize, words: &[HeardWord]) {
    let ours = |words: &mut Lent| {
        black_box(ffi::collapse_loops(words));
    };
    let rust = |words: &mut [HeardWord]| {
        black_box(collapse_loops(words).unwrap());
    };
    row(
        &format!("collapse_loops, {name}"),
        runs,
        words,
        &ours,
        &rust,
    );
}

/// A row of a stage that hears.
fn stage(at: usize, name: &str, runs: usize, words: &[HeardWord], heard: &Envelope) {
    let stage = &STAGES[at];
    let over = Over {
        levels: &heard.env,
        floor: heard.floor,
        count: MAX_SAMPLES,
    };
    let ours = |words: &mut Lent| {
        black_box((stage.ours)(words, black_box(over), HOUR));
    };
    let rust = |words: &mut [HeardWord]| (stage.rust)(words, black_box(heard), HOUR);
    let name = format!("{}, {name}", stage.name);
    row(&name, runs, words, &ours, &rust);
}

/// Slow words for `hand_back_tails`: each lies in one sound of an hour; or starts in a short one,
/// with nothing after it up to its end at 7,200 s.
fn slow_tails(runs: usize, [loud, short]: [&Envelope; 2]) {
    stage(0, "one long sound", runs, &each(|_| (0.01, HOUR)), loud);
    stage(0, "a long silence", runs, &each(|_| (0.01, LAST)), short);
}

/// Slow words for `snap_onsets`: each walks back as far as any may.
fn slow_onsets(runs: usize, loud: &Envelope) {
    let late = |at| (0.7 + at as f64 * 0.8, 0.75 + at as f64 * 0.8);
    stage(1, "60 frames back", runs, &each(late), loud);
}

/// Slow words for `snap_ends`: each other one is searched for its end over the hour, or from
/// -7,200 s on; or, of no length, for its start up to 7,200 s.
fn slow_ends(runs: usize, [loud, none]: [&Envelope; 2]) {
    let to_the_end = |first: f64| {
        move |at: usize| {
            let start = if at.is_multiple_of(2) { first } else { HOUR };
            (start, start + 0.5)
        }
    };
    let no_length = |at: usize| (0.02 - LAST, if at.is_multiple_of(2) { -LAST } else { LAST });
    stage(2, "over the hour", runs, &each(to_the_end(0.0)), loud);
    stage(2, "from -7,200 s", runs, &each(to_the_end(-LAST)), loud);
    stage(2, "-7,200 to 7,200 s", runs, &each(no_length), none);
}

/// Levels of an hour that are loud up to a frame.
fn loud_up_to(frame: usize, frames: usize) -> Envelope {
    let level = |at| if at < frame { 1.0 } else { 0.0 };
    Envelope {
        env: (0..frames).map(level).collect(),
        floor: 0.5,
    }
}

/// A row of the peaks under words.
fn peaks(name: &str, runs: usize, words: &[HeardWord], samples: &[f32]) {
    let ours = |_: &mut Lent| {
        for word in black_box(words) {
            black_box(ffi::peak(black_box(samples), word.start, word.end));
        }
    };
    let rust = |_: &mut [HeardWord]| {
        for word in black_box(words) {
            black_box(peak_between(black_box(samples), word.start, word.end));
        }
    };
    row(&format!("peak, {name}"), runs, &[], &ours, &rust);
}

/// Prints the table: medians over `runs` runs, in milliseconds a call, and ours over the Rust's.
pub fn bench(seed: u64, runs: usize, samples: &[f32], heard: &Envelope) {
    let frames = heard.env.len();
    let text = format!("{runs} runs of {MAX_WORDS} words, {frames} frames");
    head(&text, "milliseconds");
    let mut random = Random::new(seed, 0);
    let words = ordinary(heard, &mut random);
    let mut threes = words.clone();
    for (at, word) in threes.iter_mut().enumerate() {
        word.text.key = at as u32 / 3;
    }
    let [none, short, loud] = [0, 2, frames].map(|frame| loud_up_to(frame, frames));
    loops("ordinary", runs, &words);
    loops("groups of three", runs, &threes);
    stage(0, "ordinary", runs, &words, heard);
    slow_tails(runs, [&loud, &short]);
    stage(1, "ordinary", runs, &words, heard);
    slow_onsets(runs, &loud);
    stage(2, "ordinary", runs, &words, heard);
    slow_ends(runs, [&loud, &none]);
    words_alone::bench(runs, &words, &mut random);
    words_fit::bench(runs, &words, [heard, &loud, &none], &mut random);
    peaks("ordinary", runs, &words, samples);
    peaks(
        "one over the hour",
        runs,
        &each(|_| (0.0, HOUR))[..1],
        samples,
    );
}
