//! What the Rust does with inputs that are refused here, and what it gives where a standard decides
//! over it: the lines behind the tables of docs/DIFFERENCES.md. The library is not called.

use std::fmt::Debug;
use std::hint::black_box;
use std::panic::{AssertUnwindSafe, catch_unwind, set_hook};
use std::sync::mpsc::channel;
use std::thread::spawn;
use std::time::Duration;

use crate::check::HeardWord;
use crate::js::{js_max, js_min, js_to_fixed};
use crate::recordings::{HOP, MAX_SAMPLES};
use crate::text::{Cue, Script};
use crate::transcript::envelope::{Envelope, envelope, frame_seconds};
use crate::transcript::even::even_out;
use crate::transcript::fit::{PhraseGroups, fit_file, fit_to_sound, last_run};
use crate::transcript::loops::collapse_loops;
use crate::transcript::onsets::{hand_back_tails, snap_ends, snap_onsets};
use crate::transcript::phrase_align::align_phrases;
use crate::transcript::pieces::pieces;
use crate::transcript::transcriber::peak_between;
use crate::vectors::word;
use crate::voxr_math::js_pow;
use crate::words::{LAST, MAX_COUNT, MAX_LETTERS, MAX_UNITS, MAX_WORDS};

/// A call that takes longer is said to have no end.
const PATIENCE: Duration = Duration::from_secs(5);
/// The levels of 13 frames: a burst of two, eight quiet ones, a burst of three.
const LEVELS: [f64; 13] = [1., 1., 0., 0., 0., 0., 0., 0., 0., 0., 1., 1., 1.];
/// How long they are, in seconds.
const DURATION: f64 = 0.13;

/// What a line is of: a call and what it is given, and what the Rust gives.
type Line = (&'static str, fn() -> String);
/// The same with a time, or a number, put in.
type LineOf<T> = (&'static str, fn(T) -> String);

/// Times outside their range.
const OUTSIDE: [f64; 5] = [
    f64::NAN,
    f64::INFINITY,
    f64::NEG_INFINITY,
    LAST.next_up(),
    -LAST.next_up(),
];

/// Refusal 1: a time in each place that has one.
const TIMES: &[LineOf<f64>] = &[
    ("collapse_loops: [(t, 0.13)]", |t| loops(&[(t, DURATION)])),
    ("collapse_loops: [(0.1, t)]", |t| loops(&[(0.1, t)])),
    ("hand_back_tails: [(0.1, 0.11), (t, 0.13)]", |t| {
        tails([(0.1, 0.11), (t, DURATION)], 1)
    }),
    ("hand_back_tails: [(0.1, 0.11), (0.11, t)]", |t| {
        tails([(0.1, 0.11), (0.11, t)], 1)
    }),
    ("snap_onsets: [(t, 0.13)]", |t| onset(t, DURATION, 1)),
    ("snap_onsets: [(0.1, t)]", |t| onset(0.1, t, 1)),
    ("snap_ends: [(t, 0.13)], duration 0.13", |t| {
        ends(&[(t, DURATION)], 1, DURATION)
    }),
    ("snap_ends: [(0.1, t)], duration 0.13", |t| {
        ends(&[(0.1, t)], 1, DURATION)
    }),
    ("snap_ends: [(0.2, 0.2), (0.2, t)], duration 0.13", |t| {
        ends(&[(0.2, 0.2), (0.2, t)], 1, DURATION)
    }),
    ("snap_ends: [(0.1, 0.2)], duration t", |t| {
        ends(&[(0.1, 0.2)], 1, t)
    }),
    ("align_phrases: [(t, 0.13)] in (0, 0.13)", |t| {
        placed((t, DURATION), 1, (0.0, DURATION))
    }),
    ("align_phrases: [(0.1, t)] in (0, 0.13)", |t| {
        placed((0.1, t), 1, (0.0, DURATION))
    }),
    ("align_phrases: [(0, 0)] in (t, 0.13)", |t| {
        placed((0.0, 0.0), 1, (t, DURATION))
    }),
    ("align_phrases: [(0, 0)] in (0, t)", |t| {
        placed((0.0, 0.0), 1, (0.0, t))
    }),
    ("even_out: [(t, 0.13)], limit 0.13", |t| {
        evened((t, DURATION), 1, DURATION)
    }),
    ("even_out: [(0.1, t)], limit 0.13", |t| {
        evened((0.1, t), 1, DURATION)
    }),
    ("even_out: [(0, 0)], limit t", |t| evened((0.0, 0.0), 1, t)),
    ("last_run: t to 0.13", |t| run(t, DURATION)),
    ("last_run: 0 to t", |t| run(0.0, t)),
    ("fit_to_sound: [(t, 0.13)], duration 0.13", |t| {
        fitted((t, DURATION), 1, DURATION)
    }),
    ("fit_to_sound: [(0.1, t)], duration 0.13", |t| {
        fitted((0.1, t), 1, DURATION)
    }),
    ("fit_to_sound: [(0.1, 0.2)], duration t", |t| {
        fitted((0.1, 0.2), 1, t)
    }),
    ("fit_file: [(t, 0.13)] in (0, 0.13)", |t| {
        filed((t, DURATION), 1, (0.0, DURATION), &[0])
    }),
    ("fit_file: [(0.1, t)] in (0, 0.13)", |t| {
        filed((0.1, t), 1, (0.0, DURATION), &[0])
    }),
    ("fit_file: [(0, 0.1)] in (t, 0.13)", |t| {
        filed((0.0, 0.1), 1, (t, DURATION), &[0])
    }),
    ("fit_file: [(0, 0.1)] in (0, t)", |t| {
        filed((0.0, 0.1), 1, (0.0, t), &[0])
    }),
    ("peak: a sample of 0.5, t to 1", |t| {
        shown(peak_between(&[0.5], t, 1.0))
    }),
    ("peak: a sample of 0.5, 0 to t", |t| {
        shown(peak_between(&[0.5], 0.0, t))
    }),
];

/// Refusal 2: the letters of each word.
const LETTERS: &[LineOf<u32>] = &[
    ("hand_back_tails: [(0, 0.01), (0.01, 0.13)]", |n| {
        tails([(0.0, 0.01), (0.01, DURATION)], n)
    }),
    ("snap_onsets: [(0.12, 0.13)]", |n| onset(0.12, DURATION, n)),
    ("align_phrases: [(0, 0)] in (0, 0.13)", |n| {
        placed((0.0, 0.0), n, (0.0, DURATION))
    }),
    ("even_out: [(0, 0)], limit 0.13", |n| {
        evened((0.0, 0.0), n, DURATION)
    }),
    ("fit_to_sound: [(0.1, 0.1)], duration 0.13", |n| {
        fitted((0.1, 0.1), n, DURATION)
    }),
    ("fit_file: [(0.1, 0.1)] in (0, 0.13)", |n| {
        filed((0.1, 0.1), n, (0.0, DURATION), &[0])
    }),
];

/// Refusals 3, 4 and 7.
const SIZES: &[Line] = &[
    (
        "3, fit_file: [(0.1, 0.2)] in (0, 0.13), phrase numbers []",
        || filed((0.1, 0.2), 1, (0.0, DURATION), &[]),
    ),
    (
        "3, fit_file: [(0.1, 0.2)] in (0, 0.13), phrase numbers [0, 0]",
        || filed((0.1, 0.2), 1, (0.0, DURATION), &[0, 0]),
    ),
    ("4, envelope: 57600001 samples of 0", || {
        let heard = envelope(&vec![0.0; MAX_SAMPLES + 1]);
        format!("levels {}, floor {:?}", heard.env.len(), heard.floor)
    }),
    (
        "4, pieces: 360000 levels of 1, floor 0.5, 57600001 samples",
        || cut(MAX_SAMPLES / HOP, MAX_SAMPLES + 1),
    ),
    (
        "4, peak: 57600000 samples of 0 and one of 0.5, 3600 to 3601",
        || {
            let mut samples = vec![0.0; MAX_SAMPLES];
            samples.push(0.5);
            shown(peak_between(&samples, 3600.0, 3601.0))
        },
    ),
    ("4, collapse_loops: 4097 words alike", || {
        let left = collapse_loops(&[word(0.0, 0.0, 1); MAX_WORDS + 1]).unwrap();
        format!("words {}, found {}", left.words.len(), left.found)
    }),
    ("4, align_phrases: 4097 words in 4097 spans of 1", || {
        counted(MAX_WORDS + 1, MAX_WORDS + 1, 1)
    }),
    ("4, align_phrases: 1 word in 1 span of 4097", || {
        counted(1, 1, MAX_COUNT + 1)
    }),
    ("7, pieces: 1 level, 0 samples", || cut(1, 0)),
    ("7, pieces: no level, 160 samples", || cut(0, HOP)),
    ("7, pieces: 2001 levels of 1, floor 0.5, 0 samples", || {
        cut(2001, 0)
    }),
];

/// Where a standard decides, a NaN is made, or the Rust overflows.
const ARITHMETIC: &[Line] = &[
    ("js_min(0, -0)", || number(js_min(0.0, -0.0))),
    ("js_max(-0, 0)", || number(js_max(-0.0, 0.0))),
    ("js_min(NaN, 1)", || number(js_min(f64::NAN, 1.0))),
    ("js_max(1, NaN)", || number(js_max(1.0, f64::NAN))),
    ("js_to_fixed(0.0625, 3)", || number(js_to_fixed(0.0625, 3))),
    ("js_to_fixed(-0.0625, 3)", || {
        number(js_to_fixed(-0.0625, 3))
    }),
    ("js_to_fixed(-0.0001, 3)", || {
        number(js_to_fixed(-0.0001, 3))
    }),
    ("js_to_fixed(-0, 3)", || number(js_to_fixed(-0.0, 3))),
    ("js_to_fixed(2^49 - 2^-4, 3)", || {
        number(js_to_fixed((2f64.powi(49)).next_down(), 3))
    }),
    ("js_to_fixed(2^49 + 2^-3, 3)", || {
        number(js_to_fixed((2f64.powi(49)).next_up(), 3))
    }),
    ("js_to_fixed(1e21, 3)", || number(js_to_fixed(1e21, 3))),
    ("sqrt(2)", || number(black_box(2f64).sqrt())),
    ("sqrt(5e-324)", || number(black_box(5e-324f64).sqrt())),
    ("sqrt(-0)", || number(black_box(-0f64).sqrt())),
    ("js_pow(10, -2), of js_math.rs", || {
        number(js_pow(black_box(10.0), black_box(-2.0)))
    }),
    ("envelope: a sample FFC00001, 159 of 0", || {
        heard(0xFFC0_0001)
    }),
    ("envelope: a sample 7F800001, 159 of 0", || {
        heard(0x7F80_0001)
    }),
    ("peak: a sample FFC00001, 0 to 1", || {
        number(peak_between(&[f32::from_bits(0xFFC0_0001)], 0.0, 1.0))
    }),
    ("frame_seconds(57646075230342348)", || {
        number(frame_seconds(black_box(57_646_075_230_342_348)))
    }),
    ("frame_seconds(57646075230342349)", || {
        number(frame_seconds(black_box(57_646_075_230_342_349)))
    }),
];

fn shown(x: impl Debug) -> String {
    format!("{x:?}")
}

/// A double, and its bits.
fn number(x: f64) -> String {
    format!("{x:?} ({:016X})", x.to_bits())
}

fn sound() -> Envelope {
    let env = LEVELS.to_vec();
    Envelope { env, floor: 0.5 }
}

/// The samples of that sound.
fn samples() -> Vec<f32> {
    LEVELS.iter().flat_map(|&v| [v as f32; HOP]).collect()
}

fn words(times: &[(f64, f64)], letters: u32) -> Vec<HeardWord> {
    let word = |&(start, end): &(f64, f64)| word(start, end, letters);
    times.iter().map(word).collect()
}

/// Words as their times; the digits are those that read back as the same double.
fn times(words: &[HeardWord]) -> String {
    let times = |w: &HeardWord| format!("({:?}, {:?})", w.start, w.end);
    words.iter().map(times).collect::<Vec<_>>().join(" ")
}

fn span((start, end): (f64, f64), count: u32) -> Cue {
    let text = Script { count };
    Cue { text, start, end }
}

fn loops(list: &[(f64, f64)]) -> String {
    times(&collapse_loops(&words(list, 1)).unwrap().words)
}

fn tails(pair: [(f64, f64); 2], letters: u32) -> String {
    let mut words = words(&pair, letters);
    hand_back_tails(&mut words, &sound()).unwrap();
    times(&words)
}

fn onset(start: f64, end: f64, letters: u32) -> String {
    let mut words = words(&[(start, end)], letters);
    snap_onsets(&mut words, &sound());
    times(&words)
}

/// Ends of words with so many units.
fn ends(list: &[(f64, f64)], units: u32, duration: f64) -> String {
    let mut words = words(list, 1);
    words.iter_mut().for_each(|w| w.text.units = units);
    snap_ends(&mut words, &sound(), duration);
    times(&words)
}

fn placed(time: (f64, f64), letters: u32, of: (f64, f64)) -> String {
    times(
        &align_phrases(&words(&[time], letters), &[span(of, 1)])
            .unwrap()
            .words,
    )
}

fn evened(time: (f64, f64), letters: u32, limit: f64) -> String {
    let mut words = words(&[time], letters);
    even_out(&mut words, limit).unwrap();
    times(&words)
}

fn run(from: f64, to: f64) -> String {
    last_run(&sound(), from, to).map_or("no sound".into(), shown)
}

fn fitted(time: (f64, f64), letters: u32, duration: f64) -> String {
    let mut words = words(&[time], letters);
    fit_to_sound(&mut words, &sound(), duration).unwrap();
    times(&words)
}

fn filed(time: (f64, f64), letters: u32, of: (f64, f64), phrase: &[usize]) -> String {
    let mut words = words(&[time], letters);
    let spans = &[span(of, 1)];
    fit_file(&mut words, &samples(), Some(PhraseGroups { spans, phrase })).unwrap();
    times(&words)
}

/// Pieces of so many loud frames: how many, and the last.
fn cut(levels: usize, length: usize) -> String {
    let env = vec![1.0; levels];
    let cut = pieces(&Envelope { env, floor: 0.5 }, length);
    let last = cut
        .last()
        .map_or(String::new(), |last| format!(", last {last:?}"));
    format!("pieces {}{last}", cut.len())
}

/// How many words are placed, and the number of the last one's phrase.
fn counted(words: usize, spans: usize, count: u32) -> String {
    let words = vec![word(0.0, 0.0, 1); words];
    let placed = align_phrases(&words, &vec![span((0.0, 1.0), count); spans]).unwrap();
    let (words, last) = (placed.words.len(), placed.phrase[placed.phrase.len() - 1]);
    format!("words {words}, last phrase number {last}")
}

/// The level and the floor of a frame with one sample of these bits.
fn heard(bits: u32) -> String {
    let mut samples = [0.0; HOP];
    samples[0] = f32::from_bits(bits);
    let heard = envelope(&samples);
    format!(
        "level {}, floor {}",
        number(heard.env[0]),
        number(heard.floor)
    )
}

/// What a call gives, or that it panics, or has not ended in time; it is then left running.
fn outcome(call: impl FnOnce() -> String + Send + 'static) -> String {
    let (tell, told) = channel();
    spawn(move || {
        let given = catch_unwind(AssertUnwindSafe(call));
        tell.send(given.unwrap_or("panics".into()))
    });
    told.recv_timeout(PATIENCE).unwrap_or("no end".into())
}

fn line<T: Copy + Send + 'static>(name: &str, given: &[T], call: fn(T) -> String) {
    let outcomes = given.iter().map(|&x| outcome(move || call(x)));
    println!("{name} | {}", outcomes.collect::<Vec<_>>().join(" | "));
}

/// All lines, always the same.
pub fn write() {
    set_hook(Box::new(|_| {}));
    println!("refusal 1, t | {}", OUTSIDE.map(shown).join(" | "));
    for &(name, call) in TIMES {
        line(name, &OUTSIDE, call);
    }
    println!("refusal 2, letters | 0 | 1 | {}", MAX_LETTERS + 1);
    for &(name, call) in LETTERS {
        line(name, &[0, 1, MAX_LETTERS + 1], call);
    }
    println!("refusal 2, units | 0 | 1 | {}", MAX_UNITS + 1);
    line(
        "snap_ends: [(0, 0), (0, 0.1)], duration 0.13",
        &[0, 1, MAX_UNITS + 1],
        |n| ends(&[(0.0, 0.0), (0.0, 0.1)], n, DURATION),
    );
    println!("refusals 3, 4 and 7");
    for &(name, call) in SIZES {
        println!("{name} | {}", outcome(call));
    }
    println!("arithmetic");
    for &(name, call) in ARITHMETIC {
        println!("{name} | {}", outcome(call));
    }
}
