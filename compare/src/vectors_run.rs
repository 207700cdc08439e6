//! Writes the stored answers of full runs: rows for crates/run_vectors, with the answers of the Rust.

use crate::check::{HeardWord, Text};
use crate::full::Full;
use crate::full_rule::{Outcome, stages};
use crate::places::Bits;
use crate::recordings::HOP;
use crate::text::{Cue, Script};
use crate::vectors::{DURATION, bits, levels, row};

/// What a row's words have.
const LETTERS: [u32; 4] = [4, 3, 2, 1];
const UNITS: u32 = 5;
/// What a phrase place holds before.
const BEFORE: u32 = 9;
/// What stands for every NaN.
const NAN: u64 = 0x7FF8_0000_0000_0000;

/// The kind, the 16 digits, and the bursts of sound. Digits: starts and ends of four words, keys, the
/// end of the first span, the counts of both, and what the first sample is.
type Row = (char, u64, &'static [(usize, usize)]);

const ROWS: &[Row] = &[
    // two words in each span, and in bursts of their own
    (
        'S',
        0x1236_78AB_1234_6220,
        &[(3, 14), (16, 30), (36, 50), (54, 64)],
    ),
    // a loop, and a loop with a word that is dropped
    ('S', 0x1223_348A_1112_6110, &[(8, 20), (40, 60)]),
    ('S', 0x1223_348A_1112_6100, &[(8, 20), (40, 60)]),
    // words that are dropped, each, and none though more are taken
    (
        'S',
        0x1236_78AB_1234_6110,
        &[(3, 14), (16, 30), (36, 50), (54, 64)],
    ),
    (
        'S',
        0x1236_78AB_1234_6000,
        &[(3, 14), (16, 30), (36, 50), (54, 64)],
    ),
    (
        'S',
        0x1236_78AB_1234_6FF0,
        &[(3, 14), (16, 30), (36, 50), (54, 64)],
    ),
    // a span that takes none, and one of no length
    ('S', 0x1236_78AB_1234_6040, &[(20, 30), (40, 45)]),
    ('S', 0x1236_78AB_1234_0220, &[(3, 30), (36, 50)]),
    // a last run of sound after the last word, and a first sample that is no number
    (
        'S',
        0x0123_3478_1234_6220,
        &[(0, 20), (22, 26), (30, 40), (57, 63)],
    ),
    (
        'S',
        0x1236_78AB_1234_6221,
        &[(3, 14), (16, 30), (36, 50), (54, 64)],
    ),
    (
        'S',
        0x1236_78AB_1234_6222,
        &[(3, 14), (16, 30), (36, 50), (54, 64)],
    ),
    // without spans: bursts, a loop, a tail that is handed back, silence, and a first sample that is NaN
    (
        'W',
        0x1236_78AB_1234_0000,
        &[(3, 14), (16, 30), (36, 50), (54, 64)],
    ),
    ('W', 0x1223_348A_1112_0000, &[(8, 20), (40, 60)]),
    ('W', 0x022A_ABBC_1234_0000, &[(3, 13), (24, 50)]),
    ('W', 0x1236_78AB_1234_0000, &[]),
    ('W', 0x1236_78AB_1234_0001, &[(3, 14), (16, 30)]),
    // no words
    ('Z', 0x0000_0000_0000_6220, &[(3, 14), (16, 30)]),
];

/// The planted row.
const PLANTED: Row = (
    'X',
    0x1236_78AB_1234_6220,
    &[(3, 14), (16, 30), (36, 50), (54, 64)],
);

/// A digit, from the highest on.
fn digit(digits: u64, at: usize) -> u32 {
    (digits >> (60 - 4 * at)) as u32 & 15
}

/// The time of a digit.
fn time(digits: u64, at: usize) -> f64 {
    f64::from(digit(digits, at)) / 20.0
}

fn words(digits: u64) -> Vec<HeardWord> {
    let word = |at: usize| HeardWord {
        text: Text {
            letters: LETTERS[at],
            units: UNITS,
            key: digit(digits, 8 + at),
        },
        start: time(digits, 2 * at),
        end: time(digits, 2 * at + 1),
    };
    (0..4).map(word).collect()
}

fn spans(digits: u64) -> Vec<Cue> {
    let edge = time(digits, 12);
    let span = |at: usize, start: f64, end: f64| Cue {
        text: Script {
            count: digit(digits, 13 + at),
        },
        start,
        end,
    };
    vec![span(0, 0.0, edge), span(1, edge, DURATION)]
}

fn samples(digits: u64, loud: u64) -> Vec<f32> {
    let sample = |at: usize| {
        if loud >> (at / HOP) & 1 == 1 {
            0.5
        } else {
            0.0
        }
    };
    let mut samples: Vec<f32> = (0..64 * HOP).map(sample).collect();
    match digit(digits, 15) {
        1 => samples[0] = f32::NAN,
        2 => samples[0] = f32::INFINITY,
        _ => (),
    }
    samples
}

/// What a run gives back and leaves, as numbers in the order of the program. Words that it isn't given
/// stay.
fn told(outcome: &Outcome, digits: u64) -> Vec<u64> {
    let double = |x: f64| if x.is_nan() { NAN } else { x.to_bits() };
    let levels = &outcome.heard.env;
    let mut words = words(digits);
    words[..outcome.words.len()].copy_from_slice(&outcome.words);
    let (start, end) = outcome.pieces[0];
    let mut told = vec![
        u64::from(outcome.found),
        outcome.pieces.len() as u64,
        outcome.count as u64,
        double(outcome.heard.floor),
        double(levels[0]),
        double(levels[63]),
        start as u64,
        end as u64,
    ];
    told.extend(words.iter().map(|w| double(w.start)));
    told.extend(words.iter().map(|w| double(w.end)));
    let texts: [fn(&Text) -> u32; 3] = [|t| t.letters, |t| t.units, |t| t.key];
    for of in texts {
        told.extend(words.iter().map(|w| u64::from(of(&w.text))));
    }
    let phrase = |(place, &number): (usize, &u32)| match number == u32::mark(place) {
        true => u64::from(BEFORE),
        false => u64::from(number),
    };
    told.extend(outcome.phrases.iter().enumerate().map(phrase));
    told.resize(32, u64::from(BEFORE));
    told
}

/// The loud frames of bursts as bits.
fn loud(bursts: &[(usize, usize)]) -> u64 {
    bits(&levels(bursts))
}

/// The Rust's answer, folded.
fn answer((kind, digits, bursts): Row) -> u64 {
    let full = Full {
        kind: "a row",
        words: if kind == 'Z' { vec![] } else { words(digits) },
        spans: if kind == 'W' { vec![] } else { spans(digits) },
        samples: samples(digits, loud(bursts)),
    };
    let told = told(&stages(&full), digits);
    let fold = |folded: u64, x: &u64| folded.rotate_left(5) ^ x;
    told.iter().fold(0, fold)
}

/// All rows, always the same.
pub fn write() {
    for &(kind, digits, bursts) in ROWS {
        let answer = answer((kind, digits, bursts));
        row(kind, digits, loud(bursts), answer);
    }
    // one bit beside the Rust's answer
    let (kind, digits, bursts) = PLANTED;
    row(kind, digits, loud(bursts), answer(PLANTED) ^ 1);
}
