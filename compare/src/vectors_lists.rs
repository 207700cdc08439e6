//! Writes the stored answers of evening and placing: rows for crates/word_vectors, with the
//! answers of the Rust.
//!
//! A row has one to seven words, of 1, 2, 1, 2 .. letters and one unit each, with key 1. Its first
//! number has 16 digits: the number of words, what is asked, and for each word a digit for its start
//! and one for its end. What is asked is one time: of word `digit / 2`, the start where the digit is
//! even, else the end; or, in rows of placing alone, `COUNT`.

use crate::check::{HeardWord, Text};
use crate::text::{Cue, Script};
use crate::transcript::even::even_out;
use crate::transcript::phrase_align::align_phrases;
use crate::vectors::row;

/// A digit of a time: so many parts of a second, or, for the last digit, -0.
const NEGATIVE_ZERO: u32 = 15;
/// Digits of evening are twentieths.
const TWENTIETHS: f64 = 20.0;
/// Digits of placing are fiftieths: 0.02 s.
const FIFTIETHS: f64 = 50.0;
/// What is asked: the number of words that are kept and, for each word given, its phrase number, 0
/// where it is dropped.
const COUNT: u32 = 14;

/// Words as two digits each, a limit, and what is asked.
type Evened = (&'static str, f64, u32);

const NONE: f64 = f64::INFINITY;

const EVENED: &[Evened] = &[
    // one word and no limit, a limit that is met, one before the word's end, and -0
    ("00", NONE, 1),
    ("22", 0.15, 1),
    ("23", 0.05, 1),
    ("FF", -0.0, 0),
    // after a swollen word, at the slow pace, and after one that is not, up to the next start
    ("08 88 CE", NONE, 1),
    ("07 77 CE", NONE, 3),
    // the next words start too soon: two join, and six
    ("00 06 28 8E", NONE, 4),
    ("00 02 13 24 35 46 57", NONE, 11),
    // with no room up to the limit a run borrows one word, and two
    ("02 06 66", 0.3, 3),
    ("02 24 44", 0.2, 3),
    // a run takes a word of the one before it again, and borrows its other words too
    ("00 02 02 44", NONE, 5),
    ("00 02 02 44", 0.2, 1),
    // ends before starts
    ("31 20 A4", NONE, 2),
];

/// Words as two digits each, spans as a digit for their start, their end and their number of words,
/// and what is asked.
type Placed = (&'static str, &'static str, u32);

const PLACED: &[Placed] = &[
    // words before an inside one, and after it
    ("00 11 5A 00 22", "2E5", 1),
    ("00 11 5A 00 22", "2E5", 7),
    // none inside, from -0 on, and over a reversed span
    ("00 11 22", "2E3", 3),
    ("EE", "FA1", 0),
    ("00 11", "E02", 3),
    // the slack before and after, and 0.14, which is past 0.12 + 0.02 by its bits
    ("15", "261", 0),
    ("36", "251", 1),
    ("37", "261", 1),
    // 0.04 s, and by its bits a little less
    ("02", "0E1", 1),
    ("13", "0E1", 1),
    // two stray words, and one whose neighbours overlap
    ("25 00 00 8C", "0E4", 5),
    ("28 00 5C", "0E3", 3),
    // words past the spans; spans without words, and with fewer left; no spans
    ("25 8C 8C", "0E1", 2),
    ("25 8C 8C", "0E1", COUNT),
    ("25 8C 8C", "0A0 0E2 AE7", COUNT),
    ("25 8C", "", COUNT),
];

/// The planted row.
const PLANTED: Evened = ("08 88 CE", NONE, 1);

/// The digits of a text, in groups of so many.
fn groups(text: &str, size: usize) -> Vec<Vec<u32>> {
    let digits = text.chars().filter_map(|digit| digit.to_digit(16));
    let digits: Vec<u32> = digits.collect();
    digits.chunks(size).map(<[u32]>::to_vec).collect()
}

/// Digits as a number, the first as the highest of 16.
fn number(digits: impl IntoIterator<Item = u32>) -> u64 {
    let digits = digits.into_iter().chain(std::iter::repeat(0)).take(16);
    digits.fold(0, |number, digit| number << 4 | u64::from(digit))
}

fn time(digit: u32, parts: f64) -> f64 {
    match digit {
        NEGATIVE_ZERO => -0.0,
        _ => f64::from(digit) / parts,
    }
}

/// The words of a row.
fn words(text: &str, parts: f64) -> Vec<HeardWord> {
    let word = |(at, digits): (u32, Vec<u32>)| {
        let text = Text {
            letters: 1 + at % 2,
            units: 1,
            key: 1,
        };
        let [start, end] = [0, 1].map(|at| time(digits[at], parts));
        HeardWord { text, start, end }
    };
    (0..).zip(groups(text, 2)).map(word).collect()
}

/// The first number of a row.
fn first(text: &str, asked: u32) -> u64 {
    let words = groups(text, 2);
    let head = [words.len() as u32, asked];
    number(head.into_iter().chain(words.into_iter().flatten()))
}

/// The bits of the time that is asked.
fn answer(words: &[HeardWord], asked: u32) -> u64 {
    let word = &words[asked as usize / 2];
    let time = if asked.is_multiple_of(2) {
        word.start
    } else {
        word.end
    };
    time.to_bits()
}

/// A row of evening, with so much added to its answer.
fn evened(kind: char, (text, limit, asked): Evened, more: u64) {
    let mut words = words(text, TWENTIETHS);
    even_out(&mut words, limit).unwrap();
    let answer = answer(&words, asked) + more;
    row(kind, first(text, asked), limit.to_bits(), answer);
}

/// The spans of a row.
fn spans(text: &str) -> Vec<Cue> {
    let span = |digits: Vec<u32>| {
        let [start, end] = [0, 1].map(|at| time(digits[at], FIFTIETHS));
        let text = Script { count: digits[2] };
        Cue { text, start, end }
    };
    groups(text, 3).into_iter().map(span).collect()
}

/// A row of placing.
fn placed(&(text, spans_text, asked): &Placed) {
    let (mut words, spans) = (words(text, FIFTIETHS), spans(spans_text));
    let rust = align_phrases(&words, &spans).unwrap();
    let count = rust.words.len();
    let phrases = rust.phrase.iter().map(|&phrase| phrase as u32);
    words.fill(HeardWord::default());
    words[..count].copy_from_slice(&rust.words);
    let answer = match asked {
        COUNT => number([count as u32].into_iter().chain(phrases)),
        _ => answer(&words, asked),
    };
    let digits = groups(spans_text, 3).into_iter().flatten();
    let second = number([spans.len() as u32].into_iter().chain(digits));
    row('G', first(text, asked), second, answer);
}

/// All rows, always the same.
pub fn write() {
    EVENED.iter().for_each(|&list| evened('V', list, 0));
    PLACED.iter().for_each(placed);
    // one step past the Rust's answer
    evened('U', PLANTED, 1);
}
