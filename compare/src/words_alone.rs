//! Times both sides on as many words as are taken, where no sound is asked: placing and evening.

use std::cell::RefCell;
use std::hint::black_box;

use crate::check::HeardWord;
use crate::ffi;
use crate::inputs::Random;
use crate::places::Places;
use crate::text::{Cue, Script};
use crate::transcript::even::even_out;
use crate::transcript::phrase_align::align_phrases;
use crate::words::{Lent, MAX_WORDS, Spans};
use crate::words_hour::{HOUR, each, row};

/// A row of placing. The Rust makes room for its answer in the call: so does ours, for the phrase
/// numbers.
fn phrases(name: &str, runs: usize, words: &[HeardWord], spans: &[Cue]) {
    let lent = RefCell::new(Spans::new(spans));
    let ours = |words: &mut Lent| {
        let mut phrases = Places::new(words.starts.lent());
        let spans = &mut lent.borrow_mut();
        black_box(ffi::align_phrases(words, black_box(spans), &mut phrases));
        black_box(phrases.bits());
    };
    let rust = |words: &mut [HeardWord]| {
        black_box(align_phrases(words, black_box(spans)).unwrap());
    };
    let name = format!("align_phrases, {name}");
    row(&name, runs, words, &ours, &rust);
}

/// A row of evening.
fn even(name: &str, runs: usize, words: &[HeardWord], limit: f64) {
    let ours = |words: &mut Lent| {
        black_box(ffi::even_out(words, black_box(limit)));
    };
    let rust = |words: &mut [HeardWord]| even_out(words, black_box(limit)).unwrap();
    row(&format!("even_out, {name}"), runs, words, &ours, &rust);
}

/// A span that takes so many words.
pub fn span(count: usize, start: f64, end: f64) -> Cue {
    let count = count as u32;
    let text = Script { count };
    Cue { text, start, end }
}

/// Spans of one to twelve words each, from 0.1 s after the first word starts to 0.1 s before the last
/// one ends: these two are not inside.
pub fn ordinary(words: &[HeardWord], random: &mut Random) -> Vec<Cue> {
    let mut spans = Vec::new();
    let mut rest = words;
    while !rest.is_empty() {
        let n = (1 + random.below(12) as usize).min(rest.len());
        let (start, end) = (rest[0].start + 0.1, rest[n - 1].end - 0.1);
        spans.push(span(n, start, end));
        rest = &rest[n..];
    }
    spans
}

/// Words of which the first and the last alone are inside, all in one phrase; or none is; or each has
/// a phrase of its own.
fn slow_phrases(runs: usize) {
    let inside = |at| at == 0 || at + 1 == MAX_WORDS;
    let strays = each(|at| if inside(at) { (0.5, 1.0) } else { (0.5, 0.5) });
    let none = each(|at| (at as f64, at as f64));
    let one = span(MAX_WORDS, 0.0, HOUR);
    let own: Vec<Cue> = none.iter().map(|w| span(1, w.start, w.end)).collect();
    phrases("strays between two", runs, &strays, &[one]);
    phrases("one phrase, spread", runs, &none, &[one]);
    phrases("a phrase each", runs, &none, &own);
}

/// Words of one letter in groups of four: runs go back over the ones before them, which stay crushed
/// when they are evened.
fn going_back() -> Vec<HeardWord> {
    let times = |at: usize| {
        let (start, length) = [(0.0, 8.0), (1.0, -16.0), (1.0, 1.5), (3.0, 1.0)][at % 4];
        let start = start + 3.0 * (at / 4) as f64;
        (start / 16.0, (start + length) / 16.0)
    };
    let mut words = each(times);
    for word in &mut words {
        word.text.letters = 1;
    }
    words
}

/// Slow words for `even_out`: all of them one run, or runs that go back.
fn slow_even(runs: usize) {
    even("one run", runs, &each(|_| (0.5, 0.5)), HOUR);
    even("runs that go back", runs, &going_back(), f64::INFINITY);
}

/// Prints the rows: words as they are heard, and slow ones.
pub fn bench(runs: usize, words: &[HeardWord], random: &mut Random) {
    phrases("ordinary", runs, words, &ordinary(words, random));
    slow_phrases(runs);
    even("ordinary", runs, words, HOUR);
    slow_even(runs);
}
