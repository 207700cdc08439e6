//! Times both sides on the full run of an hour.

use std::hint::black_box;

use crate::bench::head;
use crate::check::HeardWord;
use crate::ffi::{self, Lending};
use crate::full::Full;
use crate::full_rule::{self, stages};
use crate::inputs::Random;
use crate::pieces::need;
use crate::places::Places;
use crate::recordings::HOP;
use crate::transcript::envelope::Envelope;
use crate::transcript::loops::collapse_loops;
use crate::words::{Lent, MAX_WORDS, Spans, Work};
use crate::words_alone;
use crate::words_hour::{ordinary, row};

/// A full run of ours. The places for what it gives are made in its time.
fn ours(full: &Full, words: &mut Lent) {
    let (n, frames) = (full.words.len(), full.samples.len() / HOP);
    let mut lending = Lending {
        words: std::mem::replace(words, Lent::new(&[])),
        spans: Spans::new(&full.spans),
        phrases: Places::new(n),
        levels: Places::new(frames),
        piece_starts: Places::new(need(frames)),
        piece_ends: Places::new(need(frames)),
        work: Work::new([n; 3]),
    };
    black_box(ffi::full_run(black_box(&full.samples), &mut lending));
    black_box(lending);
}

/// Prints the rows: an hour's ordinary words in the ordinary spans of what loops leave of them, and
/// without spans. The Rust's fit by phrase makes the levels once more; its loop on ready ones has a row
/// of its own.
pub fn bench(seed: u64, runs: usize, samples: Vec<f32>, heard: &Envelope) {
    let mut random = Random::new(seed, 0);
    let words = ordinary(heard, &mut random);
    let left = collapse_loops(&words).unwrap().words;
    let spans = words_alone::ordinary(&left, &mut random);
    let (n, n_spans, count) = (left.len(), spans.len(), samples.len());
    let text = format!(
        "{runs} full runs of {count} samples, {MAX_WORDS} words, {n} after loops, {n_spans} spans"
    );
    head(&text, "milliseconds");
    let mut full = Full {
        kind: "an hour",
        words,
        spans,
        samples,
    };
    let in_a_row = |full: &Full| {
        black_box(stages(black_box(full)));
    };
    let heard_once = |full: &Full| {
        black_box(full_rule::heard_once(black_box(full)));
    };
    let print = |name: &str, full: &Full, rust: &dyn Fn(&Full)| {
        let mine = |words: &mut Lent| ours(full, words);
        let theirs = |_: &mut [HeardWord]| rust(full);
        row(name, runs, &full.words, &mine, &theirs);
    };
    print("full run of an hour", &full, &in_a_row);
    print("full run of an hour, heard once", &full, &heard_once);
    full.spans.clear();
    print("full run of an hour, no spans", &full, &in_a_row);
    print("full run, no spans, heard once", &full, &heard_once);
}
