//! Times both sides on as many words as are taken, where they are fitted to the levels of an hour.

use std::cell::RefCell;
use std::hint::black_box;

use crate::check::HeardWord;
use crate::ffi::{self, Grouped, Over};
use crate::file_rule::{To, fit_phrases};
use crate::inputs::Random;
use crate::places::Places;
use crate::recordings::MAX_SAMPLES;
use crate::tally_rule::tallies;
use crate::text::Cue;
use crate::transcript::envelope::Envelope;
use crate::transcript::fit::{fit_to_sound, last_run};
use crate::words::{Lent, MAX_WORDS, Spans, Work};
use crate::words_alone::{ordinary, span};
use crate::words_hour::{HOUR, each, row};

/// An hour's levels, as ours takes them.
fn over(heard: &Envelope) -> Over<'_> {
    Over {
        levels: &heard.env,
        floor: heard.floor,
        count: MAX_SAMPLES,
    }
}

/// A row of the last run: a search for each of these pairs of times.
fn runs_between(name: &str, runs: usize, times: &[(f64, f64)], heard: &Envelope) {
    let ours = |_: &mut Lent| {
        for &(from, to) in black_box(times) {
            black_box(ffi::last_run(black_box(over(heard)), from, to));
        }
    };
    let rust = |_: &mut [HeardWord]| {
        for &(from, to) in black_box(times) {
            black_box(last_run(black_box(heard), from, to));
        }
    };
    row(&format!("last_run, {name}"), runs, &[], &ours, &rust);
}

/// A row of fitting.
fn fit(name: &str, runs: usize, words: &[HeardWord], heard: &Envelope) {
    let ours = |words: &mut Lent| {
        black_box(ffi::fit_to_sound(words, black_box(over(heard)), HOUR));
    };
    let rust = |words: &mut [HeardWord]| fit_to_sound(words, black_box(heard), HOUR).unwrap();
    row(&format!("fit_to_sound, {name}"), runs, words, &ours, &rust);
}

/// Words with their phrase numbers, and the spans.
struct Phrased<'a> {
    words: &'a [HeardWord],
    phrases: &'a [u32],
    spans: &'a [Cue],
}

/// A row of fitting by phrase. The Rust makes room for each group in the call: ours makes its work
/// space within its time. The Rust's own call would also make the levels: its loop runs over ready
/// ones.
fn files(name: &str, runs: usize, given: &Phrased, heard: &Envelope) {
    let lent = RefCell::new(Grouped {
        phrases: Places::holding(given.phrases.iter().copied()),
        spans: Spans::new(given.spans),
        work: Work::new([0; 3]),
    });
    let ours = |words: &mut Lent| {
        let lent = &mut lent.borrow_mut();
        lent.work = Work::new([words.starts.lent(); 3]);
        black_box(ffi::fit_file(
            words,
            black_box(lent),
            black_box(over(heard)),
        ));
        black_box(&lent.work);
    };
    let to = To {
        phrases: given.phrases,
        spans: given.spans,
        heard,
        count: MAX_SAMPLES,
    };
    let rust = |words: &mut [HeardWord]| fit_phrases(words, black_box(to));
    row(
        &format!("fit_file, {name}"),
        runs,
        given.words,
        &ours,
        &rust,
    );
}

/// A row of the tally, with document 01's stand-in for the Rust. Both make the places of the tallies
/// within their time.
fn tally(name: &str, runs: usize, given: &Phrased, heard: &Envelope) {
    let lent = RefCell::new((
        Places::holding(given.phrases.iter().copied()),
        Spans::new(given.spans),
    ));
    let ours = |words: &mut Lent| {
        let (phrases, spans) = &mut *lent.borrow_mut();
        let mut places = Places::new(spans.starts.lent());
        let over = black_box(over(heard));
        black_box(ffi::tally(words, phrases, spans, over, &mut places));
        black_box(places);
    };
    let to = To {
        phrases: given.phrases,
        spans: given.spans,
        heard,
        count: MAX_SAMPLES,
    };
    let rust = |words: &mut [HeardWord]| {
        black_box(tallies(words, black_box(to)));
    };
    row(&format!("tally, {name}"), runs, given.words, &ours, &rust);
}

/// The number of each word, where each span takes its count of them.
fn numbers(spans: &[Cue]) -> Vec<u32> {
    let each = |(number, span): (usize, &Cue)| vec![number as u32; span.text.count as usize];
    spans.iter().enumerate().flat_map(each).collect()
}

/// Prints the rows of the last run: between the starts of words that are heard, and one search over
/// an hour of sound.
fn last_runs(runs: usize, words: &[HeardWord], heard: &Envelope, loud: &Envelope) {
    let between: Vec<(f64, f64)> = words
        .windows(12)
        .map(|words| (words[0].start, words[11].start))
        .collect();
    runs_between("each twelve words", runs, &between, heard);
    runs_between("one over the hour", runs, &[(0.0, HOUR)], loud);
}

/// Prints the rows: words as they are heard, and slow ones. The levels are those that are heard, all
/// loud, and none loud.
pub fn bench(
    runs: usize,
    words: &[HeardWord],
    [heard, loud, none]: [&Envelope; 3],
    random: &mut Random,
) {
    last_runs(runs, words, heard, loud);
    fit("ordinary", runs, words, heard);
    let apart = |at| (at as f64 * 0.87, at as f64 * 0.87 + 0.5);
    fit("in silence", runs, &each(apart), none);
    fit("one crushed run", runs, &each(|_| (0.5, 0.5)), heard);
    let spans = ordinary(words, random);
    let given = Phrased {
        words,
        phrases: &numbers(&spans),
        spans: &spans,
    };
    files("ordinary", runs, &given, heard);
    tally("ordinary", runs, &given, heard);
    let given = Phrased {
        words,
        phrases: &[0; MAX_WORDS],
        spans: &[span(MAX_WORDS, 0.0, HOUR)],
    };
    files("one phrase", runs, &given, heard);
    let own = vec![span(1, 0.0, HOUR); MAX_WORDS];
    let given = Phrased {
        words: &each(|_| (0.0, 0.5)),
        phrases: &numbers(&own),
        spans: &own,
    };
    files("a phrase each", runs, &given, loud);
    let over_all = Phrased {
        words: &each(|_| (0.0, HOUR)),
        ..given
    };
    tally("each word over the hour", runs, &over_all, loud);
}
