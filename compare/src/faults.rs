//! What calls that take words are given, and ways to make it something that they refuse.

use crate::check::HeardWord;
use crate::inputs::Random;
use crate::places::{Bits, Places};
use crate::recordings::{HOP, MAX_SAMPLES};
use crate::text::{Cue, Script};
use crate::words::{
    LAST, Lent, MAX_COUNT, MAX_LETTERS, MAX_SPANS, MAX_UNITS, MAX_WORDS, Spans, Work, named, same,
    text,
};

/// What a call is lent: words, spans, places for the words' phrase numbers, these numbers, work space,
/// and a place for each span.
#[derive(Clone)]
pub struct Loan {
    pub words: Lent,
    pub spans: Spans,
    pub phrases: Places<u32>,
    pub numbers: Places<u32>,
    pub work: Work,
    pub tallies: Places,
}

impl Loan {
    /// What is wrong with what was lent, which should be as it was.
    pub fn stay(&self, before: &Loan) -> Option<String> {
        let phrases = || named("phrases", same(&self.phrases, &before.phrases));
        let numbers = || named("numbers", same(&self.numbers, &before.numbers));
        let words = self.words.stay(&before.words);
        words
            .or_else(|| self.spans.stay(&before.spans))
            .or_else(phrases)
            .or_else(numbers)
            .or_else(|| self.work.stay(&before.work))
            .or_else(|| named("tallies", same(&self.tallies, &before.tallies)))
    }
}

/// What a call is given.
pub struct Given {
    pub loan: Loan,
    pub levels: Vec<f64>,
    pub floor: f64,
    pub count: usize,
    pub duration: f64,
    pub limit: f64,
    /// The times of a last run's search.
    pub from: f64,
    pub to: f64,
}

impl Given {
    /// So many words, which no call refuses.
    pub fn new(n: usize, random: &mut Random) -> Given {
        let frames = random.below(12) as usize;
        let spans = random.below(5) as usize;
        let loan = Loan {
            words: Lent::new(&words(n, random)),
            spans: Spans::new(&spans_of(spans, random)),
            phrases: Places::new(n + random.of(&[0, 0, 1, 5])),
            numbers: numbers(n, spans, random),
            work: Work::new([(); 3].map(|()| n + random.of(&[0, 0, 1, 5]))),
            tallies: Places::new(spans + random.of(&[0, 0, 1, 5])),
        };
        Given {
            loan,
            levels: vec![1.0; frames],
            floor: random.of(&[0.5, 1.0, f64::NAN]),
            count: frames * HOP + random.of(&[0, 1, HOP - 1]),
            duration: random.of(&[0.0, frames as f64 / 100.0, LAST, -LAST]),
            limit: random.of(&[0.0, -0.0, 0.5, LAST, -LAST, f64::INFINITY]),
            from: time(random),
            to: time(random),
        }
    }
}

/// A time that is taken, often at the limits.
fn time(random: &mut Random) -> f64 {
    let any = random.below(1000) as f64 / 1000.0;
    random.of(&[any, any, LAST, -LAST, -0.0])
}

/// Phrase numbers, all of which are taken.
fn numbers(n: usize, spans: usize, random: &mut Random) -> Places<u32> {
    let list = [0, 1, spans as u32, u32::MAX];
    let numbers: Vec<u32> = (0..n).map(|_| random.of(&list)).collect();
    Places::holding(numbers.into_iter())
}

/// Spans that are taken, many of them at the limits.
fn spans_of(n: usize, random: &mut Random) -> Vec<Cue> {
    let span = || Cue {
        text: Script {
            count: random.of(&[0, 1, 2, MAX_COUNT]),
        },
        start: time(random),
        end: time(random),
    };
    std::iter::repeat_with(span).take(n).collect()
}

/// Words that are taken, many of them at the limits.
fn words(n: usize, random: &mut Random) -> Vec<HeardWord> {
    let word = || HeardWord {
        text: text(random),
        start: time(random),
        end: time(random),
    };
    std::iter::repeat_with(word).take(n).collect()
}

/// A way to make what is given something that is refused.
pub type Fault = fn(&mut Given, &mut Random);

pub const FAULTS: &[Fault] = &[
    another_length,
    another_length_of_spans,
    too_many_words,
    too_many_spans,
    too_many_samples,
    too_large_count,
    bad_time,
    all_marks,
    bad_time_of_span,
    all_marks_of_spans,
    |given, random| given.duration = no_time(random),
    |given, random| given.limit = no_limit(random),
    bad_time_of_search,
    |given, random| {
        put(
            &mut given.loan.words.letters,
            &[0, MAX_LETTERS + 1, u32::MAX],
            random,
        )
    },
    |given, random| {
        put(
            &mut given.loan.words.units,
            &[0, MAX_UNITS + 1, u32::MAX],
            random,
        )
    },
    other_levels,
    too_few_places,
    another_length_of_numbers,
    too_little_work,
    too_few_tallies,
];

/// Another length than n.
fn other_than(n: usize, random: &mut Random) -> usize {
    random.of(&[n + 1, n.saturating_sub(1), 0, 2 * n + 1, MAX_WORDS + 1])
}

/// One of the five lists of words is longer or shorter than the others.
fn another_length(given: &mut Given, random: &mut Random) {
    let words = &mut given.loan.words;
    let length = other_than(words.starts.lent(), random);
    match random.below(5) {
        0 => resize(&mut words.starts, length),
        1 => resize(&mut words.ends, length),
        2 => resize(&mut words.letters, length),
        3 => resize(&mut words.units, length),
        _ => resize(&mut words.keys, length),
    }
}

/// One of the three lists of spans is longer or shorter than the others.
fn another_length_of_spans(given: &mut Given, random: &mut Random) {
    let spans = &mut given.loan.spans;
    let length = other_than(spans.starts.lent(), random);
    match random.below(3) {
        0 => resize(&mut spans.starts, length),
        1 => resize(&mut spans.ends, length),
        _ => resize(&mut spans.counts, length),
    }
}

/// The list with so many places: what it held, and marks.
fn resize<T: Bits>(list: &mut Places<T>, length: usize) {
    let mut longer = Places::new(length);
    for (place, &held) in longer.held().iter_mut().zip(&list.bits()[..list.lent()]) {
        *place = held;
    }
    *list = longer;
}

/// One word too many: words that are taken, or places that hold their marks.
fn too_many_words(given: &mut Given, random: &mut Random) {
    let n = MAX_WORDS + 1;
    given.loan.phrases = Places::new(random.of(&[n, n, 0, MAX_WORDS]));
    given.loan.numbers = numbers(random.of(&[n, n, n, MAX_WORDS]), 3, random);
    given.loan.work = Work::new([(); 3].map(|()| random.of(&[n, n, 0, MAX_WORDS])));
    given.loan.words = if random.below(2) == 0 {
        Lent::new(&words(n, random))
    } else {
        let [starts, ends] = [(); 2].map(|()| Places::new(n));
        let [letters, units, keys] = [(); 3].map(|()| Places::new(n));
        Lent {
            starts,
            ends,
            letters,
            units,
            keys,
        }
    };
}

/// One span too many: spans that are taken, or places that hold their marks.
fn too_many_spans(given: &mut Given, random: &mut Random) {
    let n = MAX_SPANS + 1;
    given.loan.tallies = Places::new(random.of(&[n, n, 0, MAX_SPANS]));
    given.loan.spans = if random.below(2) == 0 {
        Spans::new(&spans_of(n, random))
    } else {
        let [starts, ends] = [(); 2].map(|()| Places::new(n));
        let counts = Places::new(n);
        Spans {
            starts,
            ends,
            counts,
        }
    };
}

/// A span that takes too many words.
fn too_large_count(given: &mut Given, random: &mut Random) {
    let bad = [MAX_COUNT + 1, MAX_COUNT + 1, u32::MAX];
    put(&mut given.loan.spans.counts, &bad, random);
}

/// One sample too many, with as many levels or with others; or as many as can be said.
fn too_many_samples(given: &mut Given, random: &mut Random) {
    given.count = random.of(&[MAX_SAMPLES + 1, MAX_SAMPLES + 1, usize::MAX]);
    if random.below(2) == 0 {
        given.levels = vec![0.0; MAX_SAMPLES / HOP];
    }
}

/// A double that is no time.
fn no_time(random: &mut Random) -> f64 {
    let nan = [0x7FF0_0000_0000_0001, 0x7FF8_0000_0000_0123].map(f64::from_bits);
    let past = LAST.next_up();
    let t = random.of(&[past, past, f64::MAX, f64::INFINITY, nan[0], nan[1]]);
    random.of(&[t, -t])
}

/// A double that is neither a time nor the limit that is none.
fn no_limit(random: &mut Random) -> f64 {
    let t = no_time(random);
    let below = f64::NEG_INFINITY;
    random.of(&[below, if t == f64::INFINITY { below } else { t }])
}

/// One of these in a place of the list, if it has any.
fn put<T: Bits>(list: &mut Places<T>, bad: &[T], random: &mut Random) {
    let n = list.lent() as u64;
    if n > 0 {
        let last = n - 1;
        let any = random.below(n);
        list.held()[random.of(&[0, any, last]) as usize] = random.of(bad);
    }
}

/// A start or an end that is no time, in one of two lists.
fn put_no_time(starts: &mut Places, ends: &mut Places, random: &mut Random) {
    let bad = [no_time(random).to_bits()];
    put(random.of_two(starts, ends), &bad, random);
}

/// One of two lists with marks alone.
fn put_marks(starts: &mut Places, ends: &mut Places, random: &mut Random) {
    let list = random.of_two(starts, ends);
    *list = Places::new(list.lent());
}

/// One word's start or end that is no time.
fn bad_time(given: &mut Given, random: &mut Random) {
    let Lent { starts, ends, .. } = &mut given.loan.words;
    put_no_time(starts, ends, random);
}

/// Starts or ends of words that are all marks.
fn all_marks(given: &mut Given, random: &mut Random) {
    let Lent { starts, ends, .. } = &mut given.loan.words;
    put_marks(starts, ends, random);
}

/// One span's start or end that is no time.
fn bad_time_of_span(given: &mut Given, random: &mut Random) {
    let Spans { starts, ends, .. } = &mut given.loan.spans;
    put_no_time(starts, ends, random);
}

/// Starts or ends of spans that are all marks.
fn all_marks_of_spans(given: &mut Given, random: &mut Random) {
    let Spans { starts, ends, .. } = &mut given.loan.spans;
    put_marks(starts, ends, random);
}

/// One of the two times of a search that is none.
fn bad_time_of_search(given: &mut Given, random: &mut Random) {
    let bad = no_time(random);
    *random.of_two(&mut given.from, &mut given.to) = bad;
}

/// One level more or fewer, or a sample too few or too many for the levels.
fn other_levels(given: &mut Given, random: &mut Random) {
    let frames = given.levels.len();
    match random.below(4) {
        0 => given.levels.push(1.0),
        1 if frames > 0 => given.levels.truncate(frames - 1),
        2 if frames > 0 => given.count = frames * HOP - 1,
        _ => given.count = (frames + 1) * HOP,
    }
}

/// Fewer phrase places than words: one fewer, or none.
fn too_few_places(given: &mut Given, random: &mut Random) {
    let fewer = given.loan.words.starts.lent().saturating_sub(1);
    given.loan.phrases = Places::new(random.of(&[fewer, fewer, 0]));
}

/// More phrase numbers than words, or fewer.
fn another_length_of_numbers(given: &mut Given, random: &mut Random) {
    let numbers = &mut given.loan.numbers;
    let length = other_than(numbers.lent(), random);
    resize(numbers, length);
}

/// Less work space than words, in one of the three lists or in each: a place less, or none.
fn too_little_work(given: &mut Given, random: &mut Random) {
    let n = given.loan.words.starts.lent();
    let fewer = random.of(&[n.saturating_sub(1), n.saturating_sub(1), 0]);
    let mut lengths = [n, n + 1, n];
    match random.below(4) {
        3 => lengths = [fewer; 3],
        list => lengths[list as usize] = fewer,
    }
    given.loan.work = Work::new(lengths);
}

/// Fewer places than spans: one fewer, or none.
fn too_few_tallies(given: &mut Given, random: &mut Random) {
    let fewer = given.loan.spans.starts.lent().saturating_sub(1);
    given.loan.tallies = Places::new(random.of(&[fewer, fewer, 0]));
}
