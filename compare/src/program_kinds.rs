//! What job files reach: the refusals, alone and over others, what runs that are taken come to, and the
//! ways in which a job comes.

use crate::check::{HeardWord, Text};
use crate::full::Full;
use crate::full_rule::Outcome;
use crate::job::{MOST, TABLE, Table};
use crate::process::Way;
use crate::program::Answer;
use crate::program_rule::RIGHT;
use crate::program_rule::Test::{self, Counts, Length, Numbers, Offsets, Texts, Times};
use crate::recordings::HOP;
use crate::report::Reached;
use crate::words::{LAST, MAX_COUNT, MAX_LETTERS, MAX_UNITS, odd_times};

/// What is of a kind: a job with a whole table, a run that is taken, a way.
type IsMeasured = fn(&Measured) -> bool;
type IsTaken = fn(&Taken) -> bool;
type IsWay = fn(Way) -> bool;

/// The jobs that are refused, by the first test that they fail, and a further one.
const REFUSED: &[(&str, Test, Option<Test>)] = &[
    ("refused 5, no whole table", Test::Table, None),
    ("refused 4, a number", Numbers, None),
    ("refused 4, a number, and an offset", Numbers, Some(Offsets)),
    ("refused 4, a number, and the length", Numbers, Some(Length)),
    ("refused 5, an offset", Offsets, None),
    ("refused 5, an offset, and a count", Offsets, Some(Counts)),
    ("refused 5, an offset, and a time", Offsets, Some(Times)),
    ("refused 5, an offset, and a text", Offsets, Some(Texts)),
    ("refused 5, the length", Length, None),
    ("refused 5, the length, and a count", Length, Some(Counts)),
    ("refused 5, the length, and a time", Length, Some(Times)),
    ("refused 5, the length, and a text", Length, Some(Texts)),
    ("refused 4, a count", Counts, None),
    ("refused 4, a count, and a time", Counts, Some(Times)),
    ("refused 4, a count, and a text", Counts, Some(Texts)),
    ("refused 1, a time", Times, None),
    ("refused 1, a time, and a text", Times, Some(Texts)),
    ("refused 2, letters or units", Texts, None),
];

/// A job with a whole table.
struct Measured {
    length: usize,
    /// How long it has to be.
    end: usize,
    numbers: [u32; 3],
    is_laid_out: bool,
    refusal: Option<u32>,
}

impl Measured {
    /// Whether a number is one more than is taken, in a file that is as it has to be.
    fn is_one_more(&self, at: usize) -> bool {
        self.is_laid_out && self.numbers[at] == MOST[at] + 1
    }
}

/// The jobs with a whole table, by their lengths and numbers.
const MEASURED: &[(&str, IsMeasured)] = &[
    ("a table alone, refused 5", |job| {
        job.length == TABLE && job.refusal == Some(5)
    }),
    ("one byte too few", |job| job.length + 1 == job.end),
    ("one byte too many", |job| job.length == job.end + 1),
    ("513 words, laid out", |job| job.is_one_more(0)),
    ("65 spans, laid out", |job| job.is_one_more(1)),
    ("960,160 samples, laid out", |job| job.is_one_more(2)),
    ("a number over 2^31", |job| {
        job.numbers.iter().any(|&n| n > 1 << 31)
    }),
];

/// A run that is taken.
struct Taken<'a> {
    full: &'a Full,
    outcome: &'a Outcome,
    way: Way,
    given: usize,
    left: &'a [HeardWord],
    moved: bool,
    dropped: bool,
}

impl<'a> Taken<'a> {
    fn new(full: &'a Full, outcome: &'a Outcome, way: Way) -> Taken<'a> {
        let times = |w: &HeardWord| [w.start, w.end].map(f64::to_bits);
        let left = &outcome.words[..outcome.count];
        let given = full.words.len();
        let kept = full.spans.iter().map(|span| span.text.count as usize).sum();
        Taken {
            full,
            outcome,
            way,
            given,
            left,
            moved: !left
                .iter()
                .zip(&full.words)
                .all(|(a, b)| times(a) == times(b)),
            dropped: !full.spans.is_empty() && left.len() == kept && kept < given,
        }
    }

    fn pieces(&self) -> usize {
        self.outcome.pieces.len()
    }

    fn at(&self, time: f64) -> bool {
        let words = self.full.words.iter().map(|word| [word.start, word.end]);
        let spans = self.full.spans.iter().map(|span| [span.start, span.end]);
        words.chain(spans).flatten().any(|t| t == time)
    }

    fn sample(&self, is: fn(f32) -> bool) -> bool {
        self.given > 0 && self.full.samples.iter().any(|&sample| is(sample))
    }

    fn span_takes(&self, count: u32) -> bool {
        self.full.spans.iter().any(|span| span.text.count == count)
    }

    fn text(&self, is: fn(&Text) -> bool) -> bool {
        self.full.words.iter().any(|word| is(&word.text))
    }

    fn is_most(&self, at: usize) -> bool {
        let full = self.full;
        let sizes = [full.words.len(), full.spans.len(), full.samples.len()];
        sizes[at] as u32 == MOST[at]
    }
}

/// The jobs that are taken.
const TAKEN: &[(&str, IsTaken)] = &[
    ("taken, with spans", |run| !run.full.spans.is_empty()),
    ("taken, without spans", |run| run.full.spans.is_empty()),
    ("taken, nothing printed", |run| {
        run.pieces() == 0 && run.left.is_empty()
    }),
    ("a piece, without words", |run| {
        run.pieces() > 0 && run.given == 0
    }),
    ("words, without a piece", |run| {
        run.pieces() == 0 && !run.left.is_empty()
    }),
    ("several pieces", |run| run.pieces() > 1),
    ("several pieces, in parts", |run| {
        run.pieces() > 1 && matches!(run.way, Way::Parts(_))
    }),
    ("a loop found", |run| run.outcome.found),
    ("words dropped", |run| run.dropped),
    ("words dropped, after loops", |run| {
        run.dropped && run.outcome.found
    }),
    ("every word dropped", |run| {
        run.given > 0 && run.left.is_empty()
    }),
    ("a time moved", |run| run.moved),
    ("no time moved, of some words", |run| {
        !run.moved && !run.left.is_empty()
    }),
    ("a phrase number of two digits", |run| {
        let numbers = &run.outcome.phrases[..run.left.len()];
        !run.full.spans.is_empty() && numbers.iter().any(|&number| number > 9)
    }),
    ("a NaN sample, with words", |run| run.sample(f32::is_nan)),
    ("an infinite sample, with words", |run| {
        run.sample(f32::is_infinite)
    }),
    ("samples past the last frame", |run| {
        run.full.samples.len() % HOP > 0
    }),
    ("512 words", |run| run.is_most(0)),
    ("64 spans", |run| run.is_most(1)),
    ("960,159 samples", |run| run.is_most(2)),
    ("all three", |run| {
        [0, 1, 2].iter().all(|&at| run.is_most(at))
    }),
    ("a span that takes 4,096 words", |run| {
        run.span_takes(MAX_COUNT)
    }),
    ("a span that takes no words", |run| run.span_takes(0)),
    ("a time of 7,200 s", |run| run.at(LAST)),
    ("a time of -7,200 s", |run| run.at(-LAST)),
    ("a time of -0", |run| odd_times(&run.full.words)[0]),
    ("a subnormal time", |run| odd_times(&run.full.words)[2]),
    ("a time before zero printed", |run| {
        run.left.iter().any(|word| word.start < 0.0)
    }),
    ("1 letter", |run| run.text(|text| text.letters == 1)),
    ("1,000 letters", |run| {
        run.text(|text| text.letters == MAX_LETTERS)
    }),
    ("1 unit", |run| run.text(|text| text.units == 1)),
    ("10,000 units", |run| {
        run.text(|text| text.units == MAX_UNITS)
    }),
];

/// The ways, by what is answered: 0 where the job is taken.
const WAYS: &[(&str, IsWay, &[u32])] = &[
    ("by a file, taken", |way| way == Way::File, &[0]),
    ("by a file, refused", |way| way == Way::File, &[1, 2, 4, 5]),
    ("by a pipe, taken", |way| way == Way::Pipe, &[0]),
    ("by a pipe, refused", |way| way == Way::Pipe, &[1, 2, 4, 5]),
    ("in parts, taken", |way| matches!(way, Way::Parts(_)), &[0]),
    (
        "in parts, refused",
        |way| matches!(way, Way::Parts(_)),
        &[1, 2, 4, 5],
    ),
    ("endless, refused 4", |way| way == Way::Endless, &[4]),
    ("endless, refused 5", |way| way == Way::Endless, &[5]),
];

/// The names of all kinds.
pub fn names() -> Vec<String> {
    let names = REFUSED.iter().map(|kind| kind.0);
    let names = names.chain(MEASURED.iter().map(|kind| kind.0));
    let names = names.chain(TAKEN.iter().map(|kind| kind.0));
    let names = names.chain(WAYS.iter().map(|kind| kind.0));
    names.map(String::from).collect()
}

/// What a job is of each kind, in the order of their names.
pub fn reached(job: &[u8], way: Way, answer: &Answer) -> Reached {
    let fails = |test: Test| RIGHT.fails(job, test);
    let first = RIGHT.tests.iter().copied().find(|&test| fails(test));
    let refusal = answer.as_ref().err().copied();
    let measured = Table::of(job).map(|table| Measured {
        length: job.len(),
        end: table.places()[3],
        numbers: table.numbers,
        is_laid_out: !fails(Offsets) && !fails(Length),
        refusal,
    });
    let run = answer.as_ref().ok();
    let run = run.map(|(full, outcome)| Taken::new(full, outcome, way));
    let refused = REFUSED
        .iter()
        .map(|&(_, test, more)| first == Some(test) && more.is_none_or(fails));
    let sizes = MEASURED
        .iter()
        .map(|(_, is)| measured.as_ref().is_some_and(is));
    let taken = TAKEN.iter().map(|(_, is)| run.as_ref().is_some_and(is));
    let ways = WAYS
        .iter()
        .map(|(_, is, answers)| is(way) && answers.contains(&refusal.unwrap_or(0)));
    let mut reached = Reached::default();
    for (at, yes) in refused.chain(sizes).chain(taken).chain(ways).enumerate() {
        reached.add(at, yes);
    }
    reached
}
