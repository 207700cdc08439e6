//! The rule of fitting by phrase, written a second time with its numbers open: over the second rules
//! of fitting and of the last run, it tells which branches a list reaches, and it can be made wrong
//! on purpose (src/planted.rs). Beside it stands the loop of fit.rs over the Rust's own functions, for
//! levels that no samples gave.

use crate::check::HeardWord;
use crate::fit_rule;
use crate::js::{js_max, js_min};
use crate::report::Reached;
use crate::run_rule;
use crate::text::Cue;
use crate::transcript::envelope::Envelope;
use crate::transcript::even::even_out;
use crate::transcript::fit::{fit_to_sound, last_run};
use crate::words::odd_times;

/// What the rule goes by.
#[derive(Clone, Copy)]
pub struct Rule {
    pub fit: fit_rule::Rule,
    pub run: run_rule::Rule,
    /// A phrase's duration, from the recording's and the span's end.
    pub duration: fn(f64, f64) -> f64,
    /// Whether words are kept inside the span.
    pub keeps_inside: bool,
    /// Sound after the last word counts that starts so much later.
    pub trailing_gap: f64,
    /// Whether the phrase is evened at last.
    pub evens: bool,
}

/// The rule of fit.rs.
pub const RIGHT: Rule = Rule {
    fit: fit_rule::RIGHT,
    run: run_rule::RIGHT,
    duration: js_min,
    keeps_inside: true,
    trailing_gap: 0.15,
    evens: true,
};

/// The branches, by their names.
pub const BRANCHES: &[&str] = &[
    "a span without words",
    "a word without a span",
    "a word with the largest number",
    "a phrase of one word",
    "a phrase of several words",
    "a last run taken",
    "a last run taken after another word",
    "a last run not late enough",
    "no last run",
    "a start put at the span's start",
    "a start put before the span's end",
    "a word made 0.04 s long",
    "an end cut to the span's end",
    "a phrase evened at last",
    "words in a span under 0.04 s",
    "a start put before its span",
    "words in a span of no length",
    "words in a reversed span",
    "words in a span past the recording",
    "words in a span before zero",
    "a span that overlaps the one before",
    "numbers that go down",
    "words of a phrase apart",
    "no words",
    "no spans",
    "100 words or more",
    "100 spans or more",
    "a floor that is NaN",
    "an infinite floor",
    "-0 among the times",
    "7,200 s among the times",
    "a subnormal time",
];

const NO_MEMBERS: usize = 0;
const NO_SPAN: usize = 1;
const LARGEST: usize = 2;
const ONE: usize = 3;
const SEVERAL: usize = 4;
const TAKEN: usize = 5;
const TAKEN_AFTER: usize = 6;
const NOT_LATE: usize = 7;
const NO_RUN: usize = 8;
const RAISED: usize = 9;
const LOWERED: usize = 10;
const LENGTHENED: usize = 11;
const CUT: usize = 12;
const EVENED: usize = 13;
const SHORT: usize = 14;
const BEFORE_SPAN: usize = 15;
const EMPTY: usize = 16;
const REVERSED: usize = 17;
const PAST: usize = 18;
const BEFORE_ZERO: usize = 19;
const OVERLAP: usize = 20;
const DOWN: usize = 21;
const APART: usize = 22;
const NO_WORDS: usize = 23;
const NO_SPANS: usize = 24;
const LONG: usize = 25;
const MANY_SPANS: usize = 26;
const NAN: usize = 27;
const INFINITE: usize = 28;
const ODD: usize = 29;

/// What words are fitted to: their numbers, the spans, and a recording.
#[derive(Clone, Copy)]
pub struct To<'a> {
    pub phrases: &'a [u32],
    pub spans: &'a [Cue],
    pub heard: &'a Envelope,
    pub count: usize,
}

impl To<'_> {
    /// The recording's duration.
    fn duration(&self) -> f64 {
        self.count as f64 / 16000.0
    }

    /// The places of a phrase's words.
    fn members(&self, phrase: usize) -> Vec<usize> {
        let numbers = self.phrases.iter().enumerate();
        let of_it = numbers.filter(|(_, number)| **number as usize == phrase);
        of_it.map(|(at, _)| at).collect()
    }
}

/// The words of a phrase.
struct Group<'a> {
    rule: &'a Rule,
    span: &'a Cue,
    to: &'a To<'a>,
    words: Vec<HeardWord>,
    reached: &'a mut Reached,
}

impl Group<'_> {
    /// Keeps a word inside the span.
    fn keep_inside(&mut self, at: usize) {
        let Cue { start, end, .. } = *self.span;
        let word = &mut self.words[at];
        let raised = js_max(word.start, start);
        let kept = js_min(raised, end - 0.04);
        let longer = js_max(word.end, kept + 0.04);
        let reached = &mut self.reached;
        reached.add(RAISED, word.start < start);
        reached.add(LOWERED, kept < raised);
        reached.add(BEFORE_SPAN, kept < start);
        reached.add(LENGTHENED, longer > word.end);
        reached.add(CUT, longer > end);
        (word.start, word.end) = (kept, js_min(longer, end));
    }

    /// Gives the last word the last run of sound, where that is late enough.
    fn take_last_run(&mut self) {
        let last = self.words.len() - 1;
        let after = self.words[last].end + self.rule.trailing_gap;
        let (found, _) = self.rule.run.last_run(self.to.heard, after, self.span.end);
        self.reached.add(NO_RUN, found.is_none());
        let Some((start, end)) = found else { return };
        let is_late = start > after;
        self.reached.add(NOT_LATE, !is_late);
        self.reached.add(TAKEN, is_late);
        if !is_late {
            return;
        }
        (self.words[last].start, self.words[last].end) = (start, end);
        if last > 0 {
            self.reached.add(TAKEN_AFTER, true);
            self.words[last - 1].end = js_min(self.words[last - 1].end, start);
        }
    }

    /// Notes what there is to the phrase as it is given.
    fn look(&mut self) {
        let Cue { start, end, .. } = *self.span;
        let reached = &mut self.reached;
        reached.add(ONE, self.words.len() == 1);
        reached.add(SEVERAL, self.words.len() > 1);
        reached.add(SHORT, start < end && end - start < 0.04);
        reached.add(EMPTY, start == end);
        reached.add(REVERSED, end < start);
        reached.add(PAST, end > self.to.duration());
        reached.add(BEFORE_ZERO, start < 0.0);
    }

    fn fit(&mut self) {
        self.look();
        let duration = (self.rule.duration)(self.to.duration(), self.span.end);
        let fit = &self.rule.fit;
        fit.fit_to_sound(&mut self.words, self.to.heard, duration);
        if self.rule.keeps_inside {
            (0..self.words.len()).for_each(|at| self.keep_inside(at));
        }
        self.take_last_run();
        if self.rule.evens {
            let before = self.words.clone();
            even_out(&mut self.words, self.span.end).unwrap();
            self.reached.add(EVENED, self.words != before);
        }
    }
}

/// Whether other words lie between a phrase's words.
fn apart(members: &[usize]) -> bool {
    members.windows(2).any(|pair| pair[1] > pair[0] + 1)
}

/// Notes what there is to the words and spans together.
fn look(words: &[HeardWord], to: &To, reached: &mut Reached) {
    let To {
        phrases,
        spans,
        heard,
        ..
    } = *to;
    let has_none = |&number: &u32| number as usize >= spans.len();
    let overlaps = |pair: &[Cue]| pair[1].start < pair[0].end;
    reached.add(NO_SPAN, phrases.iter().any(has_none));
    reached.add(LARGEST, phrases.contains(&u32::MAX));
    reached.add(OVERLAP, spans.windows(2).any(overlaps));
    reached.add(DOWN, phrases.windows(2).any(|pair| pair[1] < pair[0]));
    reached.add(NO_WORDS, words.is_empty());
    reached.add(NO_SPANS, spans.is_empty());
    reached.add(LONG, words.len() >= 100);
    reached.add(MANY_SPANS, spans.len() >= 100);
    reached.add(NAN, heard.floor.is_nan());
    reached.add(INFINITE, heard.floor.is_infinite());
    for (at, yes) in odd_times(words).into_iter().enumerate() {
        reached.add(ODD + at, yes);
    }
}

impl Rule {
    /// Fits the words of each phrase, and tells what was reached.
    pub fn fit_file(&self, words: &mut [HeardWord], to: To) -> Reached {
        let mut reached = Reached::default();
        look(words, &to, &mut reached);
        for (phrase, span) in to.spans.iter().enumerate() {
            let members = to.members(phrase);
            reached.add(NO_MEMBERS, members.is_empty());
            reached.add(APART, apart(&members));
            if members.is_empty() {
                continue;
            }
            let mut group = Group {
                rule: self,
                span,
                to: &to,
                words: members.iter().map(|&at| words[at]).collect(),
                reached: &mut reached,
            };
            group.fit();
            for (at, word) in members.into_iter().zip(group.words) {
                words[at] = word;
            }
        }
        reached
    }
}

/// The loop of fit.rs over the Rust's own functions.
pub fn fit_phrases(words: &mut [HeardWord], to: To) {
    for (phrase, span) in to.spans.iter().enumerate() {
        let members = to.members(phrase);
        if members.is_empty() {
            continue;
        }
        let mut group: Vec<HeardWord> = members.iter().map(|&at| words[at]).collect();
        fit_to_sound(&mut group, to.heard, js_min(to.duration(), span.end)).unwrap();
        for w in &mut group {
            w.start = js_min(js_max(w.start, span.start), span.end - 0.04);
            w.end = js_min(js_max(w.end, w.start + 0.04), span.end);
        }
        let last = group.len() - 1;
        let after = group[last].end + 0.15;
        if let Some((start, end)) = last_run(to.heard, after, span.end)
            && start > after
        {
            (group[last].start, group[last].end) = (start, end);
            if last > 0 {
                group[last - 1].end = js_min(group[last - 1].end, start);
            }
        }
        even_out(&mut group, span.end).unwrap();
        for (at, word) in members.into_iter().zip(group) {
            words[at] = word;
        }
    }
}
