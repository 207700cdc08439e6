//! The rule of placing, written a second time with its numbers open. It tells which branches words
//! and spans reach, and it can be made wrong on purpose (src/planted.rs).

use std::ops::Range;

use crate::check::{HeardWord, Text};
use crate::js::js_max;
use crate::report::Reached;
use crate::text::Cue;
use crate::words::odd_times;

/// What the rule goes by.
#[derive(Clone, Copy)]
pub struct Rule {
    /// A word may start so much before its span.
    pub before: f64,
    /// It may end so much after it.
    pub after: f64,
    /// Whether a start is soon enough after the least one, or a length enough for the least one.
    pub reaches: fn(f64, f64) -> bool,
    /// The room between two times.
    pub room: fn(f64, f64) -> f64,
    /// What a word's share goes by.
    pub weight: fn(&Text) -> f64,
    /// A word's part of some room, from its weight and that of all.
    pub share: fn(f64, f64, f64) -> f64,
    /// Whether words between are moved.
    pub moves_strays: bool,
    /// The end of such a word, from its start and the next one's.
    pub stray_end: fn(f64, f64) -> f64,
    /// Whether a span without words has a number too.
    pub numbers_all: bool,
}

/// The rule of phrase_align.rs.
pub const RIGHT: Rule = Rule {
    before: 0.02,
    after: 0.02,
    reaches: |x, least| x >= least,
    room: |from, to| js_max(0.0, to - from),
    weight: |text| f64::from(text.letters),
    share: |room, weight, total| room * weight / total,
    moves_strays: true,
    stray_end: js_max,
    numbers_all: true,
};

/// The branches, by their names.
pub const BRANCHES: &[&str] = &[
    "an inside word kept",
    "words spread before",
    "words spread after",
    "a stray word",
    "two stray words in a row",
    "a stray word that ends at its start",
    "a whole group spread",
    "words spread over nothing",
    "inside by the slack before",
    "inside by the slack after",
    "outside for its length alone",
    "a span that takes no words",
    "a span with fewer words left",
    "words past all spans",
    "words and no spans",
    "no words",
    "1,000 words or more",
    "words in a span of no length",
    "words in a reversed span",
    "words in a span under 0.04 s",
    "a span that overlaps the one before",
    "a time at the end of the slack",
    "a time one step past the slack",
    "-0 among the times",
    "7,200 s among the times",
    "a subnormal time",
];

const KEPT: usize = 0;
const BEFORE: usize = 1;
const AFTER: usize = 2;
const STRAY: usize = 3;
const STRAYS: usize = 4;
const STRAY_OF_NOTHING: usize = 5;
const WHOLE: usize = 6;
const OVER_NOTHING: usize = 7;
const SLACK_BEFORE: usize = 8;
const SLACK_AFTER: usize = 9;
const SHORT: usize = 10;
const TAKES_NONE: usize = 11;
const FEWER: usize = 12;
const PAST: usize = 13;
const NO_SPANS: usize = 14;
const NO_WORDS: usize = 15;
const LONG: usize = 16;
const SPAN_EMPTY: usize = 17;
const SPAN_REVERSED: usize = 18;
const SPAN_SHORT: usize = 19;
const OVERLAP: usize = 20;
const AT_SLACK: usize = 21;
const PAST_SLACK: usize = 22;
const ODD: usize = 23;

/// Words that are kept, each with the number of its span.
#[derive(Default)]
pub struct Kept {
    pub words: Vec<HeardWord>,
    pub phrases: Vec<u32>,
    pub reached: Reached,
}

/// The words of a span.
struct Group<'a> {
    rule: &'a Rule,
    span: &'a Cue,
    words: &'a mut [HeardWord],
    reached: &'a mut Reached,
}

impl Group<'_> {
    fn is_inside(&self, at: usize) -> bool {
        let HeardWord { start, end, .. } = self.words[at];
        let starts = (self.rule.reaches)(start, self.span.start - self.rule.before);
        let ends = (self.rule.reaches)(self.span.end + self.rule.after, end);
        starts && ends && (self.rule.reaches)(end - start, 0.04)
    }

    /// Shares the time between two others among some of the words.
    fn spread(&mut self, part: Range<usize>, from: f64, to: f64) {
        let words = &mut self.words[part];
        let total = words.iter().map(|w| (self.rule.weight)(&w.text)).sum();
        let room = (self.rule.room)(from, to);
        self.reached.add(OVER_NOTHING, to < from);
        let mut at = from;
        for word in words {
            let share = (self.rule.share)(room, (self.rule.weight)(&word.text), total);
            (word.start, word.end) = (at, at + share);
            at += share;
        }
    }

    /// Puts a word between its neighbours.
    fn move_stray(&mut self, at: usize) {
        let start = self.words[at - 1].end;
        let end = (self.rule.stray_end)(start, self.words[at + 1].start);
        (self.words[at].start, self.words[at].end) = (start, end);
        self.reached.add(STRAY, true);
        self.reached.add(STRAY_OF_NOTHING, start == end);
    }

    /// Places the words around those from the first inside one to the last.
    fn place_around(&mut self, first: usize, last: usize) {
        let n = self.words.len();
        self.reached.add(BEFORE, first > 0);
        self.reached.add(AFTER, last + 1 < n);
        if first > 0 {
            self.spread(0..first, self.span.start, self.words[first].start);
        }
        if last + 1 < n {
            self.spread(last + 1..n, self.words[last].end, self.span.end);
        }
        let inside: Vec<bool> = (0..n).map(|at| self.is_inside(at)).collect();
        for at in first + 1..last {
            if !inside[at] && self.rule.moves_strays {
                self.move_stray(at);
                self.reached.add(STRAYS, !inside[at + 1]);
            }
        }
    }

    /// Notes what there is to a word as it is given.
    fn look_at(&mut self, at: usize) {
        let (word, span) = (self.words[at], self.span);
        let is_inside = self.is_inside(at);
        let is_within = word.start >= span.start && word.end <= span.end;
        let (first, last) = (span.start - self.rule.before, span.end + self.rule.after);
        let at_slack = word.start == first || word.end == last;
        let past_start = word.start == first.next_down() && word.end <= last;
        let past_end = word.end == last.next_up() && word.start >= first;
        let is_short = word.end - word.start < 0.04;
        let reached = &mut self.reached;
        reached.add(KEPT, is_inside);
        reached.add(SLACK_BEFORE, is_inside && word.start < span.start);
        reached.add(SLACK_AFTER, is_inside && word.end > span.end);
        reached.add(SHORT, is_within && is_short);
        reached.add(AT_SLACK, is_inside && at_slack);
        reached.add(PAST_SLACK, !is_short && (past_start || past_end));
    }

    /// Notes what there is to the span and its words as they are given.
    fn look(&mut self) {
        let length = self.span.end - self.span.start;
        let has_words = !self.words.is_empty();
        self.reached.add(SPAN_EMPTY, has_words && length == 0.0);
        self.reached.add(SPAN_REVERSED, has_words && length < 0.0);
        let is_short = 0.0 < length && length < 0.04;
        self.reached.add(SPAN_SHORT, has_words && is_short);
        (0..self.words.len()).for_each(|at| self.look_at(at));
    }

    fn place(&mut self) {
        self.look();
        let n = self.words.len();
        let first = (0..n).find(|&at| self.is_inside(at));
        let last = (0..n).rfind(|&at| self.is_inside(at));
        if let (Some(first), Some(last)) = (first, last) {
            return self.place_around(first, last);
        }
        self.reached.add(WHOLE, n > 0);
        self.spread(0..n, self.span.start, self.span.end);
    }
}

impl Rule {
    /// Places the words in their spans, and tells what was reached.
    pub fn align_phrases(&self, words: &[HeardWord], spans: &[Cue]) -> Kept {
        let mut kept = Kept::default();
        let mut left = words.to_vec();
        let mut number = 0;
        for span in spans {
            let count = span.text.count as usize;
            kept.reached.add(TAKES_NONE, count == 0);
            kept.reached.add(FEWER, count > left.len());
            let rest = left.split_off(count.min(left.len()));
            let reached = &mut kept.reached;
            let mut group = Group {
                rule: self,
                span,
                words: &mut left,
                reached,
            };
            group.place();
            kept.phrases.extend(left.iter().map(|_| number));
            number += u32::from(self.numbers_all || !left.is_empty());
            kept.words.append(&mut left);
            left = rest;
        }
        kept.reached.add(PAST, !left.is_empty());
        look(words, spans, &mut kept.reached);
        kept
    }
}

/// Notes what there is to the words and spans together.
fn look(words: &[HeardWord], spans: &[Cue], reached: &mut Reached) {
    let overlaps = |pair: &[Cue]| pair[1].start < pair[0].end;
    reached.add(NO_SPANS, spans.is_empty() && !words.is_empty());
    reached.add(NO_WORDS, words.is_empty());
    reached.add(LONG, words.len() >= 1000);
    reached.add(OVERLAP, spans.windows(2).any(overlaps));
    for (at, yes) in odd_times(words).into_iter().enumerate() {
        reached.add(ODD + at, yes);
    }
}
