//! The rule of evening, written a second time with its numbers open. It tells which branches a list
//! of words reaches, and it can be made wrong on purpose (src/planted.rs).

use crate::check::{HeardWord, Text};
use crate::js::{js_max, js_min};
use crate::report::Reached;
use crate::words::odd_times;

/// What the rule goes by.
#[derive(Clone, Copy)]
pub struct Rule {
    /// With its last word so many places behind its first, a run takes no word after it along.
    pub grow: usize,
    /// And with so many, none before it.
    pub borrow: usize,
    /// What a word needs room for.
    pub weight: fn(&Text) -> f64,
    /// What its share of the run goes by.
    pub shared_by: fn(&Text) -> f64,
    /// Whether a word of a length is crushed.
    pub crushed: fn(f64) -> bool,
    /// Whether a word of a length and a weight is swollen.
    pub swollen: fn(f64, f64) -> bool,
    /// Whether some room is too little for some letters.
    pub tight: fn(f64, f64) -> bool,
    /// The end of a run at a slow pace, from its start, its weight and its number of words.
    pub slow_end: fn(f64, f64, f64) -> f64,
    /// A word's part of some room, from its weight and the run's.
    pub share: fn(f64, f64, f64) -> f64,
    /// Whether a run ends no sooner than its last word did.
    pub keeps_end: bool,
    /// Whether the limit holds for every run, and not for the last alone.
    pub limits_all: bool,
    /// Whether all ends are cut to the limit afterwards.
    pub clips: bool,
}

/// The rule of even.rs.
pub const RIGHT: Rule = Rule {
    grow: 6,
    borrow: 6,
    weight: |text| f64::from(text.letters),
    shared_by: |text| f64::from(text.letters),
    crushed: |length| length < 0.08,
    swollen: |length, weight| length > 0.25 + 0.12 * weight,
    tight: |room, letters| room < 0.05 * letters,
    slow_end: |start, total, count| start + 0.12 * total + 0.1 * count,
    share: |room, weight, total| room * weight / total,
    keeps_end: true,
    limits_all: false,
    clips: false,
};

/// The branches, by their names.
pub const BRANCHES: &[&str] = &[
    "a run evened",
    "a swollen word joined",
    "words of an evened run taken again",
    "a run grown",
    "a run grown to the bound",
    "words borrowed",
    "words borrowed to the bound",
    "words borrowed of an evened run",
    "a run up to the next start",
    "a run at the slow pace",
    "a run up to its last word's end",
    "a run that ends before it starts",
    "a limit met",
    "a limit before the last end",
    "a last run without a limit",
    "a run of 7 or more crushed words",
    "1,000 words or more",
    "an end before its start",
    "a start before the one before it",
    "-0 among the times",
    "7,200 s among the times",
    "a subnormal time",
];

const EVENED: usize = 0;
const SWOLLEN: usize = 1;
const AGAIN: usize = 2;
const GROWN: usize = 3;
const GROWN_OUT: usize = 4;
const BORROWED: usize = 5;
const BORROWED_OUT: usize = 6;
const ACROSS: usize = 7;
const TO_NEXT: usize = 8;
const SLOW: usize = 9;
const TO_END: usize = 10;
const DOWN: usize = 11;
const LIMIT_MET: usize = 12;
const LIMIT_BEFORE: usize = 13;
const NO_LIMIT: usize = 14;
const LONG_RUN: usize = 15;
const LONG: usize = 16;
const REVERSED: usize = 17;
const DOWNWARD: usize = 18;
const ODD: usize = 19;

/// Words that are evened, up to a limit.
struct List<'a> {
    rule: &'a Rule,
    words: &'a mut [HeardWord],
    limit: f64,
    reached: Reached,
}

impl List<'_> {
    fn length(&self, at: usize) -> f64 {
        self.words[at].end - self.words[at].start
    }

    fn weight(&self, at: usize) -> f64 {
        (self.rule.weight)(&self.words[at].text)
    }

    fn is_crushed(&self, at: usize) -> bool {
        (self.rule.crushed)(self.length(at))
    }

    /// Whether the words from `a` to `b` have too little room up to a time.
    fn is_tight(&self, a: usize, b: usize, to: f64) -> bool {
        let letters = (a..=b).map(|at| self.weight(at)).sum();
        (self.rule.tight)(to - self.words[a].start, letters)
    }

    /// The first word of the run that `at` is in.
    fn first(&mut self, at: usize) -> usize {
        let mut a = at;
        while a > 0 && self.is_crushed(a - 1) {
            a -= 1;
        }
        self.reached.add(AGAIN, a < at);
        let joins = a > 0 && (self.rule.swollen)(self.length(a - 1), self.weight(a - 1));
        self.reached.add(SWOLLEN, joins);
        a - usize::from(joins)
    }

    /// Whether the word after `b` starts too soon for the words from `a` on.
    fn is_soon(&self, a: usize, b: usize) -> bool {
        b + 1 < self.words.len() && self.is_tight(a, b, self.words[b + 1].start)
    }

    /// The last word of the run from `a` on that `at` is in.
    fn last(&mut self, a: usize, at: usize) -> usize {
        let mut b = at;
        while b + 1 < self.words.len() && self.is_crushed(b + 1) {
            b += 1;
        }
        let crushed = b;
        self.reached.add(LONG_RUN, b - at >= 6);
        while b - a < self.rule.grow && self.is_soon(a, b) {
            b += 1;
        }
        self.reached.add(GROWN, b > crushed);
        self.reached
            .add(GROWN_OUT, b > crushed && self.is_soon(a, b));
        b
    }

    /// Where the run has to end that ends with `b`.
    fn ceiling(&mut self, b: usize) -> f64 {
        if b + 1 < self.words.len() {
            let next = self.words[b + 1].start;
            let limit = if self.rule.limits_all {
                self.limit
            } else {
                next
            };
            return js_min(next, limit);
        }
        self.reached.add(NO_LIMIT, self.limit == f64::INFINITY);
        js_min(self.limit, self.words[b].end + 0.12 * self.weight(b))
    }

    /// The first word, once the run from `first` to `b` has borrowed; the words before `fresh` are
    /// of runs that are evened, or lie before them.
    fn borrow(&mut self, first: usize, b: usize, ceiling: f64, fresh: usize) -> usize {
        let mut a = first;
        while a > 0 && b - a < self.rule.borrow && self.is_tight(a, b, ceiling) {
            a -= 1;
        }
        let stopped = a > 0 && self.is_tight(a, b, ceiling);
        self.reached.add(BORROWED, a < first);
        self.reached.add(BORROWED_OUT, a < first && stopped);
        self.reached.add(ACROSS, a < first && a < fresh);
        a
    }

    /// Where the run from `a` to `b` ends.
    fn end(&mut self, a: usize, b: usize, ceiling: f64) -> f64 {
        let total = (a..=b).map(|at| self.weight(at)).sum();
        let (start, end) = (self.words[a].start, self.words[b].end);
        let slow = (self.rule.slow_end)(start, total, (b - a + 1) as f64);
        let to = js_min(ceiling, slow);
        let is_last = b + 1 == self.words.len();
        let reached = &mut self.reached;
        reached.add(TO_NEXT, !is_last && end < to && to < slow);
        reached.add(SLOW, end < to && to < ceiling);
        reached.add(TO_END, to < end);
        reached.add(LIMIT_MET, is_last && end < to && to == self.limit);
        reached.add(LIMIT_BEFORE, is_last && self.limit < end);
        if self.rule.keeps_end {
            js_max(end, to)
        } else {
            to
        }
    }

    /// Shares the time up to `to` among the words from `a` to `b`.
    fn share(&mut self, a: usize, b: usize, to: f64) {
        let words = &mut self.words[a..=b];
        let total = words.iter().map(|w| (self.rule.shared_by)(&w.text)).sum();
        let room = to - words[0].start;
        self.reached.add(EVENED, true);
        self.reached.add(DOWN, room < 0.0);
        let mut at = words[0].start;
        for word in words {
            let part = (self.rule.share)(room, (self.rule.shared_by)(&word.text), total);
            (word.start, word.end) = (at, at + part);
            at += part;
        }
    }

    /// Evens the run that the crushed word at `at` is in, and gives the place after it.
    fn even_run(&mut self, at: usize, fresh: usize) -> usize {
        let first = self.first(at);
        let b = self.last(first, at);
        let ceiling = self.ceiling(b);
        let a = self.borrow(first, b, ceiling, fresh);
        let to = self.end(a, b, ceiling);
        self.share(a, b, to);
        b + 1
    }

    /// Notes what there is to the words as they are given.
    fn look(&mut self) {
        let downward = |pair: &[HeardWord]| pair[1].start < pair[0].start;
        let reached = &mut self.reached;
        reached.add(LONG, self.words.len() >= 1000);
        reached.add(REVERSED, self.words.iter().any(|w| w.end < w.start));
        reached.add(DOWNWARD, self.words.windows(2).any(downward));
        for (at, yes) in odd_times(self.words).into_iter().enumerate() {
            reached.add(ODD + at, yes);
        }
    }

    fn even_out(&mut self) {
        self.look();
        let (mut at, mut fresh) = (0, 0);
        while at < self.words.len() {
            if self.is_crushed(at) {
                at = self.even_run(at, fresh);
                fresh = at;
            } else {
                at += 1;
            }
        }
        if self.rule.clips {
            for word in self.words.iter_mut() {
                word.end = js_min(word.end, self.limit);
            }
        }
    }
}

impl Rule {
    /// Evens the words, and tells what was reached.
    pub fn even_out(&self, words: &mut [HeardWord], limit: f64) -> Reached {
        let mut list = List {
            rule: self,
            words,
            limit,
            reached: Reached::default(),
        };
        list.even_out();
        list.reached
    }
}
