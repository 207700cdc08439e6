//! The rule of fitting to a sound, written a second time with its numbers open. It tells which
//! branches a list of words reaches, and it can be made wrong on purpose (src/planted.rs). Evening is
//! the Rust's own.

use std::ops::Range;

use crate::check::HeardWord;
use crate::js::{js_max, js_min};
use crate::report::Reached;
use crate::transcript::envelope::{Envelope, frame_from_zero, frame_seconds};
use crate::transcript::even::even_out;
use crate::words::odd_times;

/// What the rule goes by.
#[derive(Clone, Copy)]
pub struct Rule {
    /// The least time from one start to the next.
    pub step: f64,
    /// A start in silence is searched so far ahead.
    pub ahead: f64,
    /// The search stops so long before the next word.
    pub before_next: f64,
    /// A word that is moved keeps so much of its length.
    pub kept: f64,
    /// So many loud frames in a row make a start.
    pub loud_run: i64,
    /// So many quiet frames end a word's sound.
    pub end_silence: i64,
    /// So many keep a word from lasting until the next one.
    pub gap_silence: i64,
    /// Whether an end this long after the sound is cut back.
    pub loose: fn(f64, f64) -> bool,
    /// What a word with some letters needs.
    pub need: fn(f64) -> f64,
    /// The limit of the second evening, from the duration.
    pub limit: fn(f64) -> f64,
}

/// The rule of fit.rs.
pub const RIGHT: Rule = Rule {
    step: 0.02,
    ahead: 1.5,
    before_next: 0.05,
    kept: 0.5,
    loud_run: 3,
    end_silence: 15,
    gap_silence: 15,
    loose: |end, sound| end > sound + 0.05,
    need: |letters| js_min(0.3, 0.05 * letters),
    limit: |duration| duration,
};

/// The branches, by their names.
pub const BRANCHES: &[&str] = &[
    "a start put after the one before",
    "an end put at its start",
    "an end cut to the duration",
    "a start with no three frames after it",
    "a start in sound",
    "a start in silence moved to its sound",
    "a moved word that keeps 0.5 s",
    "a moved word that keeps its end",
    "a search stopped after 1.5 s",
    "a search stopped before the next word",
    "a search stopped at the last frames",
    "a word cut at the next one",
    "words evened before their ends are set",
    "a word without sound",
    "a sound ended by 15 quiet frames",
    "a sound with 14 quiet frames in it",
    "an end cut back",
    "an end not cut back for its letters",
    "a word that lasts until the next one",
    "a word kept from the next by quiet",
    "the last word up to its sound's end",
    "words evened after their ends are set",
    "no words",
    "1,000 words or more",
    "a duration before the last start",
    "a duration past the sound",
    "a floor that is NaN",
    "-0 among the times",
    "7,200 s among the times",
    "a subnormal time",
];

const STEPPED: usize = 0;
const RAISED: usize = 1;
const CUT: usize = 2;
const NO_FRAMES: usize = 3;
const IN_SOUND: usize = 4;
const MOVED: usize = 5;
const KEEPS: usize = 6;
const KEEPS_END: usize = 7;
const STOPPED_AHEAD: usize = 8;
const STOPPED_NEXT: usize = 9;
const STOPPED_LAST: usize = 10;
const AT_NEXT: usize = 11;
const EVENED: usize = 12;
const NO_SOUND: usize = 13;
const ENDED: usize = 14;
const BRIDGED: usize = 15;
const CUT_BACK: usize = 16;
const NEEDED: usize = 17;
const LASTS: usize = 18;
const QUIET: usize = 19;
const LAST_LASTS: usize = 20;
const EVENED_AGAIN: usize = 21;
const NO_WORDS: usize = 22;
const LONG: usize = 23;
const DURATION_BEFORE: usize = 24;
const DURATION_PAST: usize = 25;
const NAN: usize = 26;
const ODD: usize = 27;

/// Words that are fitted to a sound, up to a duration.
struct List<'a> {
    rule: &'a Rule,
    words: &'a mut [HeardWord],
    heard: &'a Envelope,
    duration: f64,
    reached: Reached,
}

/// Whether any time of the words has other bits.
fn moved(words: &[HeardWord], before: &[HeardWord]) -> bool {
    let bits = |w: &HeardWord| (w.start.to_bits(), w.end.to_bits());
    words
        .iter()
        .zip(before)
        .any(|(w, was)| bits(w) != bits(was))
}

impl List<'_> {
    fn next_start(&self, at: usize) -> Option<f64> {
        self.words.get(at + 1).map(|w| w.start)
    }

    /// The frames between two times.
    fn frames(&self, from: f64, to: f64) -> Range<i64> {
        frame_from_zero(from)..self.heard.frames().min(frame_from_zero(to))
    }

    /// Puts the word after the one before it, and its end between its start and the duration.
    fn order(&mut self, at: usize) {
        if at > 0 {
            let least = self.words[at - 1].start + self.rule.step;
            self.reached.add(STEPPED, self.words[at].start < least);
            self.words[at].start = js_max(self.words[at].start, least);
        }
        let word = &mut self.words[at];
        let end = js_max(word.end, word.start);
        self.reached.add(RAISED, word.end < word.start);
        self.reached.add(CUT, end > self.duration);
        word.end = js_min(self.duration, end);
    }

    /// Whether a sound starts with a frame.
    fn rises(&self, frame: i64) -> bool {
        (frame..frame + self.rule.loud_run).all(|frame| self.heard.loud(frame))
    }

    /// The start of the sound that a word in silence is moved to.
    fn sound_start(&mut self, at: usize) -> Option<i64> {
        let start = self.words[at].start;
        let (first, last) = (frame_from_zero(start), self.heard.frames() - 3);
        let is_loud = self.heard.loud(first);
        self.reached.add(NO_FRAMES, first >= last);
        self.reached.add(IN_SOUND, is_loud);
        if first >= last || is_loud {
            return None;
        }
        let ahead = frame_from_zero(start + self.rule.ahead);
        let next = self.next_start(at);
        let next = next.map(|start| frame_from_zero(start - self.rule.before_next));
        let stop = last.min(ahead).min(next.unwrap_or(last));
        let found = (first..stop).find(|&frame| self.rises(frame));
        let in_vain = found.is_none();
        self.reached.add(STOPPED_AHEAD, in_vain && stop == ahead);
        self.reached
            .add(STOPPED_NEXT, in_vain && Some(stop) == next);
        self.reached.add(STOPPED_LAST, in_vain && stop == last);
        found
    }

    /// Moves a word that starts in silence to its sound.
    fn find_start(&mut self, at: usize) {
        let Some(frame) = self.sound_start(at) else {
            return;
        };
        let word = &mut self.words[at];
        let start = frame_seconds(frame);
        let length = word.end - word.start;
        let end = start + js_min(self.rule.kept, length);
        self.reached.add(MOVED, true);
        self.reached.add(KEEPS, length > self.rule.kept);
        self.reached.add(KEEPS_END, word.end > end);
        (word.start, word.end) = (start, js_max(word.end, end));
    }

    /// Cuts a word at the next one.
    fn cut_at_next(&mut self, at: usize) {
        let Some(next) = self.next_start(at) else {
            return;
        };
        let word = &mut self.words[at];
        self.reached.add(AT_NEXT, word.end > next);
        if word.end > next {
            word.end = js_max(word.start, next);
        }
    }

    /// Evens the words, and notes where that moved any.
    fn even(&mut self, limit: f64, branch: usize) {
        let before = self.words.to_vec();
        even_out(self.words, limit).unwrap();
        self.reached.add(branch, moved(self.words, &before));
    }

    /// Where the sound ends that starts between two times.
    fn sound_end(&mut self, from: f64, to: f64) -> Option<f64> {
        let frames = self.frames(from, to);
        let mut last = frames.clone().find(|&frame| self.heard.loud(frame))?;
        for frame in last + 1..frames.end {
            if self.heard.loud(frame) {
                self.reached.add(BRIDGED, frame - last == 15);
                last = frame;
            } else if frame - last >= self.rule.end_silence {
                self.reached.add(ENDED, true);
                break;
            }
        }
        Some(frame_seconds(last + 1))
    }

    /// Whether there is quiet between two times.
    fn has_quiet(&self, from: f64, to: f64) -> bool {
        let frames = self.frames(from, to);
        let mut first = frames.start;
        for frame in frames {
            if self.heard.loud(frame) {
                first = frame + 1;
            } else if frame + 1 - first >= self.rule.gap_silence {
                return true;
            }
        }
        false
    }

    /// Sets a word's end by its sound.
    fn set_end(&mut self, at: usize) {
        let next = self.next_start(at);
        let from = self.words[at].start;
        let Some(sound) = self.sound_end(from, next.unwrap_or(self.duration)) else {
            return self.reached.add(NO_SOUND, true);
        };
        let HeardWord { text, start, end } = self.words[at];
        let is_loose = (self.rule.loose)(end, sound);
        let has_room = sound - start >= (self.rule.need)(f64::from(text.letters));
        self.reached.add(CUT_BACK, is_loose && has_room);
        self.reached.add(NEEDED, is_loose && !has_room);
        let end = if is_loose && has_room { sound } else { end };
        self.words[at].end = self.last_until(end, sound, next);
    }

    /// The end that a word has at last, from its end, its sound's and the next word's start.
    fn last_until(&mut self, end: f64, sound: f64, next: Option<f64>) -> f64 {
        let Some(next) = next else {
            self.reached.add(LAST_LASTS, sound > end);
            return if sound > end { sound } else { end };
        };
        let lasts = next > end && !self.has_quiet(end, next);
        self.reached.add(LASTS, lasts);
        self.reached.add(QUIET, next > end && !lasts);
        if lasts { next } else { end }
    }

    /// Notes what there is to the words as they are given.
    fn look(&mut self) {
        let (n, duration) = (self.words.len(), self.duration);
        let starts_late = self.words.last().is_some_and(|w| w.start > duration);
        let frames = self.heard.frames();
        let reached = &mut self.reached;
        reached.add(NO_WORDS, n == 0);
        reached.add(LONG, n >= 1000);
        reached.add(DURATION_BEFORE, starts_late);
        reached.add(DURATION_PAST, frame_from_zero(duration) > frames);
        reached.add(NAN, self.heard.floor.is_nan());
        for (at, yes) in odd_times(self.words).into_iter().enumerate() {
            reached.add(ODD + at, yes);
        }
    }

    fn fit(&mut self) {
        self.look();
        let n = self.words.len();
        (0..n).for_each(|at| self.order(at));
        (0..n).for_each(|at| self.find_start(at));
        (0..n).for_each(|at| self.cut_at_next(at));
        self.even(f64::INFINITY, EVENED);
        (0..n).for_each(|at| self.set_end(at));
        self.even((self.rule.limit)(self.duration), EVENED_AGAIN);
    }
}

impl Rule {
    /// Fits the words, and tells what was reached.
    pub fn fit_to_sound(
        &self,
        words: &mut [HeardWord],
        heard: &Envelope,
        duration: f64,
    ) -> Reached {
        let mut list = List {
            rule: self,
            words,
            heard,
            duration,
            reached: Reached::default(),
        };
        list.fit();
        list.reached
    }
}
