//! The tally of document 01, which the Rust of voxr has not: a stand-in over the Rust's own frames and
//! loud frames, in one pass over the words. Beside it stands the rule span by span, with its parts
//! open: it tells which branches a list reaches, and it can be made wrong on purpose (src/planted.rs).

use crate::check::HeardWord;
use crate::file_rule::To;
use crate::report::Reached;
use crate::transcript::envelope::{Envelope, frame_at, frame_from_zero};
use crate::words::odd_times;

/// The loud frames under each span's words.
pub fn tallies(words: &[HeardWord], to: To) -> Vec<u64> {
    let mut counts = vec![0; to.spans.len()];
    for (word, &number) in words.iter().zip(to.phrases) {
        if let Some(count) = counts.get_mut(number as usize) {
            let end = frame_from_zero(word.end).min(to.heard.frames());
            let frames = frame_from_zero(word.start)..end;
            *count += frames.filter(|&frame| to.heard.loud(frame)).count() as u64;
        }
    }
    counts
}

/// What the rule goes by.
#[derive(Clone, Copy)]
pub struct Rule {
    /// The first frame of a word, from its start.
    pub first: fn(f64) -> i64,
    /// The frame past its last, from its end.
    pub past: fn(f64) -> i64,
    /// Whether a frame counts.
    pub loud: fn(&Envelope, usize) -> bool,
    /// Whether a word with this number is one of this span, of so many.
    pub of_span: fn(u32, usize, usize) -> bool,
    /// Whether a frame counts once for a span, however many of its words lie over it.
    pub once: bool,
}

/// The rule of document 01.
pub const RIGHT: Rule = Rule {
    first: frame_from_zero,
    past: frame_from_zero,
    loud: |heard, frame| heard.env[frame] > heard.floor,
    of_span: |number, span, _| number as usize == span,
    once: false,
};

/// The branches, by their names.
pub const BRANCHES: &[&str] = &[
    "a span without words",
    "a span of several words",
    "a tally of 0 with words",
    "a tally above 0",
    "frames counted twice",
    "a loud frame under a word without a span",
    "a word with the largest number",
    "a word of no frame",
    "a reversed word",
    "a word from before zero",
    "a word past the recording",
    "a loud frame where a word ends",
    "a NaN level under a word",
    "no words",
    "no spans",
    "100 words or more",
    "100 spans or more",
    "a floor that is NaN",
    "an infinite floor",
    "further places",
    "places one too few",
    "-0 among the times",
    "7,200 s among the times",
    "a subnormal time",
];

const NO_MEMBERS: usize = 0;
const SEVERAL: usize = 1;
const NOTHING: usize = 2;
const SOMETHING: usize = 3;
const TWICE: usize = 4;
const NO_SPAN: usize = 5;
const LARGEST: usize = 6;
const NO_FRAME: usize = 7;
const REVERSED: usize = 8;
const BEFORE_ZERO: usize = 9;
const PAST: usize = 10;
const AT_END: usize = 11;
const NAN_LEVEL: usize = 12;
const NO_WORDS: usize = 13;
const NO_SPANS: usize = 14;
const LONG: usize = 15;
const MANY_SPANS: usize = 16;
const NAN: usize = 17;
const INFINITE: usize = 18;
pub const FURTHER: usize = 19;
pub const TOO_FEW: usize = 20;
const ODD: usize = 21;

/// Notes what there is to a word.
fn look_at(word: &HeardWord, number: u32, to: &To, reached: &mut Reached) {
    let heard = to.heard;
    let (first, past) = (frame_from_zero(word.start), frame_from_zero(word.end));
    let under = || first..past.min(heard.frames());
    let has_span = (number as usize) < to.spans.len();
    reached.add(NO_SPAN, !has_span && under().any(|k| heard.loud(k)));
    reached.add(LARGEST, number == u32::MAX);
    if !has_span {
        return;
    }
    reached.add(NO_FRAME, first == past);
    reached.add(REVERSED, past < first);
    reached.add(BEFORE_ZERO, frame_at(word.start) < 0 && past > 0);
    reached.add(PAST, first < heard.frames() && heard.frames() < past);
    reached.add(AT_END, first < past && heard.loud(past));
    let is_nan = |k: i64| heard.env[k as usize].is_nan();
    reached.add(NAN_LEVEL, under().any(is_nan));
}

/// Notes what there is to the words and spans together.
fn look(words: &[HeardWord], to: &To, reached: &mut Reached) {
    for (word, &number) in words.iter().zip(to.phrases) {
        look_at(word, number, to, reached);
    }
    reached.add(NO_WORDS, words.is_empty());
    reached.add(NO_SPANS, to.spans.is_empty());
    reached.add(LONG, words.len() >= 100);
    reached.add(MANY_SPANS, to.spans.len() >= 100);
    reached.add(NAN, to.heard.floor.is_nan());
    reached.add(INFINITE, to.heard.floor.is_infinite());
    for (at, yes) in odd_times(words).into_iter().enumerate() {
        reached.add(ODD + at, yes);
    }
}

impl Rule {
    /// How many of a span's words count each frame that any of them counts.
    fn frames(&self, words: &[&HeardWord], heard: &Envelope) -> Vec<u64> {
        let mut over = vec![0; heard.env.len()];
        for word in words {
            let past = (self.past)(word.end).min(heard.frames());
            for frame in (self.first)(word.start)..past {
                over[frame as usize] += u64::from((self.loud)(heard, frame as usize));
            }
        }
        over.retain(|&times| times > 0);
        over
    }

    /// The tally of each span, and what was reached.
    pub fn tally(&self, words: &[HeardWord], to: To) -> (Vec<u64>, Reached) {
        let mut reached = Reached::default();
        look(words, &to, &mut reached);
        let spans = to.spans.len();
        let tally = |span: usize| {
            let numbered = words.iter().zip(to.phrases);
            let own = numbered.filter(|(_, number)| (self.of_span)(**number, span, spans));
            let own: Vec<&HeardWord> = own.map(|(word, _)| word).collect();
            reached.add(NO_MEMBERS, own.is_empty());
            if own.is_empty() {
                return 0;
            }
            let frames = self.frames(&own, to.heard);
            reached.add(SEVERAL, own.len() > 1);
            reached.add(NOTHING, frames.is_empty());
            reached.add(SOMETHING, !frames.is_empty());
            reached.add(TWICE, frames.iter().any(|&times| times > 1));
            match self.once {
                true => frames.len() as u64,
                false => frames.iter().sum(),
            }
        };
        ((0..spans).map(tally).collect(), reached)
    }
}
