//! A full run by the Rust: its stages in document 01's order. Beside it the same with its order and its
//! choices open, over the Rust's own functions: it tells what a run reaches, and it can be made wrong
//! on purpose (src/full_run.rs).

use crate::check::HeardWord;
use crate::file_rule::{To, fit_phrases};
use crate::full::Full;
use crate::places::Bits;
use crate::report::Reached;
use crate::transcript::envelope::{Envelope, envelope};
use crate::transcript::fit::{PhraseGroups, fit_file, fit_to_sound};
use crate::transcript::loops::collapse_loops;
use crate::transcript::onsets::{hand_back_tails, snap_ends, snap_onsets};
use crate::transcript::phrase_align::align_phrases;
use crate::transcript::pieces::pieces;
use crate::words::Lent;

/// What a full run gives back, and what the places hold.
pub struct Outcome {
    pub heard: Envelope,
    pub pieces: Vec<(usize, usize)>,
    pub found: bool,
    pub count: usize,
    /// A word for each place that is given.
    pub words: Vec<HeardWord>,
    /// A number for each of these places: a mark where it stays.
    pub phrases: Vec<u32>,
}

/// The duration of so many samples.
pub fn duration(samples: usize) -> f64 {
    samples as f64 / 16000.0
}

/// The marks of so many places.
fn marks(n: usize) -> Vec<u32> {
    (0..n).map(u32::mark).collect()
}

/// Words in so many places, with zeros behind.
fn padded(mut words: Vec<HeardWord>, n: usize) -> Vec<HeardWord> {
    words.resize(n, HeardWord::default());
    words
}

/// The Rust's stages in a row. Its fit hears the samples again.
pub fn stages(full: &Full) -> Outcome {
    in_a_row(full, |words, phrases, _| {
        let (spans, samples) = (&full.spans, &full.samples);
        let phrase: Vec<usize> = phrases.iter().map(|&number| number as usize).collect();
        let groups = PhraseGroups {
            spans,
            phrase: &phrase,
        };
        let groups = (!spans.is_empty()).then_some(groups);
        fit_file(words, samples, groups).unwrap();
    })
}

/// The same, with the loop of the Rust's fit over its own functions, on the levels that are ready.
pub fn heard_once(full: &Full) -> Outcome {
    in_a_row(full, |words, phrases, heard| {
        let (spans, count) = (&full.spans, full.samples.len());
        if spans.is_empty() {
            fit_to_sound(words, heard, duration(count)).unwrap();
        } else {
            let to = To {
                phrases,
                spans,
                heard,
                count,
            };
            fit_phrases(words, to);
        }
    })
}

/// The Rust's stages up to the fit, and that.
fn in_a_row(full: &Full, fit: impl Fn(&mut [HeardWord], &[u32], &Envelope)) -> Outcome {
    let Full {
        words: given,
        spans,
        samples,
        ..
    } = full;
    let heard = envelope(samples);
    let pieces = pieces(&heard, samples.len());
    let left = collapse_loops(given).unwrap();
    let (mut words, n) = (left.words, given.len());
    hand_back_tails(&mut words, &heard).unwrap();
    snap_onsets(&mut words, &heard);
    snap_ends(&mut words, &heard, duration(samples.len()));
    let mut phrases = marks(n);
    if !spans.is_empty() {
        phrases[..words.len()].fill(0);
        let placed = align_phrases(&words, spans).unwrap();
        for (place, number) in phrases.iter_mut().zip(placed.phrase) {
            *place = number as u32;
        }
        words = placed.words;
    }
    let count = words.len();
    fit(&mut words, &phrases[..count], &heard);
    Outcome {
        heard,
        pieces,
        found: left.found,
        count,
        words: padded(words, n),
        phrases,
    }
}

/// A stage on words.
#[derive(Clone, Copy)]
pub enum Stage {
    Loops,
    Tails,
    Onsets,
    Ends,
    Placing,
    Fit,
}

use Stage::{Ends, Fit, Loops, Onsets, Placing, Tails};

/// What a run goes by.
#[derive(Clone, Copy)]
pub struct Rule {
    pub order: &'static [Stage],
    pub duration: fn(usize) -> f64,
    /// The sample at which the last piece ends.
    pub last_end: fn(usize) -> usize,
    /// The floor under the pieces, the snaps and the fit, where it isn't the recording's own.
    pub piece_floor: Option<f64>,
    pub snap_floor: Option<f64>,
    pub fit_floor: Option<f64>,
    /// Whether placing starts from the count that is given.
    pub places_all: bool,
    /// Whether placing writes phrase numbers.
    pub numbers: bool,
    /// Whether the fit is by phrase where there are spans.
    pub by_phrase: bool,
    /// Whether the fit is over the recording where there are none.
    pub as_one: bool,
    /// Whether the places past the final words become zero.
    pub clears: bool,
    /// Whether all phrase places past the words kept become zero.
    pub clears_numbers: bool,
    /// `found`, from what loops found, and the counts: given, left by loops, and final.
    pub found: fn(bool, [usize; 3]) -> bool,
    /// The count that is given back, from these counts.
    pub count: fn([usize; 3]) -> usize,
}

/// Document 01's.
pub const RIGHT: Rule = Rule {
    order: &[Loops, Tails, Onsets, Ends, Placing, Fit],
    duration,
    last_end: |samples| samples,
    piece_floor: None,
    snap_floor: None,
    fit_floor: None,
    places_all: false,
    numbers: true,
    by_phrase: true,
    as_one: true,
    clears: true,
    clears_numbers: false,
    found: |found, _| found,
    count: |[_, _, last]| last,
};

/// The branches that the stages tell of, by their names.
pub const MOVES: &[&str] = &[
    "a loop found",
    "tails moved a time",
    "onsets moved a time",
    "ends moved a time",
    "placing moved a time",
    "the fit by phrase moved a time",
    "the fit over the recording moved a time",
    "words dropped",
    "words dropped, after loops",
    "phrase places that stay behind loops",
];

const LOOP: usize = 0;
const TAILS: usize = 1;
const ONSETS: usize = 2;
const ENDS: usize = 3;
const PLACING: usize = 4;
const PHRASED: usize = 5;
const WHOLE: usize = 6;
const DROPPED: usize = 7;
const BOTH: usize = 8;
const STAY: usize = 9;

/// The words of a run, between two stages.
struct Running<'a> {
    rule: &'a Rule,
    full: &'a Full,
    heard: &'a Envelope,
    words: Vec<HeardWord>,
    phrases: Vec<u32>,
    left: usize,
    found: bool,
    reached: Reached,
}

/// The levels over another floor, where there is one.
fn over(heard: &Envelope, floor: Option<f64>) -> Envelope {
    Envelope {
        env: heard.env.clone(),
        floor: floor.unwrap_or(heard.floor),
    }
}

/// Whether words that are as many as before have other times.
fn moved(before: &[HeardWord], after: &[HeardWord]) -> bool {
    Lent::new(before).hold(after).is_some()
}

impl Running<'_> {
    fn duration(&self) -> f64 {
        (self.rule.duration)(self.full.samples.len())
    }

    fn loops(&mut self) {
        let left = collapse_loops(&self.words).unwrap();
        (self.words, self.found) = (left.words, left.found);
        self.left = self.words.len();
        self.reached.add(LOOP, self.found);
    }

    fn snap(&mut self, stage: Stage) {
        let heard = over(self.heard, self.rule.snap_floor);
        let before = self.words.clone();
        let duration = self.duration();
        let branch = match stage {
            Tails => {
                hand_back_tails(&mut self.words, &heard).unwrap();
                TAILS
            }
            Onsets => {
                snap_onsets(&mut self.words, &heard);
                ONSETS
            }
            _ => {
                snap_ends(&mut self.words, &heard, duration);
                ENDS
            }
        };
        self.reached.add(branch, moved(&before, &self.words));
    }

    fn place(&mut self) {
        let (spans, n) = (&self.full.spans, self.full.words.len());
        if spans.is_empty() {
            return;
        }
        let mut given = self.words.clone();
        if self.rule.places_all {
            given = padded(given, n);
        }
        let placed = align_phrases(&given, spans).unwrap();
        let kept = placed.words.len();
        if self.rule.numbers {
            self.phrases[..given.len()].fill(0);
            for (place, number) in self.phrases.iter_mut().zip(placed.phrase) {
                *place = number as u32;
            }
        }
        if self.rule.clears_numbers {
            self.phrases[kept..].fill(0);
        }
        self.words = placed.words;
        let is_fewer = kept < given.len();
        let reached = &mut self.reached;
        reached.add(PLACING, moved(&given[..kept], &self.words));
        reached.add(DROPPED, is_fewer);
        reached.add(BOTH, is_fewer && self.found);
        reached.add(STAY, given.len() < n);
    }

    fn fit(&mut self) {
        let heard = over(self.heard, self.rule.fit_floor);
        let (before, count) = (self.words.clone(), self.full.samples.len());
        let has_spans = !self.full.spans.is_empty();
        if has_spans && self.rule.by_phrase {
            let phrases = &self.phrases[..self.words.len()];
            let to = To {
                phrases,
                spans: &self.full.spans,
                heard: &heard,
                count,
            };
            fit_phrases(&mut self.words, to);
            self.reached.add(PHRASED, moved(&before, &self.words));
        } else if has_spans || self.rule.as_one {
            let duration = self.duration();
            fit_to_sound(&mut self.words, &heard, duration).unwrap();
            self.reached.add(WHOLE, moved(&before, &self.words));
        }
    }

    fn stage(&mut self, stage: Stage) {
        match stage {
            Loops => self.loops(),
            Placing => self.place(),
            Fit => self.fit(),
            snap => self.snap(snap),
        }
    }

    /// What the places hold at last, over what they were given.
    fn outcome(self) -> (Outcome, Reached) {
        let Running {
            rule, full, heard, ..
        } = self;
        let n = full.words.len();
        let mut pieces = pieces(&over(heard, rule.piece_floor), full.samples.len());
        if let Some((_, end)) = pieces.last_mut() {
            *end = (rule.last_end)(*end);
        }
        let counts = [n, self.left, self.words.len()];
        let mut words = padded(self.words, n);
        if !rule.clears {
            let last = counts[2];
            words[last..].copy_from_slice(&full.words[last..]);
        }
        let outcome = Outcome {
            heard: over(heard, None),
            pieces,
            found: (rule.found)(self.found, counts),
            count: (rule.count)(counts),
            words,
            phrases: self.phrases,
        };
        (outcome, self.reached)
    }
}

impl Rule {
    /// A full run over levels that are ready, and what it reached.
    pub fn run(&self, full: &Full, heard: &Envelope) -> (Outcome, Reached) {
        let n = full.words.len();
        let mut running = Running {
            rule: self,
            full,
            heard,
            words: full.words.clone(),
            phrases: marks(n),
            left: n,
            found: false,
            reached: Reached::default(),
        };
        for &stage in self.order {
            running.stage(stage);
        }
        running.outcome()
    }
}

impl Outcome {
    /// What is wrong with another rule's outcome.
    pub fn differs(&self, other: &Outcome) -> Option<String> {
        let answer = |o: &Outcome| (o.pieces.clone(), o.found, o.count);
        if answer(self) != answer(other) {
            return Some("another answer".to_string());
        }
        if self.phrases != other.phrases {
            return Some("other phrase places".to_string());
        }
        Lent::new(&other.words).hold(&self.words)
    }
}
