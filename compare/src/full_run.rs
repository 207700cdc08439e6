//! What is compared of full runs: a recording, words and spans, with the Rust's stages in a row.

use crate::check::HeardWord;
use crate::ffi::{self, Lending};
use crate::full::Full;
use crate::full_rule::Stage::{Ends, Fit, Loops, Onsets, Placing, Tails};
use crate::full_rule::{MOVES, Outcome, RIGHT, Rule, stages};
use crate::inputs::Random;
use crate::planted::{Planted, names, noticed};
use crate::recordings::HOP;
use crate::report::{Case, Compared, Reached};
use crate::words::{LAST, MAX_WORDS, named, odd_times};
use crate::{heard, pieces};

pub struct FullRun;

/// The branches beside those of the stages, by their names.
const GIVEN: &[&str] = &[
    "a time moved",
    "no time moved, of some words",
    "no frame",
    "no frame, with words",
    "one piece",
    "several pieces",
    "several pieces, and a time moved",
    "samples past the last frame",
    "a NaN sample, with words",
    "an infinite sample, with words",
    "a peak under 1e-9, with words",
    "no words",
    "no words, with spans",
    "no spans, with words",
    "a span that takes no words",
    "a span of no length, with words",
    "more spans than words",
    "fewer spans than words",
    "every word dropped",
    "100 words or more",
    "4,096 words",
    "4,096 spans",
    "-0 among the times",
    "7,200 s among the times",
    "a subnormal time",
    "a word at -7,200 s",
    "a word at 7,200 s",
    "further places of levels",
    "further places of pieces",
    "further phrase places",
    "further work space",
];

impl Full {
    /// Notes what there is to the run.
    fn look(&self, rust: &Outcome, lending: &Lending, reached: &mut Reached) {
        let (n, spans) = (self.words.len(), &self.spans);
        let (count, frames) = (self.samples.len(), rust.heard.env.len());
        let at = |t: f64| self.words.iter().any(|w| w.start == t || w.end == t);
        let any = |is: fn(f32) -> bool| self.samples.iter().any(|&sample| is(sample));
        let times = |w: &HeardWord| [w.start, w.end].map(f64::to_bits);
        let first = &self.words[..rust.count];
        let moved = !first
            .iter()
            .map(times)
            .eq(rust.words.iter().map(times).take(rust.count));
        let [zero, last, subnormal] = odd_times(&self.words);
        let several = rust.pieces.len() > 1;
        let further = |lent: usize, need: usize| lent > need;
        let work = &lending.work;
        let yes = [
            moved,
            n > 0 && !moved && rust.count == n,
            frames == 0,
            frames == 0 && n > 0,
            rust.pieces.len() == 1,
            several,
            several && moved,
            count % HOP > 0,
            n > 0 && any(f32::is_nan),
            n > 0 && any(f32::is_infinite),
            n > 0 && rust.heard.floor == 1e-9 * 0.01,
            n == 0,
            n == 0 && !spans.is_empty(),
            n > 0 && spans.is_empty(),
            spans.iter().any(|span| span.text.count == 0),
            n > 0 && spans.iter().any(|span| span.start == span.end),
            spans.len() > n,
            spans.len() < n,
            n > 0 && rust.count == 0,
            n >= 100,
            n == MAX_WORDS,
            spans.len() == MAX_WORDS,
            zero,
            last,
            subnormal,
            at(-LAST),
            at(LAST),
            further(lending.levels.lent(), frames),
            further(lending.piece_ends.lent(), pieces::need(frames)),
            further(lending.phrases.lent(), n),
            further(work.starts.lent(), n),
        ];
        for (at, yes) in yes.into_iter().enumerate() {
            reached.add(MOVES.len() + at, yes);
        }
    }

    /// What is wrong with the library's answer, and with what it leaves.
    fn differs(&self, rust: &Outcome, mut lending: Lending) -> Option<String> {
        let before = lending.clone();
        let ours = ffi::full_run(&self.samples, &mut lending);
        let answer = (0, u32::from(rust.found), rust.pieces.len(), rust.count);
        if (ours.refusal, ours.found, ours.pieces, ours.words) != answer {
            return Some(format!("ours {ours:?}, the Rust's {answer:?}"));
        }
        let Lending {
            words,
            spans,
            phrases,
            levels,
            piece_starts,
            piece_ends,
            work,
        } = &lending;
        let further = || {
            named("levels", levels.stay(rust.heard.env.len()))
                .or_else(|| named("piece starts", piece_starts.stay(ours.pieces)))
                .or_else(|| named("piece ends", piece_ends.stay(ours.pieces)))
        };
        heard::first_difference(levels, ours.floor, &rust.heard)
            .or_else(|| pieces::first_difference(&rust.pieces, piece_starts, piece_ends))
            .or_else(|| words.hold(&rust.words))
            .or_else(|| named("phrases", phrases.hold(rust.phrases.iter().copied())))
            .or_else(further)
            .or_else(|| spans.stay(&before.spans))
            .or_else(|| work.stay_past())
    }

    fn case(&self, random: &mut Random) -> Case {
        let rust = stages(self);
        let (second, mut reached) = RIGHT.run(self, &rust.heard);
        let lending = self.lending(random);
        self.look(&rust, &lending, &mut reached);
        let wrong = rust.differs(&second);
        let wrong = wrong.map(|text| format!("the second rule: {text}"));
        let difference = self.differs(&rust, lending).or(wrong);
        Case {
            reached,
            ..Case::new(1, difference.map(|text| self.describe(text)))
        }
    }
}

impl Compared for FullRun {
    fn name(&self) -> &str {
        "full_run"
    }

    fn weight(&self) -> u64 {
        32
    }

    fn branches(&self) -> Vec<String> {
        let names = MOVES.iter().chain(GIVEN);
        names.copied().map(String::from).collect()
    }

    fn limits(&self) -> Vec<Case> {
        let mut random = Random::new(0, 15);
        let limits = Full::limits(&mut random);
        limits.iter().map(|full| full.case(&mut random)).collect()
    }

    fn random(&self, random: &mut Random) -> Case {
        let full = Full::random(random);
        full.case(random)
    }
}

pub const PLANTED: &[Planted] = &[Planted {
    name: "full_run_planted",
    names: || names(WRONG),
    judge: planted,
}];

/// The floor of another recording, whose loudest level is 2.
const ANOTHER: Option<f64> = Some(0.02);

const WRONG: &[(&str, Rule)] = &[
    (
        "another recording's floor in the fit",
        Rule {
            fit_floor: ANOTHER,
            ..RIGHT
        },
    ),
    (
        "another recording's floor in the snaps",
        Rule {
            snap_floor: ANOTHER,
            ..RIGHT
        },
    ),
    (
        "another recording's floor in the pieces",
        Rule {
            piece_floor: ANOTHER,
            ..RIGHT
        },
    ),
    (
        "phrase numbers kept from before",
        Rule {
            numbers: false,
            ..RIGHT
        },
    ),
    (
        "placing from the given count",
        Rule {
            places_all: true,
            ..RIGHT
        },
    ),
    (
        "phrase places behind loops cleared",
        Rule {
            clears_numbers: true,
            ..RIGHT
        },
    ),
    (
        "places behind the words not cleared",
        Rule {
            clears: false,
            ..RIGHT
        },
    ),
    (
        "loops skipped",
        Rule {
            order: &[Tails, Onsets, Ends, Placing, Fit],
            ..RIGHT
        },
    ),
    (
        "tails skipped",
        Rule {
            order: &[Loops, Onsets, Ends, Placing, Fit],
            ..RIGHT
        },
    ),
    (
        "onsets skipped",
        Rule {
            order: &[Loops, Tails, Ends, Placing, Fit],
            ..RIGHT
        },
    ),
    (
        "ends skipped",
        Rule {
            order: &[Loops, Tails, Onsets, Placing, Fit],
            ..RIGHT
        },
    ),
    (
        "the fit skipped",
        Rule {
            order: &[Loops, Tails, Onsets, Ends, Placing],
            ..RIGHT
        },
    ),
    (
        "onsets before tails",
        Rule {
            order: &[Loops, Onsets, Tails, Ends, Placing, Fit],
            ..RIGHT
        },
    ),
    (
        "ends before onsets",
        Rule {
            order: &[Loops, Tails, Ends, Onsets, Placing, Fit],
            ..RIGHT
        },
    ),
    (
        "loops after ends",
        Rule {
            order: &[Tails, Onsets, Ends, Loops, Placing, Fit],
            ..RIGHT
        },
    ),
    (
        "placing before ends",
        Rule {
            order: &[Loops, Tails, Onsets, Placing, Ends, Fit],
            ..RIGHT
        },
    ),
    (
        "a fit over the recording with spans",
        Rule {
            by_phrase: false,
            ..RIGHT
        },
    ),
    (
        "no fit without spans",
        Rule {
            as_one: false,
            ..RIGHT
        },
    ),
    (
        "a duration of whole frames",
        Rule {
            duration: |samples| (samples / HOP * HOP) as f64 / 16000.0,
            ..RIGHT
        },
    ),
    (
        "the last piece of whole frames",
        Rule {
            last_end: |samples| samples / HOP * HOP,
            ..RIGHT
        },
    ),
    (
        "found where words are dropped",
        Rule {
            found: |_, [given, _, last]| last < given,
            ..RIGHT
        },
    ),
    (
        "the count that loops left",
        Rule {
            count: |[_, left, _]| left,
            ..RIGHT
        },
    ),
];

/// A run that the wrong rules are tried on.
fn planted(random: &mut Random) -> Case {
    let full = Full::random(random);
    let rust = stages(&full);
    noticed(WRONG, |rule| {
        let (other, _) = rule.run(&full, &rust.heard);
        rust.differs(&other).is_some()
    })
}
