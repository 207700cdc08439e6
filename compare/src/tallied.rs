//! What is compared of the tally: words with their phrase numbers, the spans, and a recording's levels,
//! or levels that are made up; with document 01's stand-in over the Rust's own frames.

use crate::ffi::{self, Over};
use crate::files::Filed;
use crate::inputs::Random;
use crate::places::Places;
use crate::planted::{Planted, names, noticed};
use crate::report::{Case, Compared};
use crate::tally_rule::{BRANCHES, FURTHER, RIGHT, Rule, TOO_FEW, tallies};
use crate::transcript::envelope::{frame_ceil, frame_from_zero};
use crate::words::{Lent, Spans, named, same};

pub struct Tally;

impl Filed {
    /// What is wrong with the library's answer, and with what it leaves, where so many places are lent.
    fn tally_differs(&self, want: &[u64], lent: usize) -> Option<String> {
        let mut words = Lent::new(&self.words);
        let mut phrases = Places::holding(self.phrases.iter().copied());
        let mut spans = Spans::new(&self.spans);
        let before = (words.clone(), phrases.clone(), spans.clone());
        let mut places = Places::new(lent);
        let over = Over::from(&self.sound);
        let refusal = ffi::tally(&mut words, &mut phrases, &mut spans, over, &mut places);
        let wrong = match (refusal, lent < want.len()) {
            (0, false) => places.hold(want.iter().copied()),
            (6, true) => places.stay(0),
            (refusal, _) => Some(format!("answered {refusal}, with {lent} places")),
        };
        named("places", wrong)
            .or_else(|| words.stay(&before.0))
            .or_else(|| named("phrases", same(&phrases, &before.1)))
            .or_else(|| spans.stay(&before.2))
    }

    fn tally_case(&self, random: &mut Random) -> Case {
        let want = tallies(&self.words, self.to());
        let (second, mut reached) = RIGHT.tally(&self.words, self.to());
        let n = want.len();
        let lent = random.of(&[n, n, n, n + 1, n + 9, n.saturating_sub(1)]);
        reached.add(FURTHER, lent > n);
        reached.add(TOO_FEW, lent < n);
        let wrong = (second != want).then(|| "the second rule differs".to_string());
        let difference = self.tally_differs(&want, lent).or(wrong);
        Case {
            reached,
            ..Case::new(1, difference.map(|text| self.describe(text)))
        }
    }
}

impl Compared for Tally {
    fn name(&self) -> &str {
        "tally"
    }

    fn weight(&self) -> u64 {
        50
    }

    fn branches(&self) -> Vec<String> {
        BRANCHES.iter().copied().map(String::from).collect()
    }

    fn limits(&self) -> Vec<Case> {
        let mut random = Random::new(0, 14);
        let limits = Filed::limits(&mut random);
        let case = |list: &Filed| list.tally_case(&mut random);
        limits.iter().map(case).collect()
    }

    fn random(&self, random: &mut Random) -> Case {
        let list = Filed::random(random);
        list.tally_case(random)
    }
}

pub const PLANTED: &[Planted] = &[Planted {
    name: "tally_planted",
    names: || names(WRONG),
    judge: tallied,
}];

const WRONG: &[(&str, Rule)] = &[
    (
        "the end's frame counted",
        Rule {
            past: |end| frame_from_zero(end) + 1,
            ..RIGHT
        },
    ),
    (
        "the start's frame left out",
        Rule {
            first: |start| frame_from_zero(start) + 1,
            ..RIGHT
        },
    ),
    (
        "the end rounded up",
        Rule {
            past: |end| frame_ceil(end).max(0),
            ..RIGHT
        },
    ),
    (
        "t * 100 for the frame",
        Rule {
            past: |end| (end * 100.0).floor().max(0.0) as i64,
            ..RIGHT
        },
    ),
    (
        "a level at the floor is loud",
        Rule {
            loud: |heard, frame| heard.env[frame] >= heard.floor,
            ..RIGHT
        },
    ),
    (
        "a level that is not quiet is loud",
        Rule {
            loud: |heard, frame| {
                let level = heard.env[frame];
                level > heard.floor || level.is_nan() || heard.floor.is_nan()
            },
            ..RIGHT
        },
    ),
    (
        "the next number's words too",
        Rule {
            of_span: |number, span, _| number as usize == span || number as usize == span + 1,
            ..RIGHT
        },
    ),
    (
        "words without a span in the last",
        Rule {
            of_span: |number, span, spans| (number as usize).min(spans - 1) == span,
            ..RIGHT
        },
    ),
    (
        "a frame once for a span",
        Rule {
            once: true,
            ..RIGHT
        },
    ),
];

/// Words that the wrong rules of the tally are tried on.
fn tallied(random: &mut Random) -> Case {
    let list = Filed::random(random);
    let right = tallies(&list.words, list.to());
    noticed(WRONG, |rule| rule.tally(&list.words, list.to()).0 != right)
}
