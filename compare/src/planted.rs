//! Rules that are wrong on purpose: each has to be noticed on the lists that are drawn for the
//! comparison. The library is not called.

use crate::check::HeardWord;
use crate::crushed::Crushed;
use crate::even_rule;
use crate::inputs::Random;
use crate::phrases_rule;
use crate::report::{Case, Compared, Reached};
use crate::spans::Phrased;
use crate::words::Lent;

/// The wrong rules of a stage: their names, and the way to try each on a list that is drawn.
pub struct Planted {
    pub name: &'static str,
    pub names: fn() -> Vec<String>,
    pub judge: fn(&mut Random) -> Case,
}

pub const PLANTED: &[Planted] = &[
    Planted {
        name: "even_out_planted",
        names: || names(EVEN),
        judge: evened,
    },
    Planted {
        name: "align_phrases_planted",
        names: || names(PHRASES),
        judge: placed,
    },
];

const EVEN: &[(&str, even_rule::Rule)] = {
    use even_rule::{RIGHT, Rule};
    &[
        ("a growth bound of 5", Rule { grow: 5, ..RIGHT }),
        ("a growth bound of 7", Rule { grow: 7, ..RIGHT }),
        ("a borrowing bound of 5", Rule { borrow: 5, ..RIGHT }),
        ("a borrowing bound of 7", Rule { borrow: 7, ..RIGHT }),
        (
            "shared by units",
            Rule {
                shared_by: |text| text.units as f64,
                ..RIGHT
            },
        ),
        (
            "room by units",
            Rule {
                weight: |text| text.units as f64,
                ..RIGHT
            },
        ),
        (
            "crushed at 0.08 s",
            Rule {
                crushed: |length| length <= 0.08,
                ..RIGHT
            },
        ),
        (
            "swollen at its limit",
            Rule {
                swollen: |length, weight| length >= 0.25 + 0.12 * weight,
                ..RIGHT
            },
        ),
        (
            "no swollen word joins",
            Rule {
                swollen: |_, _| false,
                ..RIGHT
            },
        ),
        (
            "too soon at the limit",
            Rule {
                tight: |room, letters| room <= 0.05 * letters,
                ..RIGHT
            },
        ),
        (
            "the slow pace summed first",
            Rule {
                slow_end: |start, total, count| start + (0.12 * total + 0.1 * count),
                ..RIGHT
            },
        ),
        (
            "the share before the room",
            Rule {
                share: |room, weight, total| room * (weight / total),
                ..RIGHT
            },
        ),
        (
            "the last end not kept",
            Rule {
                keeps_end: false,
                ..RIGHT
            },
        ),
        (
            "the limit for every run",
            Rule {
                limits_all: true,
                ..RIGHT
            },
        ),
        (
            "ends clipped to the limit",
            Rule {
                clips: true,
                ..RIGHT
            },
        ),
    ]
};

const PHRASES: &[(&str, phrases_rule::Rule)] = {
    use phrases_rule::{RIGHT, Rule};
    &[
        (
            "slack before alone",
            Rule {
                after: 0.0,
                ..RIGHT
            },
        ),
        (
            "slack after alone",
            Rule {
                before: 0.0,
                ..RIGHT
            },
        ),
        (
            "outside at the limits",
            Rule {
                reaches: |x, least| x > least,
                ..RIGHT
            },
        ),
        (
            "max(0, ..) left out",
            Rule {
                room: |from, to| to - from,
                ..RIGHT
            },
        ),
        (
            "spread by units",
            Rule {
                weight: |text| text.units as f64,
                ..RIGHT
            },
        ),
        (
            "the share before the room",
            Rule {
                share: |room, weight, total| room * (weight / total),
                ..RIGHT
            },
        ),
        (
            "strays left where they are",
            Rule {
                moves_strays: false,
                ..RIGHT
            },
        ),
        (
            "strays up to the next start",
            Rule {
                stray_end: |_, next| next,
                ..RIGHT
            },
        ),
        (
            "numbers of spans with words",
            Rule {
                numbers_all: false,
                ..RIGHT
            },
        ),
    ]
};

/// The names of rules.
pub fn names<T>(rules: &[(&str, T)]) -> Vec<String> {
    rules.iter().map(|(name, _)| name.to_string()).collect()
}

/// Notes which of the wrong rules differ.
pub fn noticed<T>(rules: &[(&str, T)], differs: impl Fn(&T) -> bool) -> Case {
    let mut reached = Reached::default();
    for (at, (_, rule)) in rules.iter().enumerate() {
        reached.add(at, differs(rule));
    }
    Case {
        reached,
        ..Case::new(rules.len(), None)
    }
}

/// Words that the wrong rules of evening are tried on.
fn evened(random: &mut Random) -> Case {
    let list = Crushed::random(random);
    let rust = list.evened();
    noticed(EVEN, |rule| {
        let mut words: Vec<HeardWord> = list.words.clone();
        rule.even_out(&mut words, list.limit);
        Lent::new(&words).hold(&rust).is_some()
    })
}

/// Words and spans that the wrong rules of placing are tried on.
fn placed(random: &mut Random) -> Case {
    let list = Phrased::random(random);
    let rust = list.placed();
    noticed(PHRASES, |rule| {
        let kept = rule.align_phrases(&list.words, &list.spans);
        list.differs_from(&rust, kept).is_some()
    })
}

impl Compared for Planted {
    fn name(&self) -> &str {
        self.name
    }

    fn weight(&self) -> u64 {
        100
    }

    fn branches(&self) -> Vec<String> {
        (self.names)()
    }

    fn limits(&self) -> Vec<Case> {
        Vec::new()
    }

    fn random(&self, random: &mut Random) -> Case {
        (self.judge)(random)
    }
}
