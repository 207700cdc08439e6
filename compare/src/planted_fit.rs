//! Rules of fitting that are wrong on purpose, like those of src/planted.rs.

use crate::check::HeardWord;
use crate::file_rule;
use crate::files::Filed;
use crate::fit_rule;
use crate::inputs::Random;
use crate::planted::{Planted, names, noticed};
use crate::report::Case;
use crate::run_rule;
use crate::runs::{Searched, differs};
use crate::spoken::Spoken;
use crate::words::Lent;

pub const PLANTED: &[Planted] = &[
    Planted {
        name: "last_run_planted",
        names: || names(RUNS),
        judge: searched,
    },
    Planted {
        name: "fit_to_sound_planted",
        names: || names(FIT),
        judge: fitted,
    },
    Planted {
        name: "fit_file_planted",
        names: || names(FILES),
        judge: filed,
    },
];

const RUNS: &[(&str, run_rule::Rule)] = {
    use run_rule::{RIGHT, Rule};
    &[
        (
            "14 quiet frames bridged",
            Rule {
                bridged: 14,
                ..RIGHT
            },
        ),
        (
            "16 quiet frames bridged",
            Rule {
                bridged: 16,
                ..RIGHT
            },
        ),
        (
            "a run of 3 frames",
            Rule {
                min_run: 2,
                ..RIGHT
            },
        ),
        (
            "no run of 4 frames",
            Rule {
                min_run: 4,
                ..RIGHT
            },
        ),
    ]
};

const FIT: &[(&str, fit_rule::Rule)] = {
    use fit_rule::{RIGHT, Rule};
    &[
        (
            "a sound ended by 14",
            Rule {
                end_silence: 14,
                ..RIGHT
            },
        ),
        (
            "a sound ended by 16",
            Rule {
                end_silence: 16,
                ..RIGHT
            },
        ),
        (
            "14 quiet before the next",
            Rule {
                gap_silence: 14,
                ..RIGHT
            },
        ),
        (
            "16 quiet before the next",
            Rule {
                gap_silence: 16,
                ..RIGHT
            },
        ),
        (
            "starts 0.01 s apart",
            Rule {
                step: 0.01,
                ..RIGHT
            },
        ),
        (
            "1.49 s ahead",
            Rule {
                ahead: 1.49,
                ..RIGHT
            },
        ),
        (
            "up to the next word",
            Rule {
                before_next: 0.0,
                ..RIGHT
            },
        ),
        (
            "all of its length kept",
            Rule {
                kept: f64::INFINITY,
                ..RIGHT
            },
        ),
        (
            "a start of two loud frames",
            Rule {
                loud_run: 2,
                ..RIGHT
            },
        ),
        (
            "cut back at 0.05 s",
            Rule {
                loose: |end, sound| end >= sound + 0.05,
                ..RIGHT
            },
        ),
        (
            "always cut back",
            Rule {
                need: |_| f64::NEG_INFINITY,
                ..RIGHT
            },
        ),
        (
            "0.05 s for each letter",
            Rule {
                need: |letters| 0.05 * letters,
                ..RIGHT
            },
        ),
        (
            "no limit to the end",
            Rule {
                limit: |_| f64::INFINITY,
                ..RIGHT
            },
        ),
    ]
};

const FILES: &[(&str, file_rule::Rule)] = {
    use file_rule::{RIGHT, Rule};
    &[
        (
            "the recording's duration",
            Rule {
                duration: |recording, _| recording,
                ..RIGHT
            },
        ),
        (
            "the span's end alone",
            Rule {
                duration: |_, span| span,
                ..RIGHT
            },
        ),
        (
            "words not kept inside",
            Rule {
                keeps_inside: false,
                ..RIGHT
            },
        ),
        (
            "sound after 0.1 s",
            Rule {
                trailing_gap: 0.1,
                ..RIGHT
            },
        ),
        (
            "not evened at last",
            Rule {
                evens: false,
                ..RIGHT
            },
        ),
        (
            "a last run over 14 quiet frames",
            Rule {
                run: RUNS[0].1,
                ..RIGHT
            },
        ),
        (
            "a last run over 16 quiet frames",
            Rule {
                run: RUNS[1].1,
                ..RIGHT
            },
        ),
        (
            "a last run of 3 frames",
            Rule {
                run: RUNS[2].1,
                ..RIGHT
            },
        ),
        (
            "a sound ended by 14",
            Rule {
                fit: FIT[0].1,
                ..RIGHT
            },
        ),
        (
            "a sound ended by 16",
            Rule {
                fit: FIT[1].1,
                ..RIGHT
            },
        ),
        (
            "14 quiet before the next",
            Rule {
                fit: FIT[2].1,
                ..RIGHT
            },
        ),
        (
            "16 quiet before the next",
            Rule {
                fit: FIT[3].1,
                ..RIGHT
            },
        ),
    ]
};

/// A search that the wrong rules of the last run are tried on.
fn searched(random: &mut Random) -> Case {
    let search = Searched::random(random);
    let rust = search.found();
    noticed(RUNS, |rule| {
        let (other, _) = rule.last_run(&search.sound.levels, search.from, search.to);
        differs(other, rust).is_some()
    })
}

/// Words that the wrong rules of fitting are tried on.
fn fitted(random: &mut Random) -> Case {
    let list = Spoken::to_fit(random);
    let rust = list.fitted();
    noticed(FIT, |rule| {
        let mut words: Vec<HeardWord> = list.words.clone();
        rule.fit_to_sound(&mut words, &list.sound.levels, list.duration);
        Lent::new(&words).hold(&rust).is_some()
    })
}

/// Words over a recording that the wrong rules of fitting by phrase are tried on.
fn filed(random: &mut Random) -> Case {
    let list = Filed::recorded(random);
    let rust = list.fitted();
    noticed(FILES, |rule| {
        let mut words: Vec<HeardWord> = list.words.clone();
        rule.fit_file(&mut words, list.to());
        Lent::new(&words).hold(&rust).is_some()
    })
}
