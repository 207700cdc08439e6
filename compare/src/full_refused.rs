//! What is compared of full runs that have to be refused: document 01's number, the first of those that
//! apply, and every lent place as it was.

use std::sync::LazyLock;

use crate::faults::{FAULTS, Fault, Given};
use crate::ffi::{self, Lending, Report};
use crate::inputs::Random;
use crate::pieces::need;
use crate::places::Places;
use crate::recordings::{HOP, MAX_SAMPLES};
use crate::report::{Case, Compared, Reached};
use crate::words::{MAX_COUNT, MAX_LETTERS, MAX_SPANS, MAX_UNITS, MAX_WORDS, named, same};
use crate::words_refused::{any_off, any_outside, spans_differ, words_differ};

pub struct Refused;

/// One sample more than is taken: zeros in pages that the system has not laid out.
static TOO_MANY: LazyLock<Vec<f32>> = LazyLock::new(|| vec![0.0; MAX_SAMPLES + 1]);

/// The branches, by their names.
const BRANCHES: &[&str] = &[
    "refused with 3",
    "refused with 4",
    "refused with 1",
    "refused with 2",
    "refused with 6",
    "3, with 4 too",
    "4, with 1 too",
    "1, with 2 too",
    "2, with 6 too",
    "3, with 6 too",
    "4 for the samples alone",
    "6 for the levels alone",
    "6 for the piece starts alone",
    "6 for the piece ends alone",
    "6 for the phrase places alone",
    "6 for the work starts alone",
    "6 for the work ends alone",
    "6 for the work letters alone",
    "6, of two pieces' places one",
];

/// What a run is given.
struct Run {
    /// So many samples, all alike.
    count: usize,
    lending: Lending,
}

/// A way to make the lent places too few.
type Short = fn(&mut Run, &mut Random);

const SHORTS: &[Short] = &[
    |run, random| run.lending.levels = fewer(run.frames(), random),
    |run, random| run.lending.piece_starts = fewer(need(run.frames()), random),
    |run, random| run.lending.piece_ends = fewer(need(run.frames()), random),
];

/// One place fewer, or none.
fn fewer(n: usize, random: &mut Random) -> Places {
    let less = n.saturating_sub(1);
    Places::new(random.of(&[less, less, 0]))
}

/// Which refusals apply, in their order.
struct Applies {
    lengths: bool,
    counts: bool,
    times: bool,
    letters: bool,
    /// For the levels, piece starts, piece ends, phrases, and each list of work space.
    places: [bool; 7],
}

impl Run {
    /// What is given to other calls, with samples for its levels. In some there are so many frames
    /// that two pieces have to find place.
    fn new(given: Given, random: &mut Random) -> Run {
        let long = random.of(&[1204, 2001]) * HOP;
        let count = match random.below(64) {
            0 if given.count <= MAX_SAMPLES => long,
            _ => given.count.min(MAX_SAMPLES + 1),
        };
        let frames = count / HOP;
        let [levels, starts, ends] = [frames, need(frames), need(frames)];
        let more = |n: usize, random: &mut Random| Places::new(n + random.of(&[0, 0, 1, 5]));
        let lending = Lending {
            words: given.loan.words,
            spans: given.loan.spans,
            phrases: given.loan.phrases,
            levels: more(levels, random),
            piece_starts: more(starts, random),
            piece_ends: more(ends, random),
            work: given.loan.work,
        };
        Run { count, lending }
    }

    fn frames(&self) -> usize {
        self.count / HOP
    }

    /// Document 01's refusals that apply.
    fn applies(&self) -> Applies {
        let Lending {
            words,
            spans,
            phrases,
            levels,
            piece_starts,
            piece_ends,
            work,
        } = &self.lending;
        let (n, frames) = (words.starts.lent(), self.frames());
        Applies {
            lengths: words_differ(words) || spans_differ(spans),
            counts: n > MAX_WORDS
                || spans.starts.lent() > MAX_SPANS
                || any_off(&spans.counts, 0, MAX_COUNT)
                || self.count > MAX_SAMPLES,
            times: any_outside(&words.starts, &words.ends)
                || any_outside(&spans.starts, &spans.ends),
            letters: any_off(&words.letters, 1, MAX_LETTERS) || any_off(&words.units, 1, MAX_UNITS),
            places: [
                levels.lent() < frames,
                piece_starts.lent() < need(frames),
                piece_ends.lent() < need(frames),
                phrases.lent() < n,
                work.starts.lent() < n,
                work.ends.lent() < n,
                work.letters.lent() < n,
            ],
        }
    }

    /// What is wrong with the answer of a run that has to be refused, or with what it left.
    fn differs(&self, refusal: u32) -> Option<String> {
        let mut lending = self.lending.clone();
        let ours = ffi::full_run(&TOO_MANY[..self.count], &mut lending);
        let Report {
            found,
            pieces,
            words,
            floor,
            ..
        } = ours;
        let rest = (u64::from(found), pieces, words, floor.to_bits());
        if ours.refusal != refusal || rest != (0, 0, 0, 0) {
            return Some(format!("ours {ours:?}, and it is {refusal}"));
        }
        stay(&lending, &self.lending)
    }

    /// Notes which refusals apply.
    fn look(&self, applies: &Applies, refusal: u32, reached: &mut Reached) {
        let Applies {
            lengths,
            counts,
            times,
            letters,
            places,
        } = *applies;
        let is_short = places.contains(&true);
        let shorts = places.iter().filter(|&&short| short).count();
        let starts = self.lending.piece_starts.lent();
        for (at, number) in [3, 4, 1, 2, 6].into_iter().enumerate() {
            reached.add(at, refusal == number);
        }
        reached.add(5, lengths && counts);
        reached.add(6, !lengths && counts && times);
        reached.add(7, refusal == 1 && letters);
        reached.add(8, refusal == 2 && is_short);
        reached.add(9, lengths && is_short);
        reached.add(10, refusal == 4 && self.count > MAX_SAMPLES && !times);
        for (at, short) in places.into_iter().enumerate() {
            reached.add(11 + at, refusal == 6 && short && shorts == 1);
        }
        reached.add(18, refusal == 6 && starts == 1 && need(self.frames()) == 2);
    }

    /// A run that is accepted is not compared here.
    fn case(&self) -> Case {
        let applies = self.applies();
        let refusal = applies.first();
        let mut reached = Reached::default();
        if refusal == 0 {
            return Case::new(0, None);
        }
        self.look(&applies, refusal, &mut reached);
        let difference = self.differs(refusal).map(|text| {
            let (n, count) = (self.lending.words.starts.lent(), self.count);
            format!("{n} starts, {count} samples: {text}")
        });
        Case {
            reached,
            ..Case::new(1, difference)
        }
    }
}

impl Applies {
    /// The first one; 0 where there is none.
    fn first(&self) -> u32 {
        let order = [
            (self.lengths, 3),
            (self.counts, 4),
            (self.times, 1),
            (self.letters, 2),
            (self.places.contains(&true), 6),
        ];
        let first = order.iter().find(|(applies, _)| *applies);
        first.map_or(0, |(_, number)| *number)
    }
}

/// What is wrong with what was lent, which should be as it was.
fn stay(after: &Lending, before: &Lending) -> Option<String> {
    let levels = || named("levels", same(&after.levels, &before.levels));
    let starts = || {
        named(
            "piece starts",
            same(&after.piece_starts, &before.piece_starts),
        )
    };
    let ends = || named("piece ends", same(&after.piece_ends, &before.piece_ends));
    after
        .words
        .stay(&before.words)
        .or_else(|| after.spans.stay(&before.spans))
        .or_else(|| named("phrases", same(&after.phrases, &before.phrases)))
        .or_else(levels)
        .or_else(starts)
        .or_else(ends)
        .or_else(|| after.work.stay(&before.work))
}

/// A run that has these faults.
fn case(n: usize, faults: &[Fault], shorts: &[Short], random: &mut Random) -> Case {
    let mut given = Given::new(n, random);
    for fault in faults {
        fault(&mut given, random);
    }
    let mut run = Run::new(given, random);
    for short in shorts {
        short(&mut run, random);
    }
    run.case()
}

impl Compared for Refused {
    fn name(&self) -> &str {
        "full_run_refused"
    }

    fn weight(&self) -> u64 {
        64
    }

    fn branches(&self) -> Vec<String> {
        BRANCHES.iter().copied().map(String::from).collect()
    }

    /// Each fault alone, with each other one, and with each list of places too short, of 0 to 5 words.
    fn limits(&self) -> Vec<Case> {
        let mut random = Random::new(0, 16);
        let mut cases = Vec::new();
        for n in 0..=5 {
            for &short in SHORTS {
                cases.push(case(n, &[], &[short], &mut random));
            }
            for &one in FAULTS {
                cases.push(case(n, &[one], &[], &mut random));
                for &other in FAULTS {
                    cases.push(case(n, &[one, other], &[], &mut random));
                }
                for &short in SHORTS {
                    cases.push(case(n, &[one], &[short], &mut random));
                }
            }
        }
        cases
    }

    fn random(&self, random: &mut Random) -> Case {
        let faults: Vec<Fault> = (0..random.below(4)).map(|_| random.of(FAULTS)).collect();
        let shorts: Vec<Short> = (0..random.below(3) / 2 + random.below(2))
            .map(|_| random.of(SHORTS))
            .collect();
        let n = random.below(8) as usize;
        case(n, &faults, &shorts, random)
    }
}
