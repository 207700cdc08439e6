//! What is compared of calls that take words and have to refuse: document 01's number, the first of
//! those that apply, and every lent place as it was.

use crate::faults::{FAULTS, Fault, Given, Loan};
use crate::ffi::{self, Grouped, Left, Over, Placed};
use crate::inputs::Random;
use crate::places::Places;
use crate::recordings::{HOP, MAX_SAMPLES};
use crate::report::{Case, Compared, Reached};
use crate::words::{LAST, Lent, MAX_COUNT, MAX_LETTERS, MAX_SPANS, MAX_UNITS, MAX_WORDS, Spans};

pub struct Refused;

/// A call that takes words, and what else it takes.
struct Call {
    name: &'static str,
    /// Whether it takes words.
    speaks: bool,
    /// Whether it takes a sound.
    hears: bool,
    /// Whether it takes a duration.
    lasts: bool,
    /// Whether it takes a limit.
    ends: bool,
    /// Whether it takes two times to search between.
    searches: bool,
    /// Whether it takes spans.
    spans: bool,
    /// Whether it takes phrase places.
    places: bool,
    /// Whether it takes phrase numbers.
    groups: bool,
    /// Whether it takes work space.
    works: bool,
    /// Whether it takes a place for each span.
    tallies: bool,
    /// The refusals that it knows.
    refusals: &'static [u32],
    ours: fn(&mut Loan, &Given) -> Left,
}

/// A call that takes words alone.
const WORDS: Call = Call {
    name: "collapse_loops",
    speaks: true,
    hears: false,
    lasts: false,
    ends: false,
    searches: false,
    spans: false,
    places: false,
    groups: false,
    works: false,
    tallies: false,
    refusals: &[3, 4, 1, 2],
    ours: |loan, _| ffi::collapse_loops(&mut loan.words),
};

static CALLS: [Call; 10] = [
    WORDS,
    Call {
        name: "hand_back_tails",
        hears: true,
        refusals: &[3, 4, 1, 2, 7],
        ours: |loan, given| refusing(ffi::hand_back_tails(&mut loan.words, given.over())),
        ..WORDS
    },
    Call {
        name: "snap_onsets",
        hears: true,
        refusals: &[3, 4, 1, 2, 7],
        ours: |loan, given| refusing(ffi::snap_onsets(&mut loan.words, given.over())),
        ..WORDS
    },
    Call {
        name: "snap_ends",
        hears: true,
        refusals: &[3, 4, 1, 2, 7],
        lasts: true,
        ours: |loan, given| {
            let (words, over) = (&mut loan.words, given.over());
            refusing(ffi::snap_ends(words, over, given.duration))
        },
        ..WORDS
    },
    Call {
        name: "even_out",
        ends: true,
        ours: |loan, given| refusing(ffi::even_out(&mut loan.words, given.limit)),
        ..WORDS
    },
    Call {
        name: "align_phrases",
        spans: true,
        places: true,
        refusals: &[3, 4, 1, 2, 6],
        ours: |loan, _| place(loan),
        ..WORDS
    },
    Call {
        name: "last_run",
        speaks: false,
        hears: true,
        searches: true,
        refusals: &[4, 1, 7],
        ours: |_, given| search(given),
        ..WORDS
    },
    Call {
        name: "fit_to_sound",
        hears: true,
        lasts: true,
        refusals: &[3, 4, 1, 2, 7],
        ours: |loan, given| {
            let (words, over) = (&mut loan.words, given.over());
            refusing(ffi::fit_to_sound(words, over, given.duration))
        },
        ..WORDS
    },
    Call {
        name: "fit_file",
        hears: true,
        spans: true,
        groups: true,
        works: true,
        refusals: &[3, 4, 1, 2, 7, 6],
        ours: |loan, given| refusing(fit(loan, given)),
        ..WORDS
    },
    Call {
        name: "tally",
        hears: true,
        spans: true,
        groups: true,
        tallies: true,
        refusals: &[3, 4, 1, 2, 7, 6],
        ours: |loan, given| refusing(tally(loan, given)),
        ..WORDS
    },
];

/// Every call with each of its refusals, by their names: these are the branches.
fn refusals() -> impl Iterator<Item = (&'static str, u32)> {
    let each = |call: &'static Call| call.refusals.iter().map(|&number| (call.name, number));
    CALLS.iter().flat_map(each)
}

/// The answer of placing, which finds nothing.
fn place(loan: &mut Loan) -> Left {
    let Loan {
        words,
        spans,
        phrases,
        ..
    } = loan;
    let Placed { refusal, count } = ffi::align_phrases(words, spans, phrases);
    Left {
        count,
        ..refusing(refusal)
    }
}

/// The answer of a last run, whose times have to be zeros.
fn search(given: &Given) -> Left {
    let run = ffi::last_run(given.over(), given.from, given.to);
    let times = [run.start, run.end].map(f64::to_bits);
    Left {
        refusal: run.refusal,
        found: run.found,
        count: times.iter().filter(|&&bits| bits != 0).count(),
    }
}

/// The answer of fitting by phrase.
fn fit(loan: &mut Loan, given: &Given) -> u32 {
    let mut grouped = Grouped {
        phrases: loan.numbers.clone(),
        spans: loan.spans.clone(),
        work: loan.work.clone(),
    };
    let refusal = ffi::fit_file(&mut loan.words, &mut grouped, given.over());
    let Grouped {
        phrases,
        spans,
        work,
    } = grouped;
    (loan.numbers, loan.spans, loan.work) = (phrases, spans, work);
    refusal
}

/// The answer of the tally.
fn tally(loan: &mut Loan, given: &Given) -> u32 {
    let Loan {
        words,
        spans,
        numbers,
        tallies,
        ..
    } = loan;
    ffi::tally(words, numbers, spans, given.over(), tallies)
}

/// The answer of a refusal: its number, and nothing found or left.
fn refusing(refusal: u32) -> Left {
    Left {
        refusal,
        found: 0,
        count: 0,
    }
}

fn outside(bits: &u64) -> bool {
    let t = f64::from_bits(*bits);
    !(-LAST..=LAST).contains(&t)
}

pub fn any_outside(starts: &Places, ends: &Places) -> bool {
    let lent = |list: &Places| list.bits()[..list.lent()].iter().any(outside);
    lent(starts) || lent(ends)
}

/// Whether the lists of words differ in length.
pub fn words_differ(words: &Lent) -> bool {
    let n = words.starts.lent();
    let numbers = [&words.letters, &words.units, &words.keys];
    words.ends.lent() != n || numbers.iter().any(|list| list.lent() != n)
}

/// Whether the lists of spans differ in length.
pub fn spans_differ(spans: &Spans) -> bool {
    let n = spans.starts.lent();
    spans.ends.lent() != n || spans.counts.lent() != n
}

/// Whether a number in the list is more than is taken, or less.
pub fn any_off(list: &Places<u32>, least: u32, most: u32) -> bool {
    let off = |&x: &u32| x < least || x > most;
    list.bits()[..list.lent()].iter().any(off)
}

impl Given {
    fn over(&self) -> Over<'_> {
        Over {
            levels: &self.levels,
            floor: self.floor,
            count: self.count,
        }
    }

    /// Whether lists that belong together differ in length.
    fn unlike(&self, call: &Call) -> bool {
        let Loan {
            words,
            spans,
            numbers,
            ..
        } = &self.loan;
        call.speaks && words_differ(words)
            || call.spans && spans_differ(spans)
            || call.groups && numbers.lent() != words.starts.lent()
    }

    /// Whether there is too much of something.
    fn too_many(&self, call: &Call) -> bool {
        let Loan { words, spans, .. } = &self.loan;
        let too_many_spans =
            spans.starts.lent() > MAX_SPANS || any_off(&spans.counts, 0, MAX_COUNT);
        call.speaks && words.starts.lent() > MAX_WORDS
            || call.hears && self.count > MAX_SAMPLES
            || call.spans && too_many_spans
    }

    /// Whether something is no time.
    fn bad_time(&self, call: &Call) -> bool {
        let Loan { words, spans, .. } = &self.loan;
        let no_limit = self.limit != f64::INFINITY && outside(&self.limit.to_bits());
        let search = [self.from, self.to].map(f64::to_bits);
        call.speaks && any_outside(&words.starts, &words.ends)
            || call.lasts && outside(&self.duration.to_bits())
            || call.ends && no_limit
            || call.searches && search.iter().any(outside)
            || call.spans && any_outside(&spans.starts, &spans.ends)
    }

    /// Whether a word's letters or units are outside their range.
    fn bad_number(&self, call: &Call) -> bool {
        let Lent { letters, units, .. } = &self.loan.words;
        call.speaks && (any_off(letters, 1, MAX_LETTERS) || any_off(units, 1, MAX_UNITS))
    }

    /// Whether there are too few places.
    fn too_few(&self, call: &Call) -> bool {
        let Loan {
            words,
            spans,
            phrases,
            work,
            tallies,
            ..
        } = &self.loan;
        let n = words.starts.lent();
        let work = [work.starts.lent(), work.ends.lent(), work.letters.lent()];
        call.places && phrases.lent() < n
            || call.works && work.iter().any(|&lent| lent < n)
            || call.tallies && tallies.lent() < spans.starts.lent()
    }

    /// Document 01's refusal; 0 where there is none.
    fn refusal(&self, call: &Call) -> u32 {
        if self.unlike(call) {
            return 3;
        }
        if self.too_many(call) {
            return 4;
        }
        if self.bad_time(call) {
            return 1;
        }
        if self.bad_number(call) {
            return 2;
        }
        if call.hears && self.levels.len() != self.count / HOP {
            return 7;
        }
        6 * u32::from(self.too_few(call))
    }

    /// What is wrong with the answer of a call that has to refuse, or with what it left.
    fn differs(&self, call: &Call, refusal: u32) -> Option<String> {
        let mut loan = self.loan.clone();
        let ours = (call.ours)(&mut loan, self);
        if ours != refusing(refusal) {
            return Some(format!("ours {ours:?}, and it is {refusal}"));
        }
        loan.stay(&self.loan)
    }

    /// The calls that have to refuse this.
    fn case(&self) -> Case {
        let calls = CALLS.iter().map(|call| (call, self.refusal(call)));
        let calls: Vec<(&Call, u32)> = calls.filter(|(_, refusal)| *refusal > 0).collect();
        let differs = |&(call, refusal): &(&Call, u32)| {
            let (name, n) = (call.name, self.loan.words.starts.lent());
            let text = self.differs(call, refusal)?;
            Some(format!("{name}, {n} starts: {text}"))
        };
        let mut reached = Reached::default();
        for (branch, (name, number)) in refusals().enumerate() {
            let is_it = |&(call, refusal): &(&Call, u32)| (call.name, refusal) == (name, number);
            reached.add(branch, calls.iter().any(is_it));
        }
        Case {
            reached,
            ..Case::new(calls.len(), calls.iter().find_map(differs))
        }
    }
}

/// A call that has these faults.
fn case(n: usize, faults: &[Fault], random: &mut Random) -> Case {
    let mut given = Given::new(n, random);
    for fault in faults {
        fault(&mut given, random);
    }
    given.case()
}

impl Compared for Refused {
    fn name(&self) -> &str {
        "words_refused"
    }

    fn weight(&self) -> u64 {
        100
    }

    fn branches(&self) -> Vec<String> {
        let name = |(name, number)| format!("{name} refused with {number}");
        refusals().map(name).collect()
    }

    /// Each fault alone, and each two, of 0 to 5 words.
    fn limits(&self) -> Vec<Case> {
        let mut random = Random::new(0, 6);
        let mut cases = Vec::new();
        for n in 0..=5 {
            for &one in FAULTS {
                cases.push(case(n, &[one], &mut random));
                for &other in FAULTS {
                    cases.push(case(n, &[one, other], &mut random));
                }
            }
        }
        cases
    }

    fn random(&self, random: &mut Random) -> Case {
        let faults: Vec<Fault> = (0..=random.below(3)).map(|_| random.of(FAULTS)).collect();
        let n = random.below(8) as usize;
        case(n, &faults, random)
    }
}
