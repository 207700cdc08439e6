//! Pairs of calls of the library that have to agree: what a phrase becomes does not depend on other
//! phrases, and nothing depends on how loud a recording is. The Rust is not called.

use crate::check::HeardWord;
use crate::ffi::{self, Over};
use crate::filed::grouped;
use crate::inputs::Random;
use crate::report::{Case, Compared};
use crate::text::Cue;
use crate::words::Lent;
use crate::{demand3, locality, scaling};

/// What two calls are tried on.
pub struct Pair {
    name: &'static str,
    weight: u64,
    branches: &'static [&'static str],
    judge: fn(&mut Random) -> Result<Case, Refused>,
}

pub const PAIRS: &[Pair] = &[
    Pair {
        name: "locality",
        weight: 100,
        branches: locality::BRANCHES,
        judge: locality::judge,
    },
    Pair {
        name: "scaling",
        weight: 100,
        branches: scaling::BRANCHES,
        judge: scaling::judge,
    },
    Pair {
        name: "demand3",
        weight: 50,
        branches: demand3::BRANCHES,
        judge: demand3::judge,
    },
];

/// The number of a refusal that should not have been answered.
pub struct Refused(pub u32);

/// The words as the library fits them by phrase, with work space of any length that is enough.
pub fn fit_file(
    words: &[HeardWord],
    phrases: &[u32],
    spans: &[Cue],
    over: Over,
    random: &mut Random,
) -> Result<Lent, Refused> {
    let mut lent = Lent::new(words);
    let mut grouped = grouped(phrases, spans, random);
    match ffi::fit_file(&mut lent, &mut grouped, over) {
        0 => Ok(lent),
        refusal => Err(Refused(refusal)),
    }
}

/// The words as the library fits them.
pub fn fit_to_sound(words: &[HeardWord], over: Over, duration: f64) -> Result<Lent, Refused> {
    let mut lent = Lent::new(words);
    match ffi::fit_to_sound(&mut lent, over, duration) {
        0 => Ok(lent),
        refusal => Err(Refused(refusal)),
    }
}

/// The bits of a word.
fn bits(words: &Lent, at: usize) -> [u64; 5] {
    let numbers = [&words.letters, &words.units, &words.keys];
    let [letters, units, keys] = numbers.map(|list| u64::from(list.bits()[at]));
    let (start, end) = (words.starts.bits()[at], words.ends.bits()[at]);
    [start, end, letters, units, keys]
}

/// The first of these places at which the words differ.
pub fn differ(one: &Lent, other: &Lent, places: &[usize]) -> Option<String> {
    let mut places = places.iter();
    let at = *places.find(|&&at| bits(one, at) != bits(other, at))?;
    let (one, other) = (bits(one, at), bits(other, at));
    Some(format!("word {at}: {one:016X?} and {other:016X?}"))
}

impl Compared for Pair {
    fn name(&self) -> &str {
        self.name
    }

    fn weight(&self) -> u64 {
        self.weight
    }

    fn branches(&self) -> Vec<String> {
        self.branches.iter().copied().map(String::from).collect()
    }

    fn limits(&self) -> Vec<Case> {
        Vec::new()
    }

    fn random(&self, random: &mut Random) -> Case {
        let case = (self.judge)(random);
        case.unwrap_or_else(|Refused(refusal)| Case::new(1, Some(format!("refused {refusal}"))))
    }
}
