//! Words, as they are lent to the library: five lists, one for each of a word's numbers. Spans are
//! three.

use crate::check::{HeardWord, Text};
use crate::inputs::Random;
use crate::places::{Bits, Places};
use crate::text::Cue;

/// The most words that are taken.
pub const MAX_WORDS: usize = 4096;
/// The most spans that are taken.
pub const MAX_SPANS: usize = 4096;
/// The most words that a span may take.
pub const MAX_COUNT: u32 = 4096;
/// Times are taken up to this one, of either sign.
pub const LAST: f64 = 7200.0;
/// The most letters of a word.
pub const MAX_LETTERS: u32 = 1000;
/// The most units of a word.
pub const MAX_UNITS: u32 = 10_000;

/// Words that are lent.
#[derive(Clone)]
pub struct Lent {
    pub starts: Places,
    pub ends: Places,
    pub letters: Places<u32>,
    pub units: Places<u32>,
    pub keys: Places<u32>,
}

impl Lent {
    pub fn new(words: &[HeardWord]) -> Lent {
        Lent {
            starts: Places::holding(words.iter().map(|w| w.start.to_bits())),
            ends: Places::holding(words.iter().map(|w| w.end.to_bits())),
            letters: Places::holding(words.iter().map(|w| w.text.letters)),
            units: Places::holding(words.iter().map(|w| w.text.units)),
            keys: Places::holding(words.iter().map(|w| w.text.key)),
        }
    }

    /// What is wrong with the lists, which should hold these words and nothing more.
    pub fn hold(&self, words: &[HeardWord]) -> Option<String> {
        let start = |w: &HeardWord| w.start.to_bits();
        let end = |w: &HeardWord| w.end.to_bits();
        let times = named("starts", self.starts.hold(words.iter().map(start)))
            .or_else(|| named("ends", self.ends.hold(words.iter().map(end))));
        let numbers = || {
            let text = |of: fn(&Text) -> u32| words.iter().map(move |w| of(&w.text));
            named("letters", self.letters.hold(text(|t| t.letters)))
                .or_else(|| named("units", self.units.hold(text(|t| t.units))))
                .or_else(|| named("keys", self.keys.hold(text(|t| t.key))))
        };
        times.or_else(numbers)
    }

    /// What is wrong with the lists, which should be as they were.
    pub fn stay(&self, before: &Lent) -> Option<String> {
        named("starts", same(&self.starts, &before.starts))
            .or_else(|| named("ends", same(&self.ends, &before.ends)))
            .or_else(|| named("letters", same(&self.letters, &before.letters)))
            .or_else(|| named("units", same(&self.units, &before.units)))
            .or_else(|| named("keys", same(&self.keys, &before.keys)))
    }
}

/// Spans that are lent, with the number of words that each takes.
#[derive(Clone)]
pub struct Spans {
    pub starts: Places,
    pub ends: Places,
    pub counts: Places<u32>,
}

impl Spans {
    pub fn new(spans: &[Cue]) -> Spans {
        Spans {
            starts: Places::holding(spans.iter().map(|s| s.start.to_bits())),
            ends: Places::holding(spans.iter().map(|s| s.end.to_bits())),
            counts: Places::holding(spans.iter().map(|s| s.text.count)),
        }
    }

    /// What is wrong with the lists, which should be as they were.
    pub fn stay(&self, before: &Spans) -> Option<String> {
        named("span starts", same(&self.starts, &before.starts))
            .or_else(|| named("span ends", same(&self.ends, &before.ends)))
            .or_else(|| named("span counts", same(&self.counts, &before.counts)))
    }
}

/// Work space that is lent: three lists.
#[derive(Clone)]
pub struct Work {
    pub starts: Places,
    pub ends: Places,
    pub letters: Places<u32>,
}

impl Work {
    /// Lists of these lengths, with a mark in every place.
    pub fn new([starts, ends, letters]: [usize; 3]) -> Work {
        Work {
            starts: Places::new(starts),
            ends: Places::new(ends),
            letters: Places::new(letters),
        }
    }

    /// What is wrong past the lists. What they hold themselves is free.
    pub fn stay_past(&self) -> Option<String> {
        let Work {
            starts,
            ends,
            letters,
        } = self;
        named("work starts", starts.stay(starts.lent()))
            .or_else(|| named("work ends", ends.stay(ends.lent())))
            .or_else(|| named("work letters", letters.stay(letters.lent())))
    }

    /// What is wrong with the lists, which should be as they were.
    pub fn stay(&self, before: &Work) -> Option<String> {
        named("work starts", same(&self.starts, &before.starts))
            .or_else(|| named("work ends", same(&self.ends, &before.ends)))
            .or_else(|| named("work letters", same(&self.letters, &before.letters)))
    }
}

/// What is wrong with a list, which should be as it was.
pub fn same<T: Bits>(list: &Places<T>, was: &Places<T>) -> Option<String> {
    list.hold(was.bits().iter().copied())
}

pub fn named(list: &str, wrong: Option<String>) -> Option<String> {
    wrong.map(|text| format!("{list}, {text}"))
}

/// A word's numbers: as they occur, at their ends, or any.
pub fn text(random: &mut Random) -> Text {
    let number = |random: &mut Random, most: u32| {
        let [usual, any] = [12, most].map(|n| 1 + random.below(u64::from(n)) as u32);
        random.of(&[usual, usual, usual, usual, 1, most, any, most - 1])
    };
    let (letters, units) = (number(random, MAX_LETTERS), number(random, MAX_UNITS));
    let key = random.bits() as u32;
    Text {
        letters,
        units,
        key,
    }
}

/// Gives words of most lists few letters: one, up to 3, or up to 8, so that they fit in short sounds.
pub fn few_letters(words: &mut [HeardWord], random: &mut Random) {
    let most = random.of(&[1, 3, 8, 8, MAX_LETTERS]);
    for word in words {
        word.text.letters = 1 + (word.text.letters - 1) % most;
    }
}

/// `t`, or one of its neighbours, up to four steps away, as far as times are taken.
pub fn near(t: f64, random: &mut Random) -> f64 {
    let steps = random.around(4);
    let step = if steps < 0 {
        f64::next_down
    } else {
        f64::next_up
    };
    let t = (0..steps.abs()).fold(t, |t, _| step(t));
    t.clamp(-LAST, LAST)
}

/// A time as it is taken.
pub fn taken(t: f64) -> f64 {
    t.clamp(-LAST, LAST)
}

/// A time as it is taken, or, sometimes, one of its neighbours.
pub fn beside(t: f64, random: &mut Random) -> f64 {
    let other = near(t, random);
    taken(random.of(&[t, t, other]))
}

/// So many thousandths of a second, or fewer.
pub fn up_to(thousandths: u64, random: &mut Random) -> f64 {
    random.below(thousandths + 1) as f64 / 1000.0
}

/// Where the times of a list begin.
pub fn origin(random: &mut Random) -> f64 {
    let (early, late) = (up_to(5000, random), up_to(7_200_000, random));
    let far = random.of(&[LAST - 2.0, -LAST, -3.0]);
    random.of(&[0.0, -0.0, early, early, early, late, far])
}

/// Whether the times of words have -0 among them, the farthest time, and a subnormal one.
pub fn odd_times(words: &[HeardWord]) -> [bool; 3] {
    let any = |is: fn(f64) -> bool| words.iter().any(|w| is(w.start) || is(w.end));
    let negative_zero = any(|t| t == 0.0 && t.is_sign_negative());
    [
        negative_zero,
        any(|t| t.abs() == LAST),
        any(f64::is_subnormal),
    ]
}
