//! Two calls of fitting by phrase that are given one phrase alike: the same numbers, the same words
//! and the same span for that phrase, and all else drawn anew. The places of its words have to hold
//! the same bits.

use crate::check::HeardWord;
use crate::ffi::Over;
use crate::files::{self, Filed};
use crate::inputs::Random;
use crate::pairs::{Refused, differ, fit_file};
use crate::report::{Case, Reached};
use crate::scaled::Scaled;
use crate::text::Cue;
use crate::words::{Lent, MAX_SPANS};

/// The branches, by their names.
pub const BRANCHES: &[&str] = &[
    "a phrase of one word",
    "a phrase of several words",
    "a phrase without a span",
    "a word of the phrase moved",
    "other words with other times",
    "another number of spans",
    "a louder or softer recording too",
    "other times where the span is another",
];

const ONE: usize = 0;
const SEVERAL: usize = 1;
const NO_SPAN: usize = 2;
const MOVED: usize = 3;
const OTHERS: usize = 4;
const NUMBER: usize = 5;
const SCALED: usize = 6;
const TOLD: usize = 7;

/// What two calls are given, of which the first has a list as it is drawn.
struct Two {
    list: Filed,
    phrase: u32,
    /// The words and the spans of the second.
    words: Vec<HeardWord>,
    spans: Vec<Cue>,
    /// The recording of the first as it is heard, and the second's, where they are two.
    scaled: Option<Scaled>,
}

/// A phrase of the list: one that has words, as a rule, or any.
fn phrase(list: &Filed, random: &mut Random) -> u32 {
    let any = random.below(list.spans.len() as u64 + 2) as u32;
    match list.phrases.is_empty() || random.below(32) == 0 {
        true => any,
        false => random.of(&list.phrases),
    }
}

/// As many spans, or another number, with a span for the phrase where it had one.
fn how_many(list: &Filed, phrase: usize, random: &mut Random) -> usize {
    let n = list.spans.len();
    let more = (n + random.below(4) as usize).min(MAX_SPANS);
    if phrase < n {
        random.of(&[n, n, phrase + 1, more])
    } else {
        random.of(&[n, n, 0, more.min(phrase)])
    }
}

impl Two {
    fn random(random: &mut Random) -> Two {
        let list = Filed::random(random);
        let phrase = phrase(&list, random);
        let own = phrase as usize;
        let n = how_many(&list, own, random);
        let mut spans = files::spans(&list.sound, n, random);
        if let Some(span) = list.spans.get(own) {
            spans[own] = *span;
        }
        let mut words = files::words(&list.sound, &list.phrases, &spans, random);
        for (at, word) in words.iter_mut().enumerate() {
            if list.phrases[at] == phrase {
                *word = list.words[at];
            }
        }
        let scaled = match &list.samples {
            Some(samples) if random.below(3) == 0 => Some(Scaled::random(samples, random)),
            _ => None,
        };
        Two {
            list,
            phrase,
            words,
            spans,
            scaled,
        }
    }

    /// The sound of each call.
    fn overs(&self) -> [Over<'_>; 2] {
        match &self.scaled {
            Some(scaled) => [scaled.one.over(), scaled.other.over()],
            None => [Over::from(&self.list.sound); 2],
        }
    }

    /// The places of the phrase's words, and those of the others.
    fn places(&self) -> (Vec<usize>, Vec<usize>) {
        let is_its = |at: &usize| self.list.phrases[*at] == self.phrase;
        (0..self.words.len()).partition(is_its)
    }

    /// The words of both calls.
    fn fitted(&self, random: &mut Random) -> Result<[Lent; 2], Refused> {
        let Filed {
            words,
            phrases,
            spans,
            ..
        } = &self.list;
        let [one, other] = self.overs();
        Ok([
            fit_file(words, phrases, spans, one, random)?,
            fit_file(&self.words, phrases, &self.spans, other, random)?,
        ])
    }

    /// Whether the phrase's words have other times where its span is another one.
    fn is_told(&self, fitted: &Lent, own: &[usize], random: &mut Random) -> Result<bool, Refused> {
        let mut spans = self.spans.clone();
        let Some(span) = spans.get_mut(self.phrase as usize) else {
            return Ok(false);
        };
        (span.start, span.end) = (0.0, 0.5);
        let phrases = &self.list.phrases;
        let told = fit_file(&self.words, phrases, &spans, self.overs()[1], random)?;
        Ok(differ(fitted, &told, own).is_some())
    }

    /// Notes what there is to the two calls.
    fn look(&self, [one, other]: &[Lent; 2], reached: &mut Reached) {
        let (own, others) = self.places();
        let has_span = self.list.spans.len() > self.phrase as usize;
        let given = Lent::new(&self.list.words);
        reached.add(ONE, has_span && own.len() == 1);
        reached.add(SEVERAL, has_span && own.len() > 1);
        reached.add(NO_SPAN, !has_span && !own.is_empty());
        reached.add(MOVED, differ(&given, one, &own).is_some());
        reached.add(OTHERS, differ(one, other, &others).is_some());
        reached.add(NUMBER, self.spans.len() != self.list.spans.len());
        reached.add(SCALED, self.scaled.as_ref().is_some_and(|s| s.power != 0));
    }
}

/// Tries two calls.
pub fn judge(random: &mut Random) -> Result<Case, Refused> {
    let two = Two::random(random);
    let fitted = two.fitted(random)?;
    let (own, _) = two.places();
    let mut reached = Reached::default();
    two.look(&fitted, &mut reached);
    reached.add(TOLD, two.is_told(&fitted[1], &own, random)?);
    let difference = differ(&fitted[0], &fitted[1], &own).map(|text| {
        let (n, spans, phrase) = (two.words.len(), two.spans.len(), two.phrase);
        format!("{n} words, {spans} spans, phrase {phrase}: {text}")
    });
    Ok(Case {
        reached,
        ..Case::new(1, difference)
    })
}
