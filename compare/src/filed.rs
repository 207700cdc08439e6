//! What is compared of fitting by phrase: words with their phrase numbers, the spans, and a
//! recording, or levels that are made up.

use crate::check::HeardWord;
use crate::ffi::{self, Grouped, Over};
use crate::file_rule::{BRANCHES, RIGHT, fit_phrases};
use crate::files::Filed;
use crate::inputs::Random;
use crate::places::Places;
use crate::report::{Case, Compared};
use crate::text::Cue;
use crate::transcript::fit::{PhraseGroups, fit_file};
use crate::words::{Lent, Spans, Work, named, same};

pub struct ByPhrase;

/// What is lent beside the words. Each list of work space is as long as the words, or longer.
pub fn grouped(phrases: &[u32], spans: &[Cue], random: &mut Random) -> Grouped {
    let n = phrases.len();
    Grouped {
        phrases: Places::holding(phrases.iter().copied()),
        spans: Spans::new(spans),
        work: Work::new([(); 3].map(|()| n + random.of(&[0, 0, 0, 1, 9]))),
    }
}

impl Filed {
    /// The words, as the Rust fits them to the samples. Where there are none, the loop of the Rust
    /// over its own functions fits them to the levels.
    pub fn fitted(&self) -> Vec<HeardWord> {
        let mut words = self.words.clone();
        let Some(samples) = &self.samples else {
            fit_phrases(&mut words, self.to());
            return words;
        };
        let phrase: Vec<usize> = self.phrases.iter().map(|&number| number as usize).collect();
        let groups = PhraseGroups {
            spans: &self.spans,
            phrase: &phrase,
        };
        fit_file(&mut words, samples, Some(groups)).unwrap();
        words
    }

    /// What is wrong with the library's answer, and with what it leaves.
    fn differs(&self, rust: &[HeardWord], random: &mut Random) -> Option<String> {
        let mut words = Lent::new(&self.words);
        let mut lent = grouped(&self.phrases, &self.spans, random);
        let before = lent.clone();
        match ffi::fit_file(&mut words, &mut lent, Over::from(&self.sound)) {
            0 => words
                .hold(rust)
                .or_else(|| named("phrases", same(&lent.phrases, &before.phrases)))
                .or_else(|| lent.spans.stay(&before.spans))
                .or_else(|| lent.work.stay_past()),
            refusal => Some(format!("refused {refusal}")),
        }
    }

    /// What is wrong with the loop over the Rust's functions, where the Rust has judged.
    fn loop_differs(&self, rust: &[HeardWord]) -> Option<String> {
        self.samples.as_ref()?;
        let mut words = self.words.clone();
        fit_phrases(&mut words, self.to());
        let wrong = Lent::new(&words).hold(rust);
        wrong.map(|text| format!("the loop: {text}"))
    }

    /// What a difference is of.
    pub fn describe(&self, text: String) -> String {
        let (kind, n, spans) = (self.kind, self.words.len(), self.spans.len());
        let (under, frames, floor) = (
            self.sound.kind,
            self.sound.loud.len(),
            self.sound.levels.floor,
        );
        format!(
            "numbers {kind}, {n} words, {spans} spans, {under}, {frames} levels, floor {floor:?}: \
             {text}"
        )
    }

    fn case(&self, random: &mut Random) -> Case {
        let rust = self.fitted();
        let mut second = self.words.clone();
        let reached = RIGHT.fit_file(&mut second, self.to());
        let wrong = Lent::new(&second).hold(&rust);
        let wrong = wrong.map(|text| format!("the second rule: {text}"));
        let difference = self
            .differs(&rust, random)
            .or(wrong)
            .or_else(|| self.loop_differs(&rust));
        Case {
            reached,
            ..Case::new(1, difference.map(|text| self.describe(text)))
        }
    }
}

impl Compared for ByPhrase {
    fn name(&self) -> &str {
        "fit_file"
    }

    fn weight(&self) -> u64 {
        10
    }

    fn branches(&self) -> Vec<String> {
        BRANCHES.iter().copied().map(String::from).collect()
    }

    fn limits(&self) -> Vec<Case> {
        let mut random = Random::new(0, 11);
        let limits = Filed::limits(&mut random);
        limits.iter().map(|list| list.case(&mut random)).collect()
    }

    fn random(&self, random: &mut Random) -> Case {
        let list = Filed::random(random);
        list.case(random)
    }
}
