//! What is compared of placing: words, and the spans of their phrases.

use crate::check::HeardWord;
use crate::ffi::{self, Placed};
use crate::inputs::Random;
use crate::phrases_rule::{BRANCHES, Kept, RIGHT};
use crate::places::Places;
use crate::report::{Case, Compared};
use crate::spans::Phrased;
use crate::transcript::phrase_align::align_phrases;
use crate::words::{Lent, Spans, named};

pub struct Phrases;

/// What the five lists and the phrase places have to hold.
pub struct Expected {
    pub count: usize,
    pub words: Vec<HeardWord>,
    pub phrases: Vec<u32>,
}

impl Expected {
    /// The words that are kept, and zeros in the places of the others.
    fn new(mut words: Vec<HeardWord>, mut phrases: Vec<u32>, n: usize) -> Expected {
        let count = words.len();
        words.resize(n, HeardWord::default());
        phrases.resize(n, 0);
        Expected {
            count,
            words,
            phrases,
        }
    }

    /// What is wrong with the lists that are lent. Phrase places past the words keep their marks.
    fn differs(&self, words: &Lent, phrases: &Places<u32>) -> Option<String> {
        let numbers = || phrases.hold(self.phrases.iter().copied());
        words
            .hold(&self.words)
            .or_else(|| named("phrases", numbers()))
    }
}

impl Phrased {
    /// What the Rust makes of the words.
    pub fn placed(&self) -> Expected {
        let rust = align_phrases(&self.words, &self.spans).unwrap();
        let phrases = rust.phrase.iter().map(|&phrase| phrase as u32).collect();
        Expected::new(rust.words, phrases, self.words.len())
    }

    /// What is wrong with the library's answer, and with what it leaves.
    fn differs(&self, rust: &Expected, random: &mut Random) -> Option<String> {
        let mut words = Lent::new(&self.words);
        let mut spans = Spans::new(&self.spans);
        let before = spans.clone();
        let further = random.of(&[0, 0, 1, 2, 9]);
        let mut phrases = Places::new(self.words.len() + further);
        let ours = ffi::align_phrases(&mut words, &mut spans, &mut phrases);
        let (refusal, count) = (0, rust.count);
        let answer = Placed { refusal, count };
        if ours != answer {
            return Some(format!("ours {ours:?}, the Rust's {answer:?}"));
        }
        let wrong = rust.differs(&words, &phrases);
        wrong.or_else(|| spans.stay(&before))
    }

    /// What is wrong with another rule's answer.
    pub fn differs_from(&self, rust: &Expected, kept: Kept) -> Option<String> {
        let n = self.words.len();
        let other = Expected::new(kept.words, kept.phrases, n);
        if other.count != rust.count {
            return Some(format!("{} words, and it is {}", other.count, rust.count));
        }
        let phrases = Places::holding(other.phrases.iter().copied());
        rust.differs(&Lent::new(&other.words), &phrases)
    }

    /// What a difference is of.
    pub fn describe(&self, text: String) -> String {
        let (kind, n, spans) = (self.kind, self.words.len(), self.spans.len());
        format!("{kind}, {n} words, {spans} spans: {text}")
    }

    fn case(&self, random: &mut Random) -> Case {
        let rust = self.placed();
        let kept = RIGHT.align_phrases(&self.words, &self.spans);
        let reached = kept.reached;
        let wrong = self.differs_from(&rust, kept);
        let wrong = wrong.map(|text| format!("the second rule: {text}"));
        let difference = self.differs(&rust, random).or(wrong);
        Case {
            reached,
            ..Case::new(1, difference.map(|text| self.describe(text)))
        }
    }
}

impl Compared for Phrases {
    fn name(&self) -> &str {
        "align_phrases"
    }

    fn weight(&self) -> u64 {
        10
    }

    fn branches(&self) -> Vec<String> {
        BRANCHES.iter().copied().map(String::from).collect()
    }

    fn limits(&self) -> Vec<Case> {
        let mut random = Random::new(0, 8);
        let limits = Phrased::limits(&mut random);
        limits.iter().map(|list| list.case(&mut random)).collect()
    }

    fn random(&self, random: &mut Random) -> Case {
        let list = Phrased::random(random);
        list.case(random)
    }
}
