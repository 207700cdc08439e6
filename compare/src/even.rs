//! What is compared of evening: crushed words, and a limit.

use crate::check::HeardWord;
use crate::crushed::Crushed;
use crate::even_rule::{BRANCHES, RIGHT};
use crate::ffi;
use crate::inputs::Random;
use crate::report::{Case, Compared, Reached};
use crate::transcript::even::even_out;
use crate::words::Lent;

pub struct Even;

impl Crushed {
    /// What the Rust makes of the words.
    pub fn evened(&self) -> Vec<HeardWord> {
        let mut words = self.words.clone();
        even_out(&mut words, self.limit).unwrap();
        words
    }

    /// What is wrong with the library's answer, in any bit of the words, or with the places past
    /// them.
    fn differs(&self, rust: &[HeardWord]) -> Option<String> {
        let mut ours = Lent::new(&self.words);
        match ffi::even_out(&mut ours, self.limit) {
            0 => ours.hold(rust),
            refusal => Some(format!("refused {refusal}")),
        }
    }

    /// What the list reaches. The rule that tells it has to agree with the Rust.
    fn reaches(&self, rust: &[HeardWord]) -> (Reached, Option<String>) {
        let mut words = self.words.clone();
        let reached = RIGHT.even_out(&mut words, self.limit);
        let wrong = Lent::new(&words).hold(rust);
        (
            reached,
            wrong.map(|text| format!("the second rule: {text}")),
        )
    }

    /// What a difference is of.
    pub fn describe(&self, text: String) -> String {
        let (kind, n, limit) = (self.kind, self.words.len(), self.limit);
        format!("{kind}, {n} words, limit {limit:?}: {text}")
    }

    fn case(&self) -> Case {
        let rust = self.evened();
        let (reached, wrong) = self.reaches(&rust);
        let difference = self.differs(&rust).or(wrong);
        Case {
            reached,
            ..Case::new(1, difference.map(|text| self.describe(text)))
        }
    }
}

impl Compared for Even {
    fn name(&self) -> &str {
        "even_out"
    }

    fn weight(&self) -> u64 {
        10
    }

    fn branches(&self) -> Vec<String> {
        BRANCHES.iter().copied().map(String::from).collect()
    }

    fn limits(&self) -> Vec<Case> {
        let limits = Crushed::limits(&mut Random::new(0, 7));
        limits.iter().map(Crushed::case).collect()
    }

    fn random(&self, random: &mut Random) -> Case {
        Crushed::random(random).case()
    }
}
