//! What is compared of fitting: words over a sound, and a duration.

use crate::check::HeardWord;
use crate::ffi::{self, Over};
use crate::fit_rule::{BRANCHES, RIGHT};
use crate::inputs::Random;
use crate::report::{Case, Compared};
use crate::spoken::Spoken;
use crate::transcript::fit::fit_to_sound;
use crate::words::Lent;

pub struct Fit;

impl Spoken {
    /// What the Rust makes of the words.
    pub fn fitted(&self) -> Vec<HeardWord> {
        let mut words = self.words.clone();
        fit_to_sound(&mut words, &self.sound.levels, self.duration).unwrap();
        words
    }

    /// What is wrong with the library's answer, in any bit of the words, or with the places past
    /// them.
    fn differs(&self, rust: &[HeardWord]) -> Option<String> {
        let mut ours = Lent::new(&self.words);
        match ffi::fit_to_sound(&mut ours, Over::from(&self.sound), self.duration) {
            0 => ours.hold(rust),
            refusal => Some(format!("refused {refusal}")),
        }
    }

    /// What a difference is of.
    fn describe(&self, text: String) -> String {
        let (kind, n, duration) = (self.kind, self.words.len(), self.duration);
        let (under, frames, floor) = (
            self.sound.kind,
            self.sound.loud.len(),
            self.sound.levels.floor,
        );
        format!(
            "{kind}, {n} words, {under}, {frames} levels, floor {floor:?}, duration \
             {duration:?}: {text}"
        )
    }
}

/// The words that the library and the second rule give, beside the Rust's.
fn case(spoken: &Spoken) -> Case {
    let rust = spoken.fitted();
    let mut second = spoken.words.clone();
    let reached = RIGHT.fit_to_sound(&mut second, &spoken.sound.levels, spoken.duration);
    let wrong = Lent::new(&second).hold(&rust);
    let wrong = wrong.map(|text| format!("the second rule: {text}"));
    let difference = spoken.differs(&rust).or(wrong);
    Case {
        reached,
        ..Case::new(1, difference.map(|text| spoken.describe(text)))
    }
}

impl Compared for Fit {
    fn name(&self) -> &str {
        "fit_to_sound"
    }

    fn weight(&self) -> u64 {
        10
    }

    fn branches(&self) -> Vec<String> {
        BRANCHES.iter().copied().map(String::from).collect()
    }

    fn limits(&self) -> Vec<Case> {
        let limits = Spoken::limits_to_fit(&mut Random::new(0, 10));
        limits.iter().map(case).collect()
    }

    fn random(&self, random: &mut Random) -> Case {
        case(&Spoken::to_fit(random))
    }
}
