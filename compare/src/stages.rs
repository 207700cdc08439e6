//! What is compared of words over a sound: the stages that move their times. One entry each.

use crate::check::HeardWord;
use crate::ffi::{self, Over};
use crate::inputs::Random;
use crate::report::{Case, Compared};
use crate::spoken::Spoken;
use crate::times::{Kind, LATE, LOOSE, TAILS};
use crate::transcript::envelope::Envelope;
use crate::transcript::onsets::{hand_back_tails, snap_ends, snap_onsets};
use crate::words::Lent;

/// A stage, ours and the Rust's, over words, a sound and a duration.
pub struct Stage {
    pub name: &'static str,
    /// The kind of words that it is about.
    own: Kind,
    pub ours: fn(&mut Lent, Over, f64) -> u32,
    pub rust: fn(&mut [HeardWord], &Envelope, f64),
}

pub const STAGES: &[Stage] = &[
    Stage {
        name: "hand_back_tails",
        own: TAILS,
        ours: |words, over, _| ffi::hand_back_tails(words, over),
        rust: |words, levels, _| hand_back_tails(words, levels).unwrap(),
    },
    Stage {
        name: "snap_onsets",
        own: LATE,
        ours: |words, over, _| ffi::snap_onsets(words, over),
        rust: |words, levels, _| snap_onsets(words, levels),
    },
    Stage {
        name: "snap_ends",
        own: LOOSE,
        ours: ffi::snap_ends,
        rust: snap_ends,
    },
];

impl Stage {
    /// Every bit of every word, and the places past them.
    fn differs(&self, spoken: &Spoken) -> Option<String> {
        let mut rust = spoken.words.clone();
        (self.rust)(&mut rust, &spoken.sound.levels, spoken.duration);
        let mut ours = Lent::new(&spoken.words);
        let refusal = (self.ours)(&mut ours, Over::from(&spoken.sound), spoken.duration);
        match refusal {
            0 => ours.hold(&rust),
            refusal => Some(format!("refused {refusal}")),
        }
    }

    fn case(&self, spoken: &Spoken) -> Case {
        let difference = self.differs(spoken).map(|text| {
            let (kind, n, sound) = (spoken.kind, spoken.words.len(), &spoken.sound);
            let (under, frames, floor) = (sound.kind, sound.loud.len(), sound.levels.floor);
            format!("{kind}, {n} words, {under}, {frames} levels, floor {floor:?}: {text}")
        });
        Case::new(1, difference)
    }
}

impl Compared for Stage {
    fn name(&self) -> &str {
        self.name
    }

    fn weight(&self) -> u64 {
        10
    }

    fn limits(&self) -> Vec<Case> {
        let limits = Spoken::limits(&mut Random::new(0, 4));
        limits.iter().map(|spoken| self.case(spoken)).collect()
    }

    fn random(&self, random: &mut Random) -> Case {
        self.case(&Spoken::random(self.own, random))
    }
}
