//! What is compared of the last run: a sound, and the two times that it is searched between.

use crate::ffi::{self, Over, Run};
use crate::inputs::Random;
use crate::recordings::{HOP, MAX_SAMPLES};
use crate::report::{Case, Compared};
use crate::run_rule::{BRANCHES, Found, RIGHT};
use crate::sounds::Sound;
use crate::times::{LIMITS, anywhere_in, from_to, time};
use crate::transcript::fit::last_run;
use crate::words::{LAST, near};

pub struct LastRun;

/// A sound, and two times.
pub struct Searched {
    pub sound: Sound,
    pub from: f64,
    pub to: f64,
}

/// A time to search from or to: around an edge of the sound, or its ends, anywhere, or far off.
fn bound(sound: &Sound, random: &mut Random) -> f64 {
    let edges = sound.edges(random.below(2) == 0);
    let any = anywhere_in(sound, random);
    let edge = if edges.is_empty() {
        any
    } else {
        random.of(&edges) + from_to(-18, 18, random)
    };
    let end = sound.loud.len() as i64 + random.around(2);
    let t = time(random.of(&[edge, edge, edge, any, end, 0]), random);
    let far = near(random.of(&[LAST, -LAST]), random);
    match random.below(32) {
        0 => far,
        1 => random.of(&LIMITS),
        2 => sound.count as f64 / 16000.0,
        _ => t,
    }
}

/// Two times over a sound: often from its start, or up to its end.
pub fn two_times(sound: &Sound, random: &mut Random) -> (f64, f64) {
    let end = sound.count as f64 / 16000.0;
    let [from, to] = [(); 2].map(|()| bound(sound, random));
    match random.below(8) {
        0 => (from, to),
        1 => (0.0, end),
        2 => (0.0, to),
        3 => (from, end),
        _ => (from.min(to), from.max(to)),
    }
}

impl Searched {
    fn over(sound: Sound, random: &mut Random) -> Searched {
        let (from, to) = two_times(&sound, random);
        Searched { sound, from, to }
    }

    /// Most often a sound with pauses of around 15 frames.
    pub fn random(random: &mut Random) -> Searched {
        let most = random.of(&[6, 40, 120, 240]);
        let frames = random.below(most) as usize;
        let sound = match random.below(4) {
            0 => Sound::random(random),
            _ => Sound::pauses(frames, random),
        };
        Searched::over(sound, random)
    }

    /// The searches that are always compared: two bursts of 0 to 6 frames with 13 to 17 quiet ones
    /// between, each kind of sound over each floor, and as many levels as are taken.
    fn limits(random: &mut Random) -> Vec<Searched> {
        let mut list = Vec::new();
        for (first, second) in (0..7).flat_map(|first| (0..7).map(move |second| (first, second))) {
            for quiet in 13..=17 {
                let loud = [vec![true; first], vec![false; quiet], vec![true; second]];
                let sound = Sound::given(loud.concat(), random);
                let to = sound.loud.len() as f64 / 100.0;
                list.push(Searched {
                    sound,
                    from: 0.0,
                    to,
                });
            }
        }
        for frames in [0, 1, 4, 60] {
            for sound in Sound::limits(frames, random) {
                list.push(Searched::over(sound, random));
            }
        }
        for (from, to) in [(-LAST, LAST), (0.0, 3600.0), (LAST, -LAST)] {
            let sound = Sound::of_frames(MAX_SAMPLES / HOP, random);
            list.push(Searched { sound, from, to });
        }
        list
    }

    /// The Rust's run.
    pub fn found(&self) -> Found {
        last_run(&self.sound.levels, self.from, self.to)
    }

    fn case(&self) -> Case {
        let rust = self.found();
        let ours = ffi::last_run(Over::from(&self.sound), self.from, self.to);
        let (second, reached) = RIGHT.last_run(&self.sound.levels, self.from, self.to);
        let wrong = differs(second, rust).map(|text| format!("the second rule: {text}"));
        let difference = differs_from(&ours, rust).or(wrong);
        let describe = |text| {
            let (kind, frames, floor) = (
                self.sound.kind,
                self.sound.loud.len(),
                self.sound.levels.floor,
            );
            let (from, to) = (self.from, self.to);
            format!("{kind}, {frames} levels, floor {floor:?}, from {from:?} to {to:?}: {text}")
        };
        Case {
            reached,
            ..Case::new(1, difference.map(describe))
        }
    }
}

/// The bits of a run; of none, zeros.
fn bits(found: Found) -> (u32, u64, u64) {
    let (start, end) = found.unwrap_or_default();
    (u32::from(found.is_some()), start.to_bits(), end.to_bits())
}

/// What is wrong with another rule's run.
pub fn differs(other: Found, rust: Found) -> Option<String> {
    (bits(other) != bits(rust)).then(|| format!("{other:?}, the Rust's {rust:?}"))
}

/// What is wrong with the library's answer.
fn differs_from(ours: &Run, rust: Found) -> Option<String> {
    let (refusal, found) = (ours.refusal, ours.found);
    let (start, end) = (ours.start, ours.end);
    let wrong = (refusal, answer(ours)) != (0, bits(rust));
    wrong.then(|| {
        format!("ours refusal {refusal}, found {found}, {start:?} to {end:?}, the Rust's {rust:?}")
    })
}

/// The bits of an answer.
pub fn answer(run: &Run) -> (u32, u64, u64) {
    (run.found, run.start.to_bits(), run.end.to_bits())
}

impl Compared for LastRun {
    fn name(&self) -> &str {
        "last_run"
    }

    fn weight(&self) -> u64 {
        10
    }

    fn branches(&self) -> Vec<String> {
        BRANCHES.iter().copied().map(String::from).collect()
    }

    fn limits(&self) -> Vec<Case> {
        let limits = Searched::limits(&mut Random::new(0, 9));
        limits.iter().map(Searched::case).collect()
    }

    fn random(&self, random: &mut Random) -> Case {
        Searched::random(random).case()
    }
}
