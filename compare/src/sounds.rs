//! Sounds under words: short rows of levels with a floor, made up of loud and quiet frames.

use crate::inputs::Random;
use crate::recordings::{HOP, MAX_SAMPLES};
use crate::transcript::envelope::Envelope;

/// Levels and a floor, which frames are meant to be loud, and a number of samples that has so many
/// frames.
pub struct Sound {
    pub kind: &'static str,
    pub loud: Vec<bool>,
    pub levels: Envelope,
    pub count: usize,
}

/// The floors that a sound is given, the ordinary ones first.
const FLOORS: [f64; 12] = [
    0.5,
    0.01,
    0.0034,
    1e-11,
    0.0,
    -0.0,
    -1.0,
    f64::MIN_POSITIVE,
    f64::MAX,
    f64::INFINITY,
    f64::NEG_INFINITY,
    f64::NAN,
];

/// So many floors are ordinary.
const ORDINARY: usize = 4;

/// Levels over a floor, and levels that are not: NaN is among these.
struct Palette {
    loud: Vec<f64>,
    quiet: Vec<f64>,
}

impl Palette {
    fn new(floor: f64, random: &mut Random) -> Palette {
        let any = f64::from_bits(random.bits());
        let (up, down) = (floor.next_up(), floor.next_down());
        let around = [floor, up, down, floor / 2.0, floor * 2.0, floor + 1.0];
        let others = [0.0, -0.0, any, f64::NAN, f64::INFINITY, f64::NEG_INFINITY];
        let all = around.into_iter().chain(others);
        let (loud, quiet): (Vec<f64>, Vec<f64>) = all.partition(|&level| level > floor);
        // over some floors there is nothing: no frame is loud
        let loud = if loud.is_empty() { quiet.clone() } else { loud };
        Palette { loud, quiet }
    }

    fn level(&self, loud: bool, random: &mut Random) -> f64 {
        random.of(if loud { &self.loud } else { &self.quiet })
    }
}

impl Sound {
    fn new(kind: &'static str, loud: Vec<bool>, floor: f64, random: &mut Random) -> Sound {
        let palette = Palette::new(floor, random);
        let env: Vec<f64> = loud.iter().map(|&l| palette.level(l, random)).collect();
        let any = random.below(HOP as u64) as usize;
        let tail = random.of(&[0, 0, HOP - 1, any]);
        Sound {
            kind,
            count: (loud.len() * HOP + tail).min(MAX_SAMPLES),
            loud,
            levels: Envelope { env, floor },
        }
    }

    /// A sound of any kind, with so many frames.
    pub fn of_frames(frames: usize, random: &mut Random) -> Sound {
        let (kind, draw) = random.of(KINDS);
        let mut loud = vec![false; frames];
        draw(&mut loud, random);
        let floor = random.of(&FLOORS);
        Sound::new(kind, loud, floor, random)
    }

    /// A sound of any kind: of up to 320 frames, hardly any, or, seldom, more.
    pub fn random(random: &mut Random) -> Sound {
        let most = random.of(&[3, 20, 160, 160, 320, 320, 320, 320]);
        let most = if random.below(64) == 0 { 1500 } else { most };
        let frames = random.below(most) as usize;
        Sound::of_frames(frames, random)
    }

    /// Bursts of 60 to 320 frames over an ordinary floor.
    pub fn bursts(random: &mut Random) -> Sound {
        let mut loud = vec![false; 60 + random.below(260) as usize];
        bursts(&mut loud, random);
        let floor = random.of(&FLOORS[..ORDINARY]);
        Sound::new("bursts", loud, floor, random)
    }

    /// Bursts with pauses of around 15 frames, over an ordinary floor.
    pub fn pauses(frames: usize, random: &mut Random) -> Sound {
        let loud = paused(frames, random);
        let floor = random.of(&FLOORS[..ORDINARY]);
        Sound::new("pauses", loud, floor, random)
    }

    /// A sound whose loud frames are known, over an ordinary floor.
    pub fn given(loud: Vec<bool>, random: &mut Random) -> Sound {
        let floor = random.of(&FLOORS[..ORDINARY]);
        Sound::new("given", loud, floor, random)
    }

    /// Each kind of sound over each floor.
    pub fn limits(frames: usize, random: &mut Random) -> Vec<Sound> {
        let mut sounds = Vec::new();
        for &(kind, draw) in KINDS {
            for floor in FLOORS {
                let mut loud = vec![false; frames];
                draw(&mut loud, random);
                sounds.push(Sound::new(kind, loud, floor, random));
            }
        }
        sounds
    }

    /// The frames at which the sound rises, or, from loud to quiet, falls.
    pub fn edges(&self, rises: bool) -> Vec<i64> {
        let quiet = [false];
        let before = quiet.iter().chain(&self.loud);
        let frames = before.zip(&self.loud).enumerate();
        let edges = frames.filter(|(_, (was, is))| was != is && **is == rises);
        edges.map(|(frame, _)| frame as i64).collect()
    }
}

/// A way to draw which frames are loud.
type Draw = fn(&mut [bool], &mut Random);

const KINDS: &[(&str, Draw)] = &[
    ("all loud", |loud, _| loud.fill(true)),
    ("none loud", |_, _| ()),
    ("by chance", by_chance),
    ("bursts", bursts),
    ("bursts", bursts),
];

/// Bursts of up to 3, 12 or 40 frames with quiet runs between: of lengths around 8, where a search
/// ends, of a few frames, and of up to 60.
pub fn bursts(loud: &mut [bool], random: &mut Random) {
    let longest = random.of(&[3, 12, 12, 40]);
    let mut at = random.below(10) as usize;
    while at < loud.len() {
        let end = at + 1 + random.below(longest) as usize;
        let end = end.min(loud.len());
        loud[at..end].fill(true);
        let [few, some] = [5, 60].map(|n| 1 + random.below(n) as usize);
        at = end + random.of(&[6, 7, 7, 8, 8, 8, 9, 9, few, some]);
    }
}

/// So many frames: bursts of up to 5, 12 or 40, most of 1 to 5, with quiet runs between, of lengths
/// around 15, where a word's sound ends, of a few frames, of up to 60, and of more than 1.5 s.
pub fn paused(frames: usize, random: &mut Random) -> Vec<bool> {
    let mut loud = vec![false; frames];
    let longest = random.of(&[5, 5, 12, 12, 40]);
    let mut at = random.of(&[0, 0, 0, 3, 15, 16, 40, 155]);
    while at < frames {
        let end = at + 1 + random.below(longest) as usize;
        let end = end.min(frames);
        loud[at..end].fill(true);
        let [few, some] = [8, 60].map(|n| 1 + random.below(n) as usize);
        let long = 145 + random.below(10) as usize;
        at = end + random.of(&[13, 14, 14, 15, 15, 15, 16, 16, 17, few, few, some]);
        at += if random.below(16) == 0 { long } else { 0 };
    }
    loud
}

/// Each frame is loud with the same chance.
fn by_chance(loud: &mut [bool], random: &mut Random) {
    let chance = random.of(&[1, 4, 8, 15]);
    loud.fill_with(|| random.bits() >> 60 < chance);
}
