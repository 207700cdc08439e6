//! Lists of words over a sound.

use crate::check::HeardWord;
use crate::fit_times;
use crate::inputs::Random;
use crate::recordings::{HOP, MAX_SAMPLES};
use crate::sounds::Sound;
use crate::times::{FAR, KINDS, Kind, LIMITS, SPEECH, anywhere_in, time};
use crate::words::{LAST, MAX_WORDS, few_letters, text};

/// Words, the sound that they lie over, and a duration.
pub struct Spoken {
    pub kind: &'static str,
    pub words: Vec<HeardWord>,
    pub sound: Sound,
    pub duration: f64,
}

/// Words: none, one, two, some, or, seldom, more.
fn how_many(random: &mut Random) -> usize {
    let some = 3 + random.below(10) as usize;
    let many = 13 + random.below(300) as usize;
    match random.below(256) {
        0 => many,
        1..16 => random.below(3) as usize,
        16..48 => 2,
        _ => some,
    }
}

/// The duration of a sound, or another, as words may be given.
fn duration(sound: &Sound, random: &mut Random) -> f64 {
    let own = sound.count as f64 / 16000.0;
    let (any, limit) = (time(anywhere_in(sound, random), random), random.of(&LIMITS));
    random.of(&[own, own, own, any, any, limit, LAST, -LAST])
}

impl Spoken {
    /// Words of a kind over a sound, with any numbers.
    fn new((kind, draw): Kind, n: usize, sound: Sound, random: &mut Random) -> Spoken {
        let times = draw(&sound, n, random);
        let word = |(start, end)| HeardWord {
            text: text(random),
            start,
            end,
        };
        let words = times.into_iter().map(word).collect();
        let duration = duration(&sound, random);
        Spoken {
            kind,
            words,
            sound,
            duration,
        }
    }

    /// Words of any kind over any sound, or, half of them, of the kind that a stage is about over
    /// bursts.
    pub fn random(own: Kind, random: &mut Random) -> Spoken {
        let n = how_many(random);
        if random.below(2) == 0 {
            let sound = Sound::bursts(random);
            return Spoken::new(own, n, sound, random);
        }
        let sound = Sound::random(random);
        if random.below(256) == 0 {
            return Spoken::new(FAR, n.min(4), sound, random);
        }
        Spoken::new(random.of(KINDS), n, sound, random)
    }

    /// The words that are always compared: each kind with 0, 1 and 2 words over each sound, and
    /// with 4,096 words; and 4,096 words over as many samples as are taken.
    pub fn limits(random: &mut Random) -> Vec<Spoken> {
        let mut list = Vec::new();
        for &kind in KINDS.iter().chain(&[FAR]) {
            for n in [0, 1, 2] {
                let frames = random.of(&[0, 1, 8, 60]);
                for sound in Sound::limits(frames, random) {
                    list.push(Spoken::new(kind, n, sound, random));
                }
            }
        }
        for &kind in KINDS {
            let sound = Sound::of_frames(100_000, random);
            list.push(Spoken::new(kind, MAX_WORDS, sound, random));
        }
        let sound = Sound::of_frames(MAX_SAMPLES / HOP, random);
        list.push(Spoken::new(SPEECH, MAX_WORDS, sound, random));
        list
    }

    /// Words to be fitted: half of them of the kinds that fitting is about, over pauses.
    pub fn to_fit(random: &mut Random) -> Spoken {
        if random.below(2) == 0 {
            return Spoken::random(SPEECH, random);
        }
        let most = random.of(&[20, 100, 320, 320, 320]);
        let frames = random.below(most) as usize;
        let sound = Sound::pauses(frames, random);
        let some = how_many(random);
        let bursts = some.min(sound.edges(true).len());
        let n = match random.below(1 << 10) {
            0 => random.of(&[1000, MAX_WORDS]),
            _ => random.of(&[bursts, bursts, bursts, some]),
        };
        let own = random.of(fit_times::KINDS);
        let any = random.of(KINDS);
        let kind = random.of(&[own, own, own, any]);
        let mut spoken = Spoken::new(kind, n, sound, random);
        few_letters(&mut spoken.words, random);
        spoken
    }

    /// The words to be fitted that are always compared: those above, each kind of fitting's own with
    /// 0 to 5 words over short pauses, and with 4,096 over long ones.
    pub fn limits_to_fit(random: &mut Random) -> Vec<Spoken> {
        let mut list = Spoken::limits(random);
        for &kind in fit_times::KINDS {
            for n in (0..6).flat_map(|n| [n; 20]) {
                let sound = Sound::pauses(10 * n + 30, random);
                list.push(Spoken::new(kind, n, sound, random));
            }
            let sound = Sound::pauses(100_000, random);
            list.push(Spoken::new(kind, MAX_WORDS, sound, random));
        }
        list
    }
}
