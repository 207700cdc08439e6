//! Times of words that fitting is about, around the frames at which some rule of it changes.

use crate::inputs::Random;
use crate::sounds::Sound;
use crate::times::{Kind, LOOSE, Times, edges, from_to, time};
use crate::words::{near, taken, up_to};

/// The kinds that fitting is about.
pub const KINDS: &[Kind] = &[
    ("in silence", in_silence),
    ("in silence", in_silence),
    ("gaps", gaps),
    ("gaps", gaps),
    LOOSE,
    ("short sounds", short_sounds),
    ("soon", soon),
    ("steps", steps),
];

/// A length: none, around what is kept, or up to 0.8 s.
fn length(random: &mut Random) -> f64 {
    let (any, limit) = (up_to(800, random), near(0.5, random));
    random.of(&[any, any, limit, 0.0, 0.3])
}

/// Words that start before a sound rises: up to 0.4 s, or around the 1.5 s that are searched. Half of
/// them have a next word around 0.05 s after it rises.
fn in_silence(sound: &Sound, n: usize, random: &mut Random) -> Vec<Times> {
    let mut words = Vec::new();
    for rise in edges(sound, true, n, random) {
        let (some, far) = (from_to(0, 40, random), from_to(147, 153, random));
        let early = random.of(&[1, 2, 3, 14, 15, 16, some, some, some, far, far]);
        let start = time(rise - early, random);
        words.push((start, taken(start + length(random))));
        if random.below(2) == 0 {
            let next = time(rise + from_to(2, 8, random), random);
            words.push((next, taken(next + length(random))));
        }
    }
    words.truncate(n);
    words
}

/// Words that end around where a sound falls, and the next one around where the next sound rises.
fn gaps(sound: &Sound, n: usize, random: &mut Random) -> Vec<Times> {
    let (rises, falls) = (edges(sound, true, n, random), sound.edges(false));
    let word = |rise: i64| {
        let fall = falls.iter().find(|&&fall| fall > rise);
        let start = rise + random.of(&[0, 0, 0, 1, -1, -2]);
        let end = fall.unwrap_or(&rise) + random.of(&[0, 0, 0, 1, -1, 2, -3]);
        (time(start, random), time(end, random))
    };
    rises.into_iter().map(word).collect()
}

/// Words over the last 4 to 9 frames of a sound, which end late: cut back they may be crushed.
fn short_sounds(sound: &Sound, n: usize, random: &mut Random) -> Vec<Times> {
    let falls = edges(sound, false, n, random);
    let word = |fall: i64| {
        let start = fall - from_to(4, 9, random);
        let end = fall + from_to(4, 12, random);
        (time(start, random), time(end, random))
    };
    falls.into_iter().map(word).collect()
}

/// Words that start around 0.05 s after one another, from before a sound rises on.
fn soon(sound: &Sound, n: usize, random: &mut Random) -> Vec<Times> {
    let rises = edges(sound, true, n, random);
    let from = rises
        .first()
        .map_or(0, |rise| rise - from_to(0, 12, random));
    let mut at = time(from, random);
    let word = || {
        let start = at;
        let (limit, any) = (near(0.05, random), up_to(120, random));
        at = taken(start + random.of(&[limit, limit, 0.08, any]));
        (start, taken(start + random.of(&[0.0, 0.05, 0.08, any])))
    };
    std::iter::repeat_with(word).take(n).collect()
}

/// Words that start around 0.02 s after one another, or before one another.
fn steps(sound: &Sound, n: usize, random: &mut Random) -> Vec<Times> {
    let mut at = time(from_to(-10, sound.loud.len() as i64, random), random);
    let word = || {
        let start = at;
        let limit = near(0.02, random);
        at = taken(start + random.of(&[limit, limit, 0.0, 0.01, 0.3, -0.1]));
        (start, taken(start + length(random)))
    };
    std::iter::repeat_with(word).take(n).collect()
}
