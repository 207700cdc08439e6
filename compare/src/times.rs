//! Times of words over a sound, of many kinds, around the frames at which some rule changes.

use crate::inputs::Random;
use crate::sounds::Sound;
use crate::words::{LAST, near};

/// A word's start and end.
pub type Times = (f64, f64);
/// A way to draw the times of so many words over a sound.
type Draw = fn(&Sound, usize, &mut Random) -> Vec<Times>;
/// The name of a kind, and the way to draw it.
pub type Kind = (&'static str, Draw);

/// Every kind but the far times.
pub const KINDS: &[Kind] = &[
    ("mixed", mixed),
    SPEECH,
    SPEECH,
    TAILS,
    LATE,
    LOOSE,
    ("no length", no_length),
    ("overlapping", overlapping),
    ("reversed", reversed),
    ("alike", alike),
    ("sixteenths", sixteenths),
    ("anywhere", anywhere),
    ("limits", at_limits),
];

pub const SPEECH: Kind = ("speech", speech);
pub const TAILS: Kind = ("tails", tails);
pub const LATE: Kind = ("late starts", late);
pub const LOOSE: Kind = ("loose ends", loose);
pub const FAR: Kind = ("far", far);

/// Times at which some rule changes, and differences of times.
pub const LIMITS: [f64; 14] = [
    0.0,
    -0.0,
    f64::MIN_POSITIVE,
    -f64::MIN_POSITIVE,
    0.01,
    -0.01,
    0.05,
    0.06,
    0.12,
    0.15,
    -0.15,
    0.29,
    2.01,
    20.0,
];

/// A time in a frame: its start or a neighbour's, its middle, or anywhere in it.
pub fn time(frame: i64, random: &mut Random) -> f64 {
    let start = frame as f64 / 100.0;
    let t = match random.below(8) {
        0..=2 => return start,
        3 => frame as f64 * 0.01,
        4 => return near(start, random),
        5 => start + 0.005,
        6 => start + random.below(10) as f64 / 1000.0,
        _ => start + random.below(1 << 30) as f64 / (1u64 << 30) as f64 / 100.0,
    };
    t.clamp(-LAST, LAST)
}

/// From `least` to `most`, in frames.
pub fn from_to(least: i64, most: i64, random: &mut Random) -> i64 {
    least + random.below((most - least + 1) as u64) as i64
}

/// A difference of times: a limit or a neighbour, or up to 0.2 s.
fn gap(random: &mut Random) -> f64 {
    let limit = random.of(&[0.0, 0.0, 0.05, 0.06, 0.12, 0.15, 0.2]);
    match random.below(4) {
        0 => limit,
        1 => near(limit, random),
        2 => random.below(21) as f64 / 100.0,
        _ => random.below(201) as f64 / 1000.0,
    }
}

/// A word's length: none, a limit, or up to 0.5 s.
fn length(random: &mut Random) -> f64 {
    let (any, limit) = (random.below(501) as f64 / 1000.0, gap(random));
    random.of(&[any, any, any, limit, 0.0])
}

/// Words one after another. A time is a sum, and so off a frame's start, or the nearest one.
fn in_turn(n: usize, random: &mut Random, length: Length, gap: Length) -> Vec<Times> {
    let mut at = time(from_to(-30, 60, random), random);
    let word = || {
        let rounded = random.below(2) == 0;
        let round = |t: f64| {
            if rounded {
                (t * 100.0).round() / 100.0
            } else {
                t
            }
        };
        let start = round(at);
        let end = round(start + length(random));
        at = round(end + gap(random));
        (start, end)
    };
    std::iter::repeat_with(word).take(n).collect()
}

type Length = fn(&mut Random) -> f64;

/// Words one after another, with up to 0.2 s between.
fn speech(_: &Sound, n: usize, random: &mut Random) -> Vec<Times> {
    in_turn(n, random, length, gap)
}

/// Words of hardly any length, hardly any time apart.
fn no_length(_: &Sound, n: usize, random: &mut Random) -> Vec<Times> {
    let short: Length = |random| {
        let any = random.below(70) as f64 / 1000.0;
        let limit = near(0.06, random);
        random.of(&[0.0, 0.0, any, limit])
    };
    in_turn(n, random, short, short)
}

/// Words that begin before the one before them ends.
fn overlapping(_: &Sound, n: usize, random: &mut Random) -> Vec<Times> {
    in_turn(n, random, length, |random| -gap(random))
}

/// Words that end before they begin, one after another or each before the last one.
fn reversed(_: &Sound, n: usize, random: &mut Random) -> Vec<Times> {
    let gap: Length = random.of(&[length as Length, |random| -length(random)]);
    in_turn(n, random, |random| -length(random), gap)
}

/// Edges of the sound from any one on, and a few that are not, past them.
pub fn edges(sound: &Sound, rises: bool, n: usize, random: &mut Random) -> Vec<i64> {
    let edges = sound.edges(rises);
    let from = random.below(edges.len() as u64 + 1) as usize;
    let from = random.of(&[0, 0, from]);
    let past = sound.loud.len() as i64;
    let beyond = (0..).map(|word| past + 20 * word);
    edges[from..]
        .iter()
        .copied()
        .chain(beyond)
        .take(n)
        .collect()
}

/// Words that start in the last frames of a sound and end after the next one rises. The word before
/// ends around there, or later.
fn tails(sound: &Sound, n: usize, random: &mut Random) -> Vec<Times> {
    let mut words: Vec<Times> = Vec::new();
    for fall in edges(sound, false, n, random) {
        let start = fall - random.of(&[0, 1, 1, 1, 2, 2, 3, 5]);
        let end = fall + from_to(8, 30, random);
        let before = time(start + random.of(&[-9, -5, -4, -1, 0, 0, 1, 5]), random);
        if let Some((_, end)) = words.last_mut() {
            *end = random.of(&[before, before.max(*end)]);
        }
        words.push((time(start, random), time(end, random)));
    }
    words
}

/// Words that start late in a sound, with a pause before: up to 70 frames late.
fn late(sound: &Sound, n: usize, random: &mut Random) -> Vec<Times> {
    let mut words: Vec<Times> = Vec::new();
    for rise in edges(sound, true, n, random) {
        let most = random.of(&[4, 12, 70]);
        let start = rise + from_to(0, most, random);
        if let Some((_, end)) = words.last_mut() {
            let back = from_to(10, 40, random);
            *end = time(start - random.of(&[15, 15, back, back, 61]), random);
        }
        words.push((time(start, random), time(start + 20, random)));
    }
    words
}

/// Words that start where a sound rises and end around where it falls, or later.
fn loose(sound: &Sound, n: usize, random: &mut Random) -> Vec<Times> {
    let (rises, falls) = (edges(sound, true, n, random), sound.edges(false));
    let word = |rise: i64| {
        let fall = falls.iter().find(|&&fall| fall > rise);
        let start = rise + random.around(3);
        let past = from_to(-3, 30, random);
        let end = fall.unwrap_or(&rise) + random.of(&[5, 5, 6, past, past]);
        let end = random.of(&[start, end, end, end]);
        (time(start, random), time(end, random))
    };
    rises.into_iter().map(word).collect()
}

/// All times alike, or of two.
fn alike(sound: &Sound, n: usize, random: &mut Random) -> Vec<Times> {
    let two = [(); 2].map(|()| time(anywhere_in(sound, random), random));
    let list = random.of(&[[two[0]; 2], two]);
    let word = || (random.of(&list), random.of(&list));
    std::iter::repeat_with(word).take(n).collect()
}

/// A frame of the sound, or one before or past it.
pub fn anywhere_in(sound: &Sound, random: &mut Random) -> i64 {
    from_to(-40, sound.loud.len() as i64 + 60, random)
}

/// Times anywhere over the sound, before it and past it, in no order.
fn anywhere(sound: &Sound, n: usize, random: &mut Random) -> Vec<Times> {
    let mut any = || time(anywhere_in(sound, random), random);
    std::iter::repeat_with(|| (any(), any())).take(n).collect()
}

/// Times that are limits, or their neighbours, in no order.
fn at_limits(sound: &Sound, n: usize, random: &mut Random) -> Vec<Times> {
    let last = sound.count as f64 / 16000.0;
    let mut any = || {
        let limit = random.of(&LIMITS);
        let t = random.of(&[limit, limit, limit, last]);
        let beside = near(t, random);
        random.of(&[t, beside])
    };
    std::iter::repeat_with(|| (any(), any())).take(n).collect()
}

/// Each word from a list of another kind.
fn mixed(sound: &Sound, n: usize, random: &mut Random) -> Vec<Times> {
    let lists = [(); 3].map(|()| {
        let (_, draw) = random.of(&KINDS[1..]);
        draw(sound, n, random)
    });
    let word = |at| random.of(&[0, 1, 2].map(|list: usize| lists[list][at]));
    (0..n).map(word).collect()
}

/// Times that are sixteenths: an edge that two words share may be a tie.
fn sixteenths(_: &Sound, n: usize, random: &mut Random) -> Vec<Times> {
    let mut at = random.around(4) as f64;
    let word = || {
        let (start, end) = (at, at + random.of(&[0.0, 0.0, 1.0, 2.0, 3.0]));
        at = random.of(&[start, end]);
        (start / 16.0, end / 16.0)
    };
    std::iter::repeat_with(word).take(n).collect()
}

/// Times as far off as are taken, of either sign: a search runs over all the frames between.
fn far(sound: &Sound, n: usize, random: &mut Random) -> Vec<Times> {
    let mut any = || {
        let t = near(random.of(&[LAST, -LAST]), random);
        let other = time(anywhere_in(sound, random), random);
        random.of(&[t, t, 3600.0, other])
    };
    std::iter::repeat_with(|| (any(), any())).take(n).collect()
}
