//! Rows of levels with a floor, made up: which frames are quiet, and which numbers say so.

use crate::inputs::Random;
use crate::recordings::{HOP, MAX_FRAMES, MAX_SAMPLES};
use crate::transcript::envelope::Envelope;

/// The frames before the part of a piece in which a cut is searched.
const UNSEARCHED: usize = 1200;
/// The most frames of a row that is drawn.
const LONGEST: usize = 6100;

/// Levels and a floor, with a number of samples that has so many frames.
pub struct Row {
    pub kind: &'static str,
    pub levels: Envelope,
    pub count: usize,
}

/// The floors that a row is given.
const FLOORS: [f64; 10] = [
    0.5,
    0.01,
    1e-11,
    0.0,
    -0.0,
    -1.0,
    f64::MAX,
    f64::INFINITY,
    f64::NEG_INFINITY,
    f64::NAN,
];

/// Levels that are at or under a floor, and levels that are not: NaN is among these.
struct Palette {
    quiet: Vec<f64>,
    loud: Vec<f64>,
}

impl Palette {
    fn new(floor: f64, random: &mut Random) -> Palette {
        let mut all = vec![floor, floor.next_up(), floor.next_down(), floor / 2.0];
        all.extend([floor * 2.0, floor + 1.0, floor - 1.0, f64::from_bits(1)]);
        all.extend([0.0, -0.0, f64::INFINITY, f64::NEG_INFINITY, f64::NAN]);
        all.extend((0..3).map(|_| f64::from_bits(random.bits())));
        let (quiet, loud): (Vec<f64>, Vec<f64>) = all.iter().partition(|&&level| level <= floor);
        // with a NaN floor no frame is quiet: any level will do
        let quiet = if quiet.is_empty() { all } else { quiet };
        Palette { quiet, loud }
    }

    fn level(&self, quiet: bool, random: &mut Random) -> f64 {
        random.of(if quiet { &self.quiet } else { &self.loud })
    }
}

impl Row {
    /// A row whose quiet frames are known.
    fn new(kind: &'static str, quiet: &[bool], floor: f64, random: &mut Random) -> Row {
        let palette = Palette::new(floor, random);
        let env = quiet.iter().map(|&q| palette.level(q, random)).collect();
        let any = random.below(HOP as u64) as usize;
        let tail = random.of(&[0, HOP - 1, any]);
        Row {
            kind,
            levels: Envelope { env, floor },
            count: (quiet.len() * HOP + tail).min(MAX_SAMPLES),
        }
    }

    /// A row of any kind and length.
    pub fn random(random: &mut Random) -> Row {
        let mut quiet = vec![false; frames(random)];
        let (kind, draw) = random.of(KINDS);
        draw(&mut quiet, random);
        let floor = random.of(&FLOORS);
        Row::new(kind, &quiet, floor, random)
    }

    /// The rows that are always compared.
    pub fn limits(random: &mut Random) -> Vec<Row> {
        let mut rows = Vec::new();
        for frames in FRAMES {
            for floor in FLOORS {
                for quiet in [true, false] {
                    rows.push(Row::new("alike", &vec![quiet; frames], floor, random));
                }
            }
        }
        for (first, length) in runs() {
            let mut quiet = vec![false; MAX_FRAMES + 1];
            lay(&mut quiet, first, length);
            rows.push(Row::new("one run", &quiet, 0.5, random));
        }
        // each cut as early as can be: all places that are needed, or all but one
        let mut quiet = vec![false; MAX_SAMPLES / HOP];
        for first in (UNSEARCHED..quiet.len()).step_by(1203) {
            lay(&mut quiet, first, 8);
        }
        rows.push(Row::new("earliest cuts", &quiet, 0.5, random));
        rows
    }
}

/// Lays a quiet run, as far as the row goes.
fn lay(quiet: &mut [bool], first: usize, length: usize) {
    let end = (first + length).min(quiet.len());
    quiet[first.min(end)..end].fill(true);
}

/// A way to draw which frames are quiet.
type Draw = fn(&mut [bool], &mut Random);

const KINDS: &[(&str, Draw)] = &[
    ("all quiet", |quiet, _| quiet.fill(true)),
    ("none quiet", |_, _| ()),
    ("runs", some_runs),
    ("runs", some_runs),
    ("by chance", by_chance),
    ("a run in each search", a_run_each),
    ("a run in each search", a_run_each),
];

/// Lengths of runs: around 8, where a run begins to hold a cut.
fn run_length(random: &mut Random) -> usize {
    let any = 1 + random.below(40) as usize;
    random.of(&[6, 7, 7, 8, 8, 8, 9, 9, 10, any])
}

/// Quiet runs, one after another, with up to 3, or 300, loud frames between.
fn some_runs(quiet: &mut [bool], random: &mut Random) {
    let loud = random.of(&[3, 300]);
    let mut at = random.below(loud) as usize;
    while at < quiet.len() {
        let length = run_length(random);
        lay(quiet, at, length);
        at += length + 1 + random.below(loud) as usize;
    }
}

/// Each frame is quiet with the same chance.
fn by_chance(quiet: &mut [bool], random: &mut Random) {
    let chance = random.of(&[1, 8, 13, 15]);
    quiet.fill_with(|| random.bits() >> 60 < chance);
}

/// One or two runs in the part of each piece that is searched, at its ends or anywhere.
fn a_run_each(quiet: &mut [bool], random: &mut Random) {
    let mut from = 0;
    while from < quiet.len() {
        let places = [random.below(800), random.below(4), 796 - random.below(12)];
        let first = from + UNSEARCHED - 8 + random.of(&places) as usize;
        let length = run_length(random);
        lay(quiet, first, length);
        if random.below(2) == 0 {
            lay(
                quiet,
                from + UNSEARCHED + random.below(800) as usize,
                length,
            );
        }
        from = if length < 8 {
            from + MAX_FRAMES
        } else {
            first + length.div_ceil(2) - 1
        };
    }
}

/// Frames: few, any number, or around a number at which the pieces change.
fn frames(random: &mut Random) -> usize {
    match random.below(4) {
        0 => random.below(LONGEST as u64) as usize,
        1 => random.below(MAX_FRAMES as u64 * 2) as usize,
        _ => (random.of(&FRAMES) as i64 + random.around(2)).max(0) as usize,
    }
}

/// Numbers of frames at which the pieces, or the places that they need, change.
const FRAMES: [usize; 18] = [
    0, 1, 2, 1203, 1204, 1999, 2000, 2001, 2406, 2407, 3202, 3203, 3204, 3999, 4000, 4001, 6000,
    6001,
];

/// Runs at both ends of the frames that are searched, of lengths around 8; and the longest.
fn runs() -> impl Iterator<Item = (usize, usize)> {
    let (first, last) = (UNSEARCHED, MAX_FRAMES);
    let starts = (first - 12..first + 4).chain(last - 20..last + 2);
    let lengths = (6..=17).chain([799, 800, 801, MAX_FRAMES]);
    starts.flat_map(move |start| lengths.clone().map(move |length| (start, length)))
}
