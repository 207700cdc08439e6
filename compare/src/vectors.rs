//! Writes the stored answers of words: rows for crates/word_vectors, with the answers of the Rust.

use crate::check::{HeardWord, Text};
use crate::recordings::HOP;
use crate::transcript::envelope::{Envelope, TRANSCRIPT_RATE};
use crate::transcript::loops::collapse_loops;
use crate::transcript::onsets::{hand_back_tails, snap_ends, snap_onsets};
use crate::vectors_lists;

/// Frames of a row's recording.
const FRAMES: usize = 64;
/// How long it is, in seconds.
pub const DURATION: f64 = (FRAMES * HOP) as f64 / TRANSCRIPT_RATE as f64;
/// The most keys of a row.
const KEYS: usize = 16;

/// Keys of words, as hexadecimal digits.
const LOOPS: &[&str] = &[
    "",
    "1112",
    "11",
    "1212121",
    "121211211212",
    "1111111111111111",
    // the longest run that is looked for: three copies, four, two, and one that is too long
    "123412341234",
    "1234123412341234",
    "12341234",
    "123451234512345",
    "1223334444",
    "F12F12F12EEEDF12",
];

/// A word's start, and the bursts of sound: from a frame up to another.
pub type Heard = (f64, &'static [(usize, usize)]);

const ONSETS: &[Heard] = &[
    (-0.005, &[]),
    (-0.0, &[]),
    (0.305, &[]),
    // within its sound, and more than 60 frames late
    (0.3, &[(20, 40)]),
    (0.63, &[(0, 64)]),
    // 7 and 8 quiet frames before the start, and between bursts
    (0.3, &[(10, 23)]),
    (0.3, &[(10, 22)]),
    (0.3, &[(10, 15), (22, 40)]),
    (0.3, &[(10, 15), (23, 40)]),
    // bursts of one frame, and a start past the recording
    (0.42, &[(2, 3), (11, 12), (19, 20), (27, 28), (35, 36)]),
    (0.7, &[(50, 51), (58, 64)]),
];

const ENDS: &[Heard] = &[
    // no sound, and none from the start on
    (0.1, &[]),
    (0.1, &[(0, 10)]),
    // 8 and 7 quiet frames between bursts
    (0.1, &[(10, 20), (28, 40)]),
    (0.1, &[(10, 20), (27, 40)]),
    // a start below zero
    (-0.2, &[(0, 20), (28, 40)]),
    (-0.2, &[(30, 40)]),
    // 0.05 s before the end, a frame more, and up to the end
    (0.1, &[(10, 59)]),
    (0.1, &[(10, 58)]),
    (0.1, &[(10, 64)]),
    // less sound than the 0.06 s that are kept, and a word with no length
    (0.5, &[(51, 52)]),
    (0.6, &[(60, 61)]),
];

const TAILS: &[Heard] = &[
    // 8 and 7 quiet frames after the tail
    (0.12, &[(5, 15), (23, 40)]),
    (0.12, &[(5, 15), (22, 40)]),
    // a tail as long as the letters need, and one frame less
    (0.12, &[(5, 32), (40, 60)]),
    (0.12, &[(5, 31), (40, 60)]),
    // 2 and 3 loud frames after the pause
    (0.12, &[(5, 15), (23, 25)]),
    (0.12, &[(5, 15), (23, 26)]),
    (0.12, &[(5, 15), (62, 64)]),
    // the sound does not run across the start
    (0.12, &[(12, 15), (23, 40)]),
    (0.12, &[(5, 12), (20, 40)]),
    // just less than 0.05 s after the word before, and more
    (0.15, &[(5, 18), (26, 40)]),
    (0.16, &[(5, 18), (26, 40)]),
];

/// The planted row: a burst before the start.
const PLANTED: Heard = (0.3, &[(20, 40)]);

/// A word of so many letters.
pub fn word(start: f64, end: f64, letters: u32) -> HeardWord {
    let (units, key) = (1, 1);
    let text = Text {
        letters,
        units,
        key,
    };
    HeardWord { text, start, end }
}

/// The levels of the bursts, over a floor of 0.5.
pub fn levels(bursts: &[(usize, usize)]) -> Envelope {
    let mut env = vec![0.0; FRAMES];
    for &(first, past) in bursts {
        env[first..past].fill(1.0);
    }
    Envelope { env, floor: 0.5 }
}

/// The loud frames as bits, the lowest first.
pub fn bits(levels: &Envelope) -> u64 {
    let loud = (0..FRAMES).filter(|&frame| levels.env[frame] > levels.floor);
    loud.map(|frame| 1 << frame).sum()
}

pub fn row(kind: char, a: u64, b: u64, r: u64) {
    println!("{kind} {a:016X} {b:016X} {r:016X}");
}

/// A row of words over a recording: `answer` gives the time that the Rust moves.
pub fn moved(kind: char, (start, bursts): Heard, answer: impl Fn(f64, &Envelope) -> u64) {
    let levels = levels(bursts);
    row(kind, start.to_bits(), bits(&levels), answer(start, &levels));
}

fn onset(start: f64, levels: &Envelope) -> u64 {
    let mut words = [word(start, DURATION, 1)];
    snap_onsets(&mut words, levels);
    words[0].start.to_bits()
}

fn end(start: f64, levels: &Envelope) -> u64 {
    let mut words = [word(start, DURATION, 1)];
    snap_ends(&mut words, levels, DURATION);
    words[0].end.to_bits()
}

fn handed_back(start: f64, levels: &Envelope) -> u64 {
    let mut words = [word(0.0, 0.1, 4), word(start, DURATION, 4)];
    hand_back_tails(&mut words, levels).unwrap();
    words[1].start.to_bits()
}

/// Keys as digits, the first as the highest of 16, with zeros after them.
fn digits(keys: impl Iterator<Item = u32>) -> u64 {
    let keys = keys.chain(std::iter::repeat(0)).take(KEYS);
    keys.fold(0, |digits, key| digits << 4 | u64::from(key))
}

fn collapsed(text: &str) {
    let keys = || text.chars().map(|digit| digit.to_digit(16).unwrap());
    let heard = |key| {
        let mut word = word(0.0, 0.0, 1);
        word.text.key = key;
        word
    };
    let words: Vec<HeardWord> = keys().map(heard).collect();
    let left = collapse_loops(&words).unwrap().words;
    let left = digits(left.iter().map(|w| w.text.key));
    row('K', digits(keys()), words.len() as u64, left);
}

/// All rows, always the same.
pub fn write() {
    LOOPS.iter().for_each(|keys| collapsed(keys));
    ONSETS.iter().for_each(|&heard| moved('O', heard, onset));
    ENDS.iter().for_each(|&heard| moved('E', heard, end));
    TAILS
        .iter()
        .for_each(|&heard| moved('D', heard, handed_back));
    // one step past the Rust's answer
    moved('W', PLANTED, |start, levels| onset(start, levels) + 1);
    vectors_lists::write();
}
