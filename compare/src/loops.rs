//! What is compared of loops: words whose keys repeat, and what is left of them.

use std::iter::repeat_n;

use crate::check::{HeardWord, Text};
use crate::ffi::{self, Left};
use crate::inputs::Random;
use crate::report::{Case, Compared};
use crate::transcript::loops::collapse_loops;
use crate::words::{LAST, Lent, MAX_WORDS, near, text};

pub struct Loops;

/// Every list of two keys is compared up to this length: a loop of four words has 12.
const LONGEST_OF_TWO: u32 = 13;

/// A way to draw keys, up to so many, as numbers of a few kinds of word.
pub type Draw = fn(usize, &mut Random) -> Vec<u32>;

pub const KINDS: &[Draw] = &[few, planted, planted, nested, nested, different];

/// Keys of one, two or three kinds.
fn few(n: usize, random: &mut Random) -> Vec<u32> {
    let kinds = 1 + random.below(3);
    let key = || random.below(kinds) as u32;
    std::iter::repeat_with(key).take(n).collect()
}

/// Runs of one to five keys, each once to six times, with a part of one more after some.
fn planted(n: usize, random: &mut Random) -> Vec<u32> {
    let kinds = 1 + random.below(3);
    let mut keys = Vec::new();
    while keys.len() < n {
        let run: Vec<u32> = (0..=random.below(5))
            .map(|_| random.below(kinds) as u32)
            .collect();
        let more = random.below(run.len() as u64) as usize;
        keys.extend(repeat_n(&run, 1 + random.below(6) as usize).flatten());
        keys.extend(&run[..random.of(&[0, more])]);
    }
    keys.truncate(n);
    keys
}

/// A run that is repeated, with a key more or without, and the whole repeated again.
fn nested(n: usize, random: &mut Random) -> Vec<u32> {
    let mut keys = vec![0];
    while keys.len() < n {
        let copies = random.of(&[1, 2, 3, 3, 4]);
        keys = repeat_n(&keys, copies).flatten().copied().collect();
        let key = random.below(3) as u32;
        match random.below(3) {
            0 => keys.push(key),
            1 => keys.insert(0, key),
            _ => (),
        }
    }
    keys.truncate(n);
    keys
}

/// No two keys alike.
fn different(n: usize, _: &mut Random) -> Vec<u32> {
    (0..n as u32).collect()
}

/// Words with these keys, or with others, alike where they are, that may differ in any one bit. The
/// other numbers are any that are taken.
fn words(keys: &[u32], random: &mut Random) -> Vec<HeardWord> {
    let (any, turn) = (random.bits() as u32, random.below(32) as u32);
    let (flip, turn) = random.of(&[(0, 0), (any, turn), (u32::MAX, turn)]);
    let word = |key: &u32| HeardWord {
        text: Text {
            key: key.rotate_left(turn) ^ flip,
            ..text(random)
        },
        start: time(random),
        end: time(random),
    };
    keys.iter().map(word).collect()
}

/// Any time that is taken.
fn time(random: &mut Random) -> f64 {
    let any = random.around(7_200_000) as f64 / 1000.0;
    let limit = near(random.of(&[0.0, LAST, -LAST]), random);
    random.of(&[any, any, any, any, any, -0.0, limit])
}

/// The answer, every bit of the words left, and zeros in the places of the others.
fn differs(words: &[HeardWord]) -> Option<String> {
    let rust = collapse_loops(words).unwrap();
    let answer = Left {
        refusal: 0,
        found: u32::from(rust.found),
        count: rust.words.len(),
    };
    let mut ours = Lent::new(words);
    let left = ffi::collapse_loops(&mut ours);
    if left != answer {
        return Some(format!("ours {left:?}, the Rust's {answer:?}"));
    }
    let mut places = rust.words;
    places.resize(words.len(), HeardWord::default());
    ours.hold(&places)
}

fn case(keys: &[u32], random: &mut Random) -> Case {
    let difference = differs(&words(keys, random));
    let (n, first) = (keys.len(), &keys[..keys.len().min(24)]);
    Case::new(
        1,
        difference.map(|text| format!("{n} words of kinds {first:?}: {text}")),
    )
}

/// Every list of two kinds of keys of so many words.
fn of_two(n: u32) -> impl Iterator<Item = Vec<u32>> {
    (0..1u32 << n).map(move |bits| (0..n).map(|at| bits >> at & 1).collect())
}

/// As many keys as are taken: alike, all different, in groups of one to five, and in runs of two to
/// six different ones.
fn longest() -> impl Iterator<Item = Vec<u32>> {
    let keys = |of: &dyn Fn(usize) -> usize| (0..MAX_WORDS).map(|at| of(at) as u32).collect();
    let groups = (1..=5).map(move |size| keys(&|at| at / size));
    let runs = (1..=6).map(move |size| keys(&|at| at % size));
    groups.chain(runs)
}

/// Words: none, one, two, some, or, seldom, more.
fn how_many(random: &mut Random) -> usize {
    let [some, more, many] = [16, 60, 400].map(|n| 3 + random.below(n) as usize);
    match random.below(256) {
        0 => many,
        1..8 => random.below(3) as usize,
        8..64 => more,
        _ => some,
    }
}

impl Compared for Loops {
    fn name(&self) -> &str {
        "collapse_loops"
    }

    fn weight(&self) -> u64 {
        10
    }

    fn limits(&self) -> Vec<Case> {
        let mut random = Random::new(0, 5);
        let lists = (0..=LONGEST_OF_TWO).flat_map(of_two).chain(longest());
        let drawn: Vec<Vec<u32>> = KINDS
            .iter()
            .map(|draw| draw(MAX_WORDS, &mut random))
            .collect();
        let lists = lists.chain(drawn);
        lists.map(|keys| case(&keys, &mut random)).collect()
    }

    fn random(&self, random: &mut Random) -> Case {
        let n = how_many(random);
        let keys = random.of(KINDS)(n, random);
        case(&keys, random)
    }
}
