//! Lists of words to be evened: crushed ones, the words around them, and a limit.

use crate::check::HeardWord;
use crate::inputs::Random;
use crate::words::{LAST, MAX_WORDS, beside, near, origin, taken, text, up_to};

/// Words, and the limit that they are given.
pub struct Crushed {
    pub kind: &'static str,
    pub words: Vec<HeardWord>,
    pub limit: f64,
}

/// A way to set the times of words, whose numbers are there already.
type Draw = fn(&mut [HeardWord], &mut Random);

const KINDS: &[(&str, Draw)] = &[
    ("mixed", mixed),
    ("speech", speech),
    ("speech", speech),
    ("runs", runs),
    ("runs", runs),
    ("crowded", crowded),
    ("crowded", crowded),
    ("borrowed", borrowed),
    ("borrowed", borrowed),
    ("all crushed", all_crushed),
    ("repeated", repeated),
    ("downward", downward),
    ("reversed", reversed),
    ("alike", alike),
    ("sixteenths", sixteenths),
    ("anywhere", anywhere),
    ("limits", at_limits),
];

/// Times at which some rule changes, and differences of times.
const LIMITS: [f64; 18] = [
    0.0,
    -0.0,
    5e-324,
    -5e-324,
    f64::MIN_POSITIVE,
    0.05,
    0.08,
    0.1,
    0.12,
    0.25,
    0.3,
    0.37,
    0.49,
    -0.08,
    1.0,
    100.0,
    LAST,
    -LAST,
];

/// A crushed word's length: none, hardly any, or just less than 0.08 s, or that.
fn short(random: &mut Random) -> f64 {
    let (any, limit) = (up_to(79, random), near(0.08, random));
    random.of(&[0.0, 0.0, 0.01, any, any, limit])
}

/// The length of a word that is not crushed.
fn ordinary(random: &mut Random) -> f64 {
    0.081 + up_to(400, random)
}

/// The length of a swollen word, or just less.
fn swollen(letters: u32, random: &mut Random) -> f64 {
    let least = 0.25 + 0.12 * f64::from(letters);
    let (limit, more) = (near(least, random), least + up_to(1500, random));
    random.of(&[limit, least, more, more])
}

/// A word's length, of any kind.
fn length(letters: u32, random: &mut Random) -> f64 {
    match random.below(8) {
        0..3 => short(random),
        3 => swollen(letters, random),
        4 => near(0.08, random),
        _ => ordinary(random),
    }
}

/// Sets a word's times, and gives its end.
fn set(word: &mut HeardWord, start: f64, length: f64) -> f64 {
    word.start = taken(start);
    word.end = taken(word.start + length);
    word.end
}

/// Words one after another, with gaps of up to 0.2 s, none, or less than none.
fn speech(words: &mut [HeardWord], random: &mut Random) {
    let mut at = origin(random);
    for word in words {
        let length = length(word.text.letters, random);
        let gap = up_to(200, random);
        at = set(word, at, length) + random.of(&[0.0, 0.0, 0.0, gap, gap, -gap]);
    }
}

/// What words need at the least.
fn need(words: &[HeardWord]) -> f64 {
    let letters: u32 = words.iter().map(|w| w.text.letters).sum();
    0.05 * f64::from(letters)
}

/// What words take at a slow pace.
fn pace(words: &[HeardWord]) -> f64 {
    need(words) / 0.05 * 0.12 + 0.1 * words.len() as f64
}

/// Runs of one to ten crushed words, often after a swollen one, and the next word around the time
/// that the run needs, or that it takes at a slow pace.
fn runs(words: &mut [HeardWord], random: &mut Random) {
    let mut at = origin(random);
    let mut rest = words;
    while !rest.is_empty() {
        let n = (2 + random.below(10) as usize).min(rest.len());
        let (run, more) = rest.split_at_mut(n);
        let from = at;
        let first = run[0].text.letters;
        let heads = [swollen(first, random), ordinary(random), short(random)];
        let head = random.of(&heads);
        for (place, word) in run.iter_mut().enumerate() {
            let length = if place == 0 { head } else { short(random) };
            let end = set(word, at, length);
            at = random.of(&[end, end, at]);
        }
        let [need, pace] = [need(run), pace(run)].map(|t| beside(from + t, random));
        let any = at + up_to(600, random);
        at = random.of(&[at, any, need, need, pace]);
        rest = more;
    }
}

/// Words that start soon after one another and overlap, a few of them crushed.
fn crowded(words: &mut [HeardWord], random: &mut Random) {
    let mut at = origin(random);
    let step = random.of(&[0, 10, 40, 80]);
    let chance = random.of(&[2, 4, 9]);
    for word in words {
        let length = match random.below(chance) {
            0 => short(random),
            _ => ordinary(random),
        };
        set(word, at, length);
        at += up_to(step, random);
    }
}

/// Words just long enough, and then one or a few crushed ones with hardly any room after them.
fn borrowed(words: &mut [HeardWord], random: &mut Random) {
    let mut at = origin(random);
    let mut rest = words;
    while !rest.is_empty() {
        let n = (1 + random.below(11) as usize).min(rest.len());
        let (part, more) = rest.split_at_mut(n);
        let crushed = 1 + random.below(3) as usize;
        for (place, word) in part.iter_mut().enumerate() {
            let length = if place + crushed < n {
                0.081 + up_to(40, random)
            } else {
                short(random)
            };
            at = set(word, at, length);
        }
        at += random.of(&[0.0, 0.0, 0.001, 0.02, -0.02]);
        rest = more;
    }
}

/// No word of 0.08 s.
fn all_crushed(words: &mut [HeardWord], random: &mut Random) {
    let mut at = origin(random);
    let step = random.of(&[0, 0, 5, 70]);
    for word in words {
        let length = random.of(&[0.0, 0.03, 0.079]);
        set(word, at, length);
        at += up_to(step, random);
    }
}

/// A few words again and again, later, sooner or at the same time: runs that stay crushed are taken
/// again.
fn repeated(words: &mut [HeardWord], random: &mut Random) {
    let n = 1 + random.below(9) as usize;
    let lengths = [0.0, 0.0, 0.0625, 0.09375, 0.125, 0.5, -1.0];
    let steps = [0.0, 0.0, 0.0, 0.0625, 0.125, -1.0, 1.0];
    let group: Vec<(f64, f64)> = (0..n)
        .map(|_| (random.of(&lengths), random.of(&steps)))
        .collect();
    let mut at = origin(random);
    for (word, (length, step)) in words.iter_mut().zip(group.iter().cycle()) {
        set(word, at, *length);
        at += step;
    }
}

/// Each word starts before the one before it.
fn downward(words: &mut [HeardWord], random: &mut Random) {
    let mut at = origin(random);
    for word in words {
        let length = length(word.text.letters, random);
        set(word, at, length);
        at -= up_to(300, random);
    }
}

/// Words one after another, of which many end before they start.
fn reversed(words: &mut [HeardWord], random: &mut Random) {
    let mut at = origin(random);
    for word in words {
        let length = length(word.text.letters, random);
        let (start, end) = (at, set(word, at, random.of(&[-length, -length, length])));
        at = random.of(&[start, end]) + up_to(100, random);
    }
}

/// All times alike, or of two.
fn alike(words: &mut [HeardWord], random: &mut Random) {
    let one = origin(random);
    let list = [one, taken(one + random.of(&[0.0, 0.05, 0.08, 0.5]))];
    for word in words {
        (word.start, word.end) = (random.of(&list), random.of(&list));
    }
}

/// Times that are sixteenths: sums and shares that are exact.
fn sixteenths(words: &mut [HeardWord], random: &mut Random) {
    let mut at = random.around(4) as f64;
    for word in words {
        let end = at + random.of(&[0.0, 0.0, 1.0, 2.0, 9.0]);
        (word.start, word.end) = (at / 16.0, end / 16.0);
        at = random.of(&[at, end, end]);
    }
}

/// Times in no order, in a second or in four hours.
fn anywhere(words: &mut [HeardWord], random: &mut Random) {
    let most = random.of(&[1000, 1000, 20_000, 7_200_000]);
    let mut any = || random.around(most) as f64 / 1000.0;
    for word in words {
        (word.start, word.end) = (any(), any());
    }
}

/// Times that are limits, or their neighbours, in no order.
fn at_limits(words: &mut [HeardWord], random: &mut Random) {
    let most = random.of(&[5, LIMITS.len() - 2, LIMITS.len()]);
    for word in words {
        let [start, end] = [(); 2].map(|()| random.of(&LIMITS[..most]));
        (word.start, word.end) = (beside(start, random), beside(end, random));
    }
}

/// Each word with times of one of three kinds.
fn mixed(words: &mut [HeardWord], random: &mut Random) {
    let lists = [(); 3].map(|()| {
        let mut list = words.to_vec();
        random.of(&KINDS[1..]).1(&mut list, random);
        list
    });
    for (at, word) in words.iter_mut().enumerate() {
        *word = random.of(&[0, 1, 2].map(|list: usize| lists[list][at]));
    }
}

/// A limit: around the last word's end, or around what it takes at a slow pace, or any, or none.
fn limit(words: &[HeardWord], random: &mut Random) -> f64 {
    let last = words.last().copied().unwrap_or_default();
    let slow = last.end + 0.12 * f64::from(last.text.letters);
    let by = up_to(1000, random);
    let any = random.around(7_200_000) as f64 / 1000.0;
    match random.below(8) {
        0..2 => f64::INFINITY,
        2 => beside(random.of(&LIMITS), random),
        3 => beside(last.end, random),
        4 => beside(slow, random),
        5 => taken(last.end - by),
        6 => taken(last.end + by),
        _ => any,
    }
}

/// Words: few, or, seldom, more.
fn how_many(random: &mut Random) -> usize {
    let [few, some, more, many] = [3, 15, 60, 400].map(|n| random.below(n) as usize);
    match random.below(1 << 14) {
        0..2 => random.of(&[MAX_WORDS, MAX_WORDS - many]),
        2..32 => many,
        32..512 => more,
        512..1024 => few,
        _ => 1 + some,
    }
}

impl Crushed {
    /// So many words of a kind. Their letters are of few, as they occur, or any.
    fn new((kind, draw): (&'static str, Draw), n: usize, random: &mut Random) -> Crushed {
        let most = random.of(&[1, 3, 8, 8, 8, 1000]);
        let word = || {
            let mut text = text(random);
            text.letters = 1 + (text.letters - 1) % most;
            let (start, end) = (0.0, 0.0);
            HeardWord { text, start, end }
        };
        let mut words: Vec<HeardWord> = std::iter::repeat_with(word).take(n).collect();
        draw(&mut words, random);
        let limit = limit(&words, random);
        Crushed { kind, words, limit }
    }

    pub fn random(random: &mut Random) -> Crushed {
        let n = how_many(random);
        Crushed::new(random.of(KINDS), n, random)
    }

    /// The lists that are always compared: each kind with 0 to 9 words, and with as many as are
    /// taken.
    pub fn limits(random: &mut Random) -> Vec<Crushed> {
        let mut lists = Vec::new();
        for &kind in KINDS {
            for n in (0..10).flat_map(|n| [n; 20]).chain([MAX_WORDS; 3]) {
                lists.push(Crushed::new(kind, n, random));
            }
        }
        lists
    }
}
