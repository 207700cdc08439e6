//! Words in phrases over a recording: the words, their phrase numbers, and the spans.

use crate::check::HeardWord;
use crate::file_rule::To;
use crate::fit_times;
use crate::inputs::Random;
use crate::recorded::Recorded;
use crate::recordings::{HOP, MAX_SAMPLES};
use crate::sounds::{Sound, paused};
use crate::text::{Cue, Script};
use crate::times::{self, LIMITS, Times, from_to, time};
use crate::words::{
    LAST, MAX_COUNT, MAX_SPANS, MAX_WORDS, beside, few_letters, near, taken, text, up_to,
};

/// Words with their numbers, the spans, and the sound: its levels, and its samples where it has any.
pub struct Filed {
    pub kind: &'static str,
    pub words: Vec<HeardWord>,
    pub phrases: Vec<u32>,
    pub spans: Vec<Cue>,
    pub sound: Sound,
    pub samples: Option<Vec<f32>>,
}

/// A way to draw the number of a word: its place, how many words, and how many spans there are.
type Number = fn(u64, u64, u64, &mut Random) -> u32;

/// The kinds of numbers.
const NUMBERS: &[(&str, Number)] = &[
    ("in order", in_order),
    ("in order", in_order),
    ("interleaved", |at, _, spans, _| (at % spans.max(1)) as u32),
    ("downward", |at, n, spans, random| {
        in_order(n - 1 - at, n, spans, random)
    }),
    ("any", |_, _, spans, random| {
        random.below(spans.max(1)) as u32
    }),
    ("some without a span", |_, _, spans, random| {
        random.below(spans + 2) as u32
    }),
    ("one", |_, _, spans, _| spans.saturating_sub(1) as u32),
];

/// As many words for each span, one span after another.
fn in_order(at: u64, n: u64, spans: u64, _: &mut Random) -> u32 {
    (at * spans / n) as u32
}

/// The numbers of words. Of some lists a few words have one without a span.
fn numbers(number: Number, n: usize, spans: usize, random: &mut Random) -> Vec<u32> {
    let strays = random.below(4) == 0;
    let draw = |at: u64| {
        let none = random.of(&[spans as u32, spans as u32 + 1, 1 << 31, u32::MAX]);
        match random.below(8) {
            0 if strays => none,
            _ => number(at, n as u64, spans as u64, random),
        }
    };
    (0..n as u64).map(draw).collect()
}

/// A span's length: of no more than 0.06 s, none, less than none, or what is given.
fn length(given: f64, random: &mut Random) -> f64 {
    let (short, limit) = (up_to(60, random), near(0.04, random));
    match random.below(24) {
        0 => 0.0,
        1 => -given,
        2 => short,
        3 => limit,
        _ => given,
    }
}

/// Spans over the sound, one after another, with a pause, touching or overlapping; the last one often
/// up to the sound's end, or past it. Each has any count.
pub fn spans(sound: &Sound, n: usize, random: &mut Random) -> Vec<Cue> {
    let frames = sound.loud.len() as i64;
    let most = 2 * frames / n.max(1) as i64 + 4;
    let mut at = time(random.of(&[0, 0, 0, 3, -20]), random);
    let mut draw = |place: usize| {
        let given = time(from_to(2, most, random), random);
        let (mut start, mut end) = (at, taken(at + length(given, random)));
        if place + 1 == n {
            let last = time(frames, random);
            end = random.of(&[end, end, last, last, taken(last + given), LAST]);
        }
        if random.below(64) == 0 {
            let limits = [random.of(&LIMITS), random.of(&[LAST, -LAST])];
            start = beside(random.of(&limits), random);
        }
        let pause = up_to(300, random);
        at = taken(end + random.of(&[0.0, 0.0, pause, -pause]));
        let any = random.below(u64::from(MAX_COUNT) + 1) as u32;
        let count = random.of(&[0, 1, 7, MAX_COUNT, any]);
        let text = Script { count };
        Cue { text, start, end }
    };
    (0..n).map(&mut draw).collect()
}

/// Times of a phrase's words.
type Draw = fn(&Sound, &Cue, usize, &mut Random) -> Vec<Times>;

/// The kinds of words in a span.
const IN_SPAN: &[Draw] = &[early, early, early, filling, filling, at_end, anywhere];

/// Words one after another of up to 0.4 s each, from the span's start on.
fn in_turn(from: f64, n: usize, random: &mut Random) -> Vec<Times> {
    let longest = random.of(&[60, 120, 400]);
    let mut at = from;
    let word = || {
        let (start, end) = (at, taken(at + up_to(longest, random)));
        let gap = up_to(80, random);
        at = taken(end + random.of(&[0.0, 0.0, gap, -gap]));
        (start, end)
    };
    std::iter::repeat_with(word).take(n).collect()
}

/// Words from the span's start on, and sound after the last one: often one around 0.15 s after it.
fn early(sound: &Sound, span: &Cue, n: usize, random: &mut Random) -> Vec<Times> {
    let from = taken(span.start + random.of(&[0.0, 0.0, 0.1, -0.1]));
    let mut words = in_turn(from, n, random);
    let Some((start, end)) = words.last_mut() else {
        return words;
    };
    let rises = sound.edges(true);
    let later: Vec<i64> = rises
        .into_iter()
        .filter(|&rise| rise as f64 / 100.0 > *start)
        .collect();
    if !later.is_empty() && random.below(2) == 0 {
        let rise = random.of(&later) as f64 / 100.0;
        *end = near(
            taken(rise - 0.15 - random.of(&[0.0, 0.0, 0.01, 0.04])),
            random,
        );
    }
    words
}

/// Words that share the span, each a little longer or shorter.
fn filling(_: &Sound, span: &Cue, n: usize, random: &mut Random) -> Vec<Times> {
    let part = (span.end - span.start) / n as f64;
    let word = |at: usize| {
        let start = span.start + part * at as f64;
        let [late, more] = [(); 2].map(|()| random.around(60) as f64 / 1000.0);
        (taken(start + late), taken(start + part + more))
    };
    (0..n).map(word).collect()
}

/// Words crushed against the span's end, or past it.
fn at_end(_: &Sound, span: &Cue, n: usize, random: &mut Random) -> Vec<Times> {
    let from = span.end + random.of(&[-0.2, -0.04, -0.02, 0.0, 0.1]);
    in_turn(taken(from), n, random)
}

/// Words of any kind over the sound.
fn anywhere(sound: &Sound, _: &Cue, n: usize, random: &mut Random) -> Vec<Times> {
    let (own, any) = (random.of(fit_times::KINDS), random.of(times::KINDS));
    let (_, draw) = random.of(&[own, any]);
    draw(sound, n, random)
}

/// The words of all phrases, each phrase's of a kind of its own, or all of one kind of words over the
/// sound.
pub fn words(sound: &Sound, phrases: &[u32], spans: &[Cue], random: &mut Random) -> Vec<HeardWord> {
    let n = phrases.len();
    let mut times = anywhere(sound, &Cue::default(), n, random);
    if random.below(4) > 0 {
        for (phrase, span) in spans.iter().enumerate() {
            let is_its = |at: &usize| phrases[*at] as usize == phrase;
            let members: Vec<usize> = (0..n).filter(is_its).collect();
            let draw = random.of(IN_SPAN);
            let own = draw(sound, span, members.len(), random);
            for (at, own) in members.into_iter().zip(own) {
                times[at] = own;
            }
        }
    }
    let word = |(start, end)| HeardWord {
        text: text(random),
        start,
        end,
    };
    let mut words: Vec<HeardWord> = times.into_iter().map(word).collect();
    few_letters(&mut words, random);
    words
}

/// Words: up to 12 or 40, or, seldom, as many as are taken.
fn how_many(random: &mut Random) -> usize {
    let [few, some, more, many] = [4, 12, 40, 400].map(|n| random.below(n + 1) as usize);
    match random.below(1 << 13) {
        0 => MAX_WORDS - random.of(&[0, 0, many]),
        1..8 => many,
        8..512 => more,
        512..2048 => few,
        _ => some,
    }
}

/// Spans: up to 4 or 12, or, seldom, as many as are taken.
fn how_many_spans(random: &mut Random) -> usize {
    let [few, some, many] = [4, 12, 400].map(|n| random.below(n) as usize);
    match random.below(1 << 13) {
        0 => MAX_SPANS,
        1..8 => many,
        8..256 => 0,
        256..1024 => some,
        _ => 1 + few,
    }
}

impl Filed {
    /// So many words and spans over a sound.
    fn over(
        (kind, number): (&'static str, Number),
        (n, n_spans): (usize, usize),
        (sound, samples): (Sound, Option<Vec<f32>>),
        random: &mut Random,
    ) -> Filed {
        let spans = spans(&sound, n_spans, random);
        let phrases = numbers(number, n, n_spans, random);
        let words = words(&sound, &phrases, &spans, random);
        Filed {
            kind,
            words,
            phrases,
            spans,
            sound,
            samples,
        }
    }

    /// Words over a recording.
    pub fn recorded(random: &mut Random) -> Filed {
        let (n, n_spans) = (how_many(random), how_many_spans(random));
        let Recorded { sound, samples } = Recorded::random(random);
        let over = (sound, Some(samples));
        Filed::over(random.of(NUMBERS), (n, n_spans), over, random)
    }

    /// Words over levels that are made up.
    pub fn made_up(random: &mut Random) -> Filed {
        let (n, n_spans) = (how_many(random), how_many_spans(random));
        let frames = random.below(401) as usize;
        let sound = match random.below(2) {
            0 => Sound::random(random),
            _ => Sound::pauses(frames, random),
        };
        Filed::over(random.of(NUMBERS), (n, n_spans), (sound, None), random)
    }

    /// Three in four over recordings.
    pub fn random(random: &mut Random) -> Filed {
        match random.below(4) {
            0 => Filed::made_up(random),
            _ => Filed::recorded(random),
        }
    }

    /// The lists that are always compared: each kind of numbers with 0 to 6 words and 0 to 3 spans;
    /// with as many words as are taken in one span, in several and in a span each; as many spans
    /// without words; and as many levels as are taken.
    pub fn limits(random: &mut Random) -> Vec<Filed> {
        let mut list = Vec::new();
        let recorded = |frames: usize, random: &mut Random| {
            let loud = paused(frames, random);
            let Recorded { sound, samples } = Recorded::new(loud, random);
            (sound, Some(samples))
        };
        for &kind in NUMBERS {
            for (n, n_spans) in (0..7).flat_map(|n| (0..4).map(move |spans| (n, spans))) {
                for frames in [0, 3, 40, 120] {
                    let over = recorded(frames, random);
                    list.push(Filed::over(kind, (n, n_spans), over, random));
                }
            }
            for n_spans in [1, 5, 600, MAX_SPANS] {
                let over = recorded(4000, random);
                list.push(Filed::over(kind, (MAX_WORDS, n_spans), over, random));
            }
            let over = recorded(10, random);
            list.push(Filed::over(kind, (0, MAX_SPANS), over, random));
        }
        for n_spans in [1, 500] {
            let sound = Sound::pauses(MAX_SAMPLES / HOP, random);
            let kind = NUMBERS[0];
            list.push(Filed::over(
                kind,
                (MAX_WORDS, n_spans),
                (sound, None),
                random,
            ));
        }
        list
    }

    /// What the words are fitted to.
    pub fn to(&self) -> To<'_> {
        To {
            phrases: &self.phrases,
            spans: &self.spans,
            heard: &self.sound.levels,
            count: self.sound.count,
        }
    }
}
