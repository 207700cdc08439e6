//! Words and the spans that they are placed in.

use crate::check::HeardWord;
use crate::inputs::Random;
use crate::text::{Cue, Script};
use crate::words::{
    LAST, MAX_COUNT, MAX_SPANS, MAX_WORDS, beside, near, origin, taken, text, up_to,
};

/// Words, and spans with the number of words that each takes.
pub struct Phrased {
    pub kind: &'static str,
    pub words: Vec<HeardWord>,
    pub spans: Vec<Cue>,
}

/// A word's start and end.
type Times = (f64, f64);
/// A way to draw the times of a word: the span, the word's place in it, and how many there are.
type Draw = fn(&Cue, usize, usize, &mut Random) -> Times;

/// The kinds of words in a span, each with the way to draw one of them.
const KINDS: &[(&str, Draw)] = &[
    ("any", any),
    ("inside", inside),
    ("some early", |span, at, n, random| match 2 * at < n {
        true => before(span, random),
        false => inside(span, at, n, random),
    }),
    ("some late", |span, at, n, random| match 2 * at < n {
        true => inside(span, at, n, random),
        false => after(span, random),
    }),
    ("both", both),
    ("both", both),
    ("strays", strays),
    ("strays", strays),
    ("edges", |span, _, _, random| edges(span, random)),
    ("none inside", outside),
    ("limits", |_, _, _, random| (limit(random), limit(random))),
];

/// Times at which some rule changes, or that are unlike others.
const LIMITS: [f64; 14] = [
    0.0,
    -0.0,
    5e-324,
    -5e-324,
    1e-310,
    f64::MIN_POSITIVE,
    0.02,
    -0.02,
    0.04,
    0.06,
    0.08,
    1.0,
    LAST,
    -LAST,
];

/// A limit, or one of its neighbours.
fn limit(random: &mut Random) -> f64 {
    let t = random.of(&LIMITS);
    beside(t, random)
}

/// A word in its own part of the span, of nearly all of that part's length or of less.
fn inside(span: &Cue, at: usize, n: usize, random: &mut Random) -> Times {
    let part = (span.end - span.start) / n as f64;
    let start = span.start + part * at as f64;
    let cut = part * random.below(100) as f64 / 300.0;
    let (late, early) = random.of(&[(0.0, 0.0), (cut, 0.0), (0.0, cut), (cut, cut)]);
    (taken(start + late), taken(start + part - early))
}

/// A word that starts before the span by more than the slack, or around the slack.
fn before(span: &Cue, random: &mut Random) -> Times {
    let (by, length) = (0.021 + up_to(500, random), up_to(400, random));
    let edge = near(span.start - 0.02, random);
    let start = random.of(&[taken(span.start - by), taken(span.start - by), edge]);
    (start, taken(start + length))
}

/// A word that ends after the span by more than the slack, or around the slack.
fn after(span: &Cue, random: &mut Random) -> Times {
    let (by, length) = (0.021 + up_to(500, random), up_to(400, random));
    let edge = near(span.end + 0.02, random);
    let end = random.of(&[taken(span.end + by), taken(span.end + by), edge]);
    (taken(end - length), end)
}

/// A word around 0.04 s long, or shorter, or of less than no length.
fn short(span: &Cue, random: &mut Random) -> Times {
    let start = taken(span.start + up_to(200, random));
    let least = near(taken(start + 0.04), random);
    let end = random.of(&[start, least, least, start + 0.039, start - 0.1]);
    (start, taken(end))
}

/// A word from around the earliest start that is inside, or to around the latest end.
fn edges(span: &Cue, random: &mut Random) -> Times {
    let [first, last] = [span.start - 0.02, span.end + 0.02].map(taken);
    let [by_first, by_last] = [first, last].map(|t| near(t, random));
    let start = random.of(&[first, by_first, span.start, last - 0.04]);
    let end = random.of(&[last, by_last, span.end, start + 0.04]);
    (taken(start), taken(end))
}

/// A word that is not inside, as a rule.
fn outside(span: &Cue, _: usize, _: usize, random: &mut Random) -> Times {
    random.of(&[before, after, short])(span, random)
}

/// A word of any kind.
fn any(span: &Cue, at: usize, n: usize, random: &mut Random) -> Times {
    match random.below(8) {
        0 => edges(span, random),
        1 => (limit(random), limit(random)),
        2 => (taken(random.around(9000) as f64 / 1000.0), span.end),
        3..5 => outside(span, at, n, random),
        _ => inside(span, at, n, random),
    }
}

/// The first words early and the last ones late.
fn both(span: &Cue, at: usize, n: usize, random: &mut Random) -> Times {
    match 3 * at / n {
        0 => before(span, random),
        1 => inside(span, at, n, random),
        _ => after(span, random),
    }
}

/// Each second word or so is not inside.
fn strays(span: &Cue, at: usize, n: usize, random: &mut Random) -> Times {
    match random.below(2) {
        0 if at > 0 && at + 1 < n => outside(span, at, n, random),
        _ => inside(span, at, n, random),
    }
}

/// A span from `at` on: of some length, of hardly any, of none, or reversed.
fn span(at: f64, count: u32, random: &mut Random) -> Cue {
    let (some, short) = (0.2 + up_to(3000, random), up_to(60, random));
    let length = match random.below(16) {
        0 => 0.0,
        1 => -some,
        2 => short,
        3 => near(0.04, random),
        _ => some,
    };
    let (start, end) = match random.below(32) {
        0 => (limit(random), limit(random)),
        _ => (taken(at), taken(at + length)),
    };
    let text = Script { count };
    Cue { text, start, end }
}

/// Spans one after another, with a pause, touching, or overlapping.
fn spans(counts: &[u32], random: &mut Random) -> Vec<Cue> {
    let mut at = origin(random);
    let draw = |&count: &u32| {
        let span = span(at, count, random);
        let pause = up_to(400, random);
        at = taken(span.end + random.of(&[0.0, 0.0, pause, pause, -pause]));
        span
    };
    counts.iter().map(draw).collect()
}

/// How many words each span takes: few, or, seldom, more.
fn counts(random: &mut Random) -> Vec<u32> {
    let (spans, most) = match random.below(1 << 12) {
        0 => (40, 100),
        1 => (1 + random.below(4), 1024),
        2..64 => (random.below(40), 4),
        64..192 => (random.below(2), 60),
        192..256 => (0, 1),
        _ => (1 + random.below(4), random.of(&[2, 4, 4, 8])),
    };
    (0..spans).map(|_| random.below(most + 1) as u32).collect()
}

impl Phrased {
    /// As many words as the spans take, each span's of a kind of its own or all of one.
    fn new(kind: (&'static str, Draw), counts: &[u32], random: &mut Random) -> Phrased {
        let spans = spans(counts, random);
        let all_alike = random.below(2) == 0;
        let mut words = Vec::new();
        for span in &spans {
            let (_, other) = random.of(KINDS);
            let draw = if all_alike { kind.1 } else { other };
            for at in 0..span.text.count as usize {
                let (start, end) = draw(span, at, span.text.count as usize, random);
                let text = text(random);
                words.push(HeardWord { text, start, end });
            }
        }
        words.truncate(MAX_WORDS);
        let kind = kind.0;
        Phrased { kind, words, spans }
    }

    /// Takes words away, or puts some more past the spans.
    fn other_number(mut self, random: &mut Random) -> Phrased {
        let n = self.words.len();
        match random.below(4) {
            0 => self.words.truncate(random.below(n as u64 + 1) as usize),
            1 => {
                let last = self.words.last().copied().unwrap_or_default();
                let more = 1 + random.below(4) as usize;
                let text = text(random);
                let word = HeardWord { text, ..last };
                self.words.resize((n + more).min(MAX_WORDS), word);
            }
            _ => (),
        }
        self
    }

    /// Gives one span another number of words: none, one more, or as many as can be.
    fn other_count(mut self, random: &mut Random) -> Phrased {
        let n = self.spans.len() as u64;
        if n > 0 && random.below(8) == 0 {
            let count = &mut self.spans[random.below(n) as usize].text.count;
            *count = random
                .of(&[0, *count + 1, MAX_COUNT, MAX_COUNT - 1])
                .min(MAX_COUNT);
        }
        self
    }

    pub fn random(random: &mut Random) -> Phrased {
        let counts = counts(random);
        let phrased = Phrased::new(random.of(KINDS), &counts, random);
        phrased.other_number(random).other_count(random)
    }

    /// The lists that are always compared: each kind with few words, with as many words as are taken
    /// in one span and in several, and with as many spans.
    pub fn limits(random: &mut Random) -> Vec<Phrased> {
        let mut lists = Vec::new();
        for &kind in KINDS {
            for count in (0..6).flat_map(|count| [count; 20]) {
                lists.push(Phrased::new(kind, &[count, count / 2], random).other_number(random));
            }
            for counts in [
                vec![MAX_COUNT],
                vec![7; 586],
                vec![1; MAX_SPANS],
                vec![0, 0, 4000, 0, 97],
                vec![0; MAX_SPANS],
            ] {
                lists.push(Phrased::new(kind, &counts, random).other_number(random));
            }
        }
        lists.push(Phrased::new(KINDS[0], &vec![MAX_COUNT; MAX_SPANS], random));
        for n in [1, MAX_WORDS] {
            let mut list = Phrased::new(KINDS[0], &[n as u32], random);
            list.spans.clear();
            lists.push(list);
        }
        lists
    }
}
