//! What full runs are given: a recording, words and spans.

use crate::check::HeardWord;
use crate::ffi::Lending;
use crate::files;
use crate::inputs::Random;
use crate::loops;
use crate::pieces::need;
use crate::places::Places;
use crate::recorded::Recorded;
use crate::recordings::HOP;
use crate::sounds::{Sound, bursts, paused};
use crate::text::Cue;
use crate::times::TAILS;
use crate::words::{LAST, Lent, MAX_COUNT, MAX_SPANS, MAX_WORDS, Spans, Work, taken};

/// A recording, and the words and spans that a full run takes with it.
pub struct Full {
    pub kind: &'static str,
    pub words: Vec<HeardWord>,
    pub spans: Vec<Cue>,
    pub samples: Vec<f32>,
}

/// A recording: short, as a rule, of no frame, or, seldom, of several pieces.
fn recording(random: &mut Random) -> Recorded {
    let around = 2000 + random.below(5) as usize - 1;
    let [long, short] = [6100, 120].map(|n| random.below(n) as usize);
    match random.below(128) {
        0..2 => Recorded::new(paused(random.of(&[long, long, around]), random), random),
        2..4 => Recorded::new(Vec::new(), random),
        4..64 => Recorded::random(random),
        64..96 => {
            let mut loud = vec![false; short];
            bursts(&mut loud, random);
            Recorded::new(loud, random)
        }
        _ => Recorded::new(paused(short, random), random),
    }
}

/// A recording of samples that are numbers.
fn finite(random: &mut Random) -> Recorded {
    loop {
        let recorded = recording(random);
        if recorded.samples.iter().all(|sample| sample.is_finite()) {
            return recorded;
        }
    }
}

/// Words: up to 4 or 12, more, or, seldom, as many as are taken.
fn how_many(random: &mut Random) -> usize {
    let [few, some, more, many] = [4, 12, 40, 400].map(|n| random.below(n + 1) as usize);
    match random.below(1 << 12) {
        0 => MAX_WORDS - random.of(&[0, 0, many]),
        1..8 => many,
        8..256 => more,
        256..1024 => few,
        _ => some,
    }
}

/// Spans: up to 4 or 12, none, or, seldom, as many as are taken.
fn how_many_spans(random: &mut Random) -> usize {
    let [few, some, many] = [4, 12, 400].map(|n| random.below(n) as usize);
    match random.below(1 << 12) {
        0 => MAX_SPANS,
        1..8 => many,
        8..1024 => 0,
        1024..1536 => some,
        _ => 1 + few,
    }
}

/// Gives each span its part of so many words, or other counts: so that words are left over, that
/// some spans take none, or any.
fn share(spans: &mut [Cue], words: usize, random: &mut Random) {
    let n = spans.len().max(1);
    let kind = random.below(8);
    for (at, span) in spans.iter_mut().enumerate() {
        let own = (words * (at + 1) / n - words * at / n) as u32;
        let any = random.below(6) as u32;
        span.text.count = match kind {
            0 => any,
            1 => own.saturating_sub(1),
            2 => random.of(&[0, own, own + any, MAX_COUNT]).min(MAX_COUNT),
            3 => random.of(&[own, 0]),
            _ => own,
        };
    }
}

/// The phrase of each word, in the order of the spans.
fn numbers(spans: &[Cue], words: usize) -> Vec<u32> {
    let each = |(number, span): (usize, &Cue)| vec![number as u32; span.text.count as usize];
    let mut numbers: Vec<u32> = spans
        .iter()
        .enumerate()
        .flat_map(each)
        .take(words)
        .collect();
    numbers.resize(words, spans.len() as u32);
    numbers
}

/// Gives words of some runs times in the last frames of a sound, and of some of those a pause of 0.15 s
/// or more before them, which may lie within the sound.
fn in_tails(words: &mut [HeardWord], sound: &Sound, random: &mut Random) {
    if random.below(4) > 0 {
        return;
    }
    let (_, draw) = TAILS;
    let (times, is_paused) = (draw(sound, words.len(), random), random.below(2) == 0);
    for (word, (start, end)) in words.iter_mut().zip(times) {
        (word.start, word.end) = (start, end);
    }
    for at in 1..words.len() {
        if is_paused && random.below(2) == 0 {
            let pause = 0.15 + random.below(6) as f64 / 100.0;
            words[at - 1].end = taken(words[at].start - pause);
        }
    }
}

/// Keys: any, of few kinds that repeat, or all their own with a run of up to 5 words said again, two
/// to four times.
fn repeat(words: &mut Vec<HeardWord>, random: &mut Random) {
    let n = words.len();
    match random.below(8) {
        0 => {
            let keys = random.of(loops::KINDS)(n, random);
            for (word, key) in words.iter_mut().zip(keys) {
                word.text.key = key;
            }
        }
        1..4 if n > 0 => {
            let from = random.below(n as u64) as usize;
            let to = (from + 1 + random.below(5) as usize).min(n);
            let run = words[from..to].to_vec();
            for _ in 0..random.of(&[1, 2, 2, 3]) {
                words.splice(to..to, run.clone());
            }
            words.truncate(MAX_WORDS);
        }
        _ => (),
    }
}

/// Puts a time of some words or spans at an end of what is taken.
fn far(words: &mut [HeardWord], spans: &mut [Cue], random: &mut Random) {
    if random.below(32) > 0 {
        return;
    }
    for word in words {
        let time = random.of(&[LAST, -LAST]);
        match random.below(8) {
            0 => word.start = time,
            1 => word.end = time,
            _ => (),
        }
    }
    for span in spans {
        match random.below(8) {
            0 => span.start = -LAST,
            1 => span.end = LAST,
            _ => (),
        }
    }
}

impl Full {
    /// So many words and spans over a recording.
    pub fn over(recorded: Recorded, [n, n_spans]: [usize; 2], random: &mut Random) -> Full {
        let Recorded { sound, samples } = recorded;
        let mut spans = files::spans(&sound, n_spans, random);
        share(&mut spans, n, random);
        let mut words = files::words(&sound, &numbers(&spans, n), &spans, random);
        in_tails(&mut words, &sound, random);
        repeat(&mut words, random);
        far(&mut words, &mut spans, random);
        Full {
            kind: sound.kind,
            words,
            spans,
            samples,
        }
    }

    pub fn random(random: &mut Random) -> Full {
        let counts = [how_many(random), how_many_spans(random)];
        Full::over(recording(random), counts, random)
    }

    /// How many words and spans there are.
    pub fn counts(&self) -> [usize; 2] {
        [self.words.len(), self.spans.len()]
    }

    /// A run over a recording of numbers alone.
    pub fn finite(random: &mut Random) -> Full {
        let counts = [how_many(random), how_many_spans(random)];
        Full::over(finite(random), counts, random)
    }

    /// The runs that are always compared: 0 to 4 words and 0 to 3 spans over recordings around the
    /// lengths at which frames and pieces begin; and as many words and spans as are taken.
    pub fn limits(random: &mut Random) -> Vec<Full> {
        let mut list = Vec::new();
        let recorded = |frames: usize, random: &mut Random| {
            let loud = paused(frames, random);
            Recorded::new(loud, random)
        };
        for (n, n_spans) in (0..5).flat_map(|n| (0..4).map(move |spans| (n, spans))) {
            for frames in [0, 1, 2, 40, 120] {
                let over = recorded(frames, random);
                list.push(Full::over(over, [n, n_spans], random));
            }
        }
        for frames in [1203, 1204, 1999, 2000, 2001, 2407, 4001] {
            let over = recorded(frames, random);
            list.push(Full::over(over, [6, 2], random));
        }
        for n_spans in [0, 1, 5, 600, MAX_SPANS] {
            let over = recorded(4000, random);
            list.push(Full::over(over, [MAX_WORDS, n_spans], random));
        }
        let over = recorded(10, random);
        list.push(Full::over(over, [0, MAX_SPANS], random));
        list
    }

    /// What is lent: as many places as are needed, or more, with a mark in each.
    pub fn lending(&self, random: &mut Random) -> Lending {
        let (n, frames) = (self.words.len(), self.samples.len() / HOP);
        let more = |random: &mut Random| random.of(&[0, 0, 1, 9]);
        Lending {
            words: Lent::new(&self.words),
            spans: Spans::new(&self.spans),
            phrases: Places::new(n + more(random)),
            levels: Places::new(frames + more(random)),
            piece_starts: Places::new(need(frames) + more(random)),
            piece_ends: Places::new(need(frames) + more(random)),
            work: Work::new([(); 3].map(|()| n + more(random))),
        }
    }

    /// What a difference is of.
    pub fn describe(&self, text: String) -> String {
        let (n, spans, count) = (self.words.len(), self.spans.len(), self.samples.len());
        format!(
            "{}, {n} words, {spans} spans, {count} samples: {text}",
            self.kind
        )
    }
}
