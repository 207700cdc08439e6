//! The program, written a second time with its tests, its order and its words open: it tells which of
//! the tests a job fails, and it can be made wrong on purpose (src/programs.rs).

use std::fs::File;
use std::io::{self, Read};
use std::os::fd::AsFd;

use crate::full::Full;
use crate::full_rule::{self, Outcome};
use crate::job::{self, SIZES, TABLE, Table, double, needed, whole};
use crate::transcript::envelope::envelope;
use crate::{check, text};

/// A test of a job.
#[derive(Clone, Copy, PartialEq, Debug)]
pub enum Test {
    Table,
    Numbers,
    Offsets,
    Length,
    Counts,
    Times,
    Texts,
    Samples,
}

use Test::{Counts, Length, Numbers, Offsets, Texts, Times};

/// How standard input is read.
#[derive(Clone, Copy)]
pub enum Reading {
    Needed,
    /// As far as the first read goes.
    Once,
    ToTheEnd,
    /// Each read without the bytes past its last four.
    Fours,
}

/// What a program goes by.
#[derive(Clone, Copy)]
pub struct Rule {
    pub reading: Reading,
    /// The tests and their order.
    pub tests: &'static [Test],
    pub most: [u32; 3],
    /// Whether a file of so many bytes is as long as it has to be.
    pub is_length: fn(usize, usize) -> bool,
    pub most_count: u32,
    pub is_time: fn(f64) -> bool,
    pub is_letters: fn(u32) -> bool,
    pub is_units: fn(u32) -> bool,
    pub sample: fn(f32) -> f32,
    pub run: full_rule::Rule,
    /// A word's bits, and the phrase number, from 0 on, where there are spans.
    pub word: fn([u64; 2], Option<u32>) -> String,
    /// The whole, from the lines of the pieces and the words.
    pub whole: fn(String, String) -> String,
    /// Whether the places past the final words are printed too.
    pub all_words: bool,
    /// What is printed as an error, and the exit status, where a job is refused.
    pub refused: (&'static str, u8),
}

/// Document 01's order.
const ORDER: &[Test] = &[Test::Table, Numbers, Offsets, Length, Counts, Times, Texts];

fn word(bits: [u64; 2], phrase: Option<u32>) -> String {
    let phrase = phrase.map_or("-".to_string(), |number| number.to_string());
    let [start, end] = bits.map(|bits| format!("{bits:016X}"));
    format!("word {start} {end} {phrase}\n")
}

/// Document 01's.
pub const RIGHT: Rule = Rule {
    reading: Reading::Needed,
    tests: ORDER,
    most: job::MOST,
    is_length: |length, end| length == end,
    most_count: 4096,
    is_time: |time| time.abs() <= 7200.0,
    is_letters: |letters| letters > 0 && letters < 1001,
    is_units: |units| units > 0 && units < 10_001,
    sample: |sample| sample,
    run: full_rule::RIGHT,
    word,
    whole: |pieces, words| pieces + &words,
    all_words: false,
    refused: ("", 0),
};

/// The bodies of a job, as far as it goes.
struct Bodies<'a> {
    parts: [&'a [u8]; 3],
}

impl<'a> Bodies<'a> {
    fn of(job: &'a [u8]) -> Bodies<'a> {
        let places = Table::of(job).map_or([0; 4], |table| table.places());
        let places = places.map(|at| at.min(job.len()));
        let part = |at: usize| &job[places[at]..places[at + 1]];
        Bodies {
            parts: [0, 1, 2].map(part),
        }
    }

    fn each(&self, at: usize) -> impl Iterator<Item = &'a [u8]> {
        self.parts[at].chunks_exact(SIZES[at])
    }

    fn counts(&self) -> impl Iterator<Item = u32> {
        self.each(1).map(|span| whole(span, 16))
    }

    /// The times of words, or of spans.
    fn times(&self, at: usize) -> impl Iterator<Item = f64> {
        self.each(at)
            .flat_map(|each| [0, 8].map(|at| double(each, at)))
    }

    /// Letters and units.
    fn texts(&self) -> impl Iterator<Item = [u32; 2]> {
        self.each(0).map(|word| [16, 20].map(|at| whole(word, at)))
    }

    fn samples(&self) -> impl Iterator<Item = f32> {
        self.each(2).map(|sample| f32::from_bits(whole(sample, 0)))
    }
}

/// The refusal that a test gives.
fn number(test: Test) -> u32 {
    match test {
        Test::Table | Offsets | Length => 5,
        Numbers | Counts => 4,
        Times | Test::Samples => 1,
        Texts => 2,
    }
}

impl Rule {
    /// Whether a job fails a test. Where its table isn't whole, it fails no other.
    pub fn fails(&self, job: &[u8], test: Test) -> bool {
        let (Some(table), bodies) = (Table::of(job), Bodies::of(job)) else {
            return test == Test::Table;
        };
        let places = table.places();
        match test {
            Test::Table => false,
            Numbers => table.is_over(self.most),
            Offsets => table
                .offsets
                .iter()
                .zip(places)
                .any(|(&at, place)| at as usize != place),
            Length => !(self.is_length)(job.len(), places[3]),
            Counts => bodies.counts().any(|count| count > self.most_count),
            Times => [0, 1].iter().any(|&at| !bodies.times(at).all(self.is_time)),
            Texts => bodies
                .texts()
                .any(|[letters, units]| !(self.is_letters)(letters) || !(self.is_units)(units)),
            Test::Samples => bodies.samples().any(f32::is_nan),
        }
    }

    /// The refusal of a job.
    pub fn refusal(&self, job: &[u8]) -> Option<u32> {
        let fails = |test: &&Test| self.fails(job, **test);
        self.tests.iter().find(fails).map(|&test| number(test))
    }

    /// What a job gives to a full run.
    fn full(&self, job: &[u8]) -> Full {
        let bodies = Bodies::of(job);
        let text = |at: [u32; 3]| check::Text {
            letters: at[0],
            units: at[1],
            key: at[2],
        };
        let word = |bytes: &[u8]| check::HeardWord {
            start: double(bytes, 0),
            end: double(bytes, 8),
            text: text([16, 20, 24].map(|at| whole(bytes, at))),
        };
        let span = |bytes: &[u8]| text::Cue {
            start: double(bytes, 0),
            end: double(bytes, 8),
            text: text::Script {
                count: whole(bytes, 16),
            },
        };
        Full {
            kind: "a job",
            words: bodies.each(0).map(word).collect(),
            spans: bodies.each(1).map(span).collect(),
            samples: bodies.samples().map(self.sample).collect(),
        }
    }

    /// What is printed of an outcome.
    fn print(&self, outcome: &Outcome, has_spans: bool) -> String {
        let piece = |&(first, end): &(usize, usize)| format!("piece {first} {end}\n");
        let n = if self.all_words {
            outcome.words.len()
        } else {
            outcome.count
        };
        let words = outcome.words.iter().zip(&outcome.phrases).take(n);
        let words = words.map(|(word, &phrase)| {
            let bits = [word.start, word.end].map(f64::to_bits);
            (self.word)(bits, has_spans.then_some(phrase))
        });
        (self.whole)(outcome.pieces.iter().map(piece).collect(), words.collect())
    }

    /// What is printed of a job.
    pub fn printed(&self, job: &[u8]) -> String {
        if let Some(refusal) = self.refusal(job) {
            return format!("refused {refusal}\n");
        }
        let full = self.full(job);
        let (outcome, _) = self.run.run(&full, &envelope(&full.samples));
        self.print(&outcome, !full.spans.is_empty())
    }

    /// A job from standard input.
    pub fn read(&self) -> io::Result<Vec<u8>> {
        let mut input = File::from(io::stdin().as_fd().try_clone_to_owned()?);
        let mut job = Vec::new();
        let mut part = vec![0; 1 << 16];
        let need = |job: &[u8]| match self.reading {
            Reading::ToTheEnd => 1 << 26,
            _ if job.len() < TABLE => TABLE,
            _ => needed(job, self.most),
        };
        while job.len() < need(&job) {
            let most = (need(&job) - job.len()).min(part.len());
            let n = input.read(&mut part[..most])?;
            let kept = match self.reading {
                Reading::Fours if n > 4 => n / 4 * 4,
                _ => n,
            };
            job.extend(&part[..kept]);
            let is_last = matches!(self.reading, Reading::Once) && job.len() > TABLE;
            if n == 0 || is_last {
                break;
            }
        }
        Ok(job)
    }
}
