//! Job files, in the layout of document 01 ("Tally, peak, job file").

use crate::check::HeardWord;
use crate::full::Full;
use crate::text::Cue;

/// The bytes of the table.
pub const TABLE: usize = 24;
/// The bytes of a word, a span and a sample.
pub const SIZES: [usize; 3] = [28, 20, 4];
/// The most words, spans and samples that the program takes.
pub const MOST: [u32; 3] = [512, 64, 960_159];

/// A table's offsets, and its numbers: of words, spans and samples.
#[derive(Clone, Copy)]
pub struct Table {
    pub offsets: [u32; 3],
    pub numbers: [u32; 3],
}

/// The number at a place of a list of bytes.
pub fn whole(bytes: &[u8], at: usize) -> u32 {
    u32::from_le_bytes(bytes[at..at + 4].try_into().unwrap())
}

/// The double at a place of a list of bytes.
pub fn double(bytes: &[u8], at: usize) -> f64 {
    f64::from_le_bytes(bytes[at..at + 8].try_into().unwrap())
}

impl Table {
    /// The table of the first bytes, where there are enough.
    pub fn of(job: &[u8]) -> Option<Table> {
        let table = job.get(..TABLE)?;
        let pair = |at: usize| [8 * at, 8 * at + 4].map(|at| whole(table, at));
        let pairs = [0, 1, 2].map(pair);
        Some(Table {
            offsets: pairs.map(|[offset, _]| offset),
            numbers: pairs.map(|[_, number]| number),
        })
    }

    /// Where each body has to start, and where the last one has to end.
    pub fn places(&self) -> [usize; 4] {
        let [words, spans, samples] = [0, 1, 2].map(|at| self.numbers[at] as usize * SIZES[at]);
        [0, words, words + spans, words + spans + samples].map(|at| TABLE + at)
    }

    /// Whether a number is larger than the most.
    pub fn is_over(&self, most: [u32; 3]) -> bool {
        self.numbers.iter().zip(most).any(|(&n, most)| n > most)
    }
}

/// How many bytes a program has to read to answer: the table; where no number of it is over the most,
/// as many as they tell and one more.
pub fn needed(job: &[u8], most: [u32; 3]) -> usize {
    match Table::of(job) {
        Some(table) if !table.is_over(most) => table.places()[3] + 1,
        _ => TABLE,
    }
}

fn write_word(word: &HeardWord, bytes: &mut Vec<u8>) {
    bytes.extend(word.start.to_le_bytes());
    bytes.extend(word.end.to_le_bytes());
    for number in [word.text.letters, word.text.units, word.text.key] {
        bytes.extend(number.to_le_bytes());
    }
}

fn write_span(span: &Cue, bytes: &mut Vec<u8>) {
    bytes.extend(span.start.to_le_bytes());
    bytes.extend(span.end.to_le_bytes());
    bytes.extend(span.text.count.to_le_bytes());
}

/// The job file of a run.
pub fn written(full: &Full) -> Vec<u8> {
    let numbers = [full.words.len(), full.spans.len(), full.samples.len()].map(|n| n as u32);
    let table = Table {
        offsets: [0; 3],
        numbers,
    };
    let places = table.places();
    let mut bytes = Vec::with_capacity(places[3]);
    for (at, number) in places.iter().zip(numbers) {
        bytes.extend((*at as u32).to_le_bytes());
        bytes.extend(number.to_le_bytes());
    }
    for word in &full.words {
        write_word(word, &mut bytes);
    }
    for span in &full.spans {
        write_span(span, &mut bytes);
    }
    bytes.extend(full.samples.iter().flat_map(|sample| sample.to_le_bytes()));
    bytes
}
