//! The program `fitlist`, written over the Rust of voxr: a job file is read, tested in document 01's
//! order, and run through the Rust's stages; the answer is printed. It is what the proved program is
//! compared with, as a function, and timed beside, as a process (src/bin/fitlist.rs).

use std::fmt::Write as _;
use std::fs::File;
use std::io::{self, Read, Write};
use std::os::fd::AsFd;
use std::process::ExitCode;

use crate::check::{HeardWord, Text};
use crate::full::Full;
use crate::full_rule::{Outcome, heard_once, stages};
use crate::job::{MOST, SIZES, TABLE, Table, double, needed, whole};
use crate::text::{Cue, Script};
use crate::words::{LAST, MAX_COUNT, MAX_LETTERS, MAX_UNITS};

/// A run that was taken, and what it gives; or the number of the refusal.
pub type Answer = Result<(Full, Outcome), u32>;

fn word(bytes: &[u8]) -> HeardWord {
    HeardWord {
        start: double(bytes, 0),
        end: double(bytes, 8),
        text: Text {
            letters: whole(bytes, 16),
            units: whole(bytes, 20),
            key: whole(bytes, 24),
        },
    }
}

fn span(bytes: &[u8]) -> Cue {
    Cue {
        start: double(bytes, 0),
        end: double(bytes, 8),
        text: Script {
            count: whole(bytes, 16),
        },
    }
}

fn is_time(time: f64) -> bool {
    (-LAST..=LAST).contains(&time)
}

/// The words, spans and samples of a job, or the first refusal that applies.
fn read(job: &[u8]) -> Result<Full, u32> {
    let table = Table::of(job).ok_or(5u32)?;
    if table.is_over(MOST) {
        return Err(4);
    }
    let [words, spans, samples, end] = table.places();
    if table.offsets.map(|at| at as usize) != [words, spans, samples] || job.len() != end {
        return Err(5);
    }
    let full = Full {
        kind: "a job",
        words: job[words..spans].chunks_exact(SIZES[0]).map(word).collect(),
        spans: job[spans..samples]
            .chunks_exact(SIZES[1])
            .map(span)
            .collect(),
        samples: job[samples..]
            .as_chunks()
            .0
            .iter()
            .map(|&bytes| f32::from_le_bytes(bytes))
            .collect(),
    };
    if full.spans.iter().any(|span| span.text.count > MAX_COUNT) {
        return Err(4);
    }
    let words = full.words.iter().map(|word| [word.start, word.end]);
    let mut times = words.chain(full.spans.iter().map(|span| [span.start, span.end]));
    if !times.all(|[start, end]| is_time(start) && is_time(end)) {
        return Err(1);
    }
    let is_taken = |text: Text| {
        (1..=MAX_LETTERS).contains(&text.letters) && (1..=MAX_UNITS).contains(&text.units)
    };
    if !full.words.iter().all(|word| is_taken(word.text)) {
        return Err(2);
    }
    Ok(full)
}

/// The answer to a job, by the Rust's stages.
pub fn answer(job: &[u8], stages: impl Fn(&Full) -> Outcome) -> Answer {
    read(job).map(|full| {
        let outcome = stages(&full);
        (full, outcome)
    })
}

/// The answer to a job, by the Rust's stages as they are.
pub fn run(job: &[u8]) -> Answer {
    answer(job, stages)
}

/// What is printed.
pub fn printed(answer: &Answer) -> String {
    let mut text = String::new();
    match answer {
        Err(refusal) => writeln!(text, "refused {refusal}").unwrap(),
        Ok((full, outcome)) => {
            for (first, end) in &outcome.pieces {
                writeln!(text, "piece {first} {end}").unwrap();
            }
            let words = outcome.words.iter().zip(&outcome.phrases);
            for (word, phrase) in words.take(outcome.count) {
                let [start, end] = [word.start, word.end].map(f64::to_bits);
                write!(text, "word {start:016X} {end:016X} ").unwrap();
                match full.spans.is_empty() {
                    true => writeln!(text, "-").unwrap(),
                    false => writeln!(text, "{phrase}").unwrap(),
                }
            }
        }
    }
    text
}

/// A job from standard input: the table, as many bytes as it tells, and one more.
fn read_job() -> io::Result<Vec<u8>> {
    let mut input = File::from(io::stdin().as_fd().try_clone_to_owned()?);
    let mut job = Vec::with_capacity(TABLE);
    (&mut input).take(TABLE as u64).read_to_end(&mut job)?;
    let more = needed(&job, MOST) - TABLE;
    if job.len() == TABLE {
        job.reserve_exact(more);
        input.take(more as u64).read_to_end(&mut job)?;
    }
    Ok(job)
}

/// Reads a job from standard input, and prints its answer. With the argument `heard-once`, the loop of
/// the Rust's fit runs on the levels that are ready.
pub fn main() -> ExitCode {
    let is_once = std::env::args()
        .nth(1)
        .is_some_and(|word| word == "heard-once");
    let stages = if is_once { heard_once } else { stages };
    let text = read_job().map(|job| printed(&answer(&job, stages)));
    match text.and_then(|text| io::stdout().write_all(text.as_bytes())) {
        Ok(()) => ExitCode::SUCCESS,
        Err(error) => {
            eprintln!("fitlist: {error}");
            ExitCode::FAILURE
        }
    }
}
