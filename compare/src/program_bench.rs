//! Times the program beside the reference, each as a process, on a full job.

use std::env;
use std::fs::File;
use std::io::{self, Read, Seek, Write};
use std::process::Command;
use std::time::Instant;

use crate::bench::{head, print};
use crate::check::{HeardWord, Text};
use crate::full::Full;
use crate::inputs::Random;
use crate::job::{MOST, written};
use crate::process::holding;
use crate::programs::fitlist;
use crate::text::Cue;
use crate::transcript::envelope::{Envelope, envelope, frame_seconds};
use crate::transcript::loops::collapse_loops;
use crate::words_alone::span;
use crate::words_hour::bursts;

/// As many words as the program takes, in the bursts of a minute: as many in each, one after another,
/// which start up to 40 ms late and end up to 40 ms late. Once in 50 words, one is said four times.
fn words(heard: &Envelope, random: &mut Random) -> Vec<HeardWord> {
    let (bursts, n) = (bursts(heard), MOST[0] as usize);
    let word = |at: usize| {
        let own = at * bursts.len() / n;
        let first_of = |burst: usize| (burst * n).div_ceil(bursts.len());
        let (from, to) = (first_of(own), first_of(own + 1));
        let (first, past) = bursts[own];
        let edge = |at: usize| first + (past - first) * (at - from) as i64 / (to - from) as i64;
        let [start, end] = [edge(at), edge(at + 1)].map(|edge| edge + random.below(5) as i64);
        let key = if at % 50 < 4 {
            0
        } else {
            random.below(500) as u32
        };
        let text = Text {
            letters: 4,
            units: 5,
            key,
        };
        let [start, end] = [start, end].map(frame_seconds);
        HeardWord { text, start, end }
    };
    (0..n).map(word).collect()
}

/// As many spans as the program takes, over all words that loops leave, as many in each, from 0.1 s
/// after the first word starts to 0.1 s before the last one ends.
fn spans(words: &[HeardWord]) -> Vec<Cue> {
    let n = MOST[1] as usize;
    let share = |at: usize| &words[words.len() * at / n..words.len() * (at + 1) / n];
    let span = |at: usize| {
        let own = share(at);
        span(own.len(), own[0].start + 0.1, own[own.len() - 1].end - 0.1)
    };
    (0..n).map(span).collect()
}

/// A full job: the first minute of the hour.
fn full(seed: u64, samples: &[f32]) -> Full {
    let samples = samples[..MOST[2] as usize].to_vec();
    let words = words(&envelope(&samples), &mut Random::new(seed, 0));
    let left = collapse_loops(&words).unwrap().words;
    Full {
        kind: "a minute",
        spans: spans(&left),
        words,
        samples,
    }
}

/// The reference, beside this program.
fn reference(is_once: bool) -> Command {
    let mut command = Command::new(env::current_exe().unwrap().with_file_name("fitlist"));
    if is_once {
        command.arg("heard-once");
    }
    command
}

/// What a program prints, and how many milliseconds it took from its start to its end. The job comes by
/// a file that is there, or by a pipe.
fn time(mut command: Command, job: &[u8], mut file: Option<&File>) -> (Vec<u8>, f64) {
    let (mut out, out_end) = io::pipe().unwrap();
    let mut pipe = None;
    if let Some(file) = &mut file {
        file.rewind().unwrap();
        command.stdin(file.try_clone().unwrap());
    } else {
        let (input, end) = io::pipe().unwrap();
        command.stdin(input);
        pipe = Some(end);
    }
    command.stdout(out_end);
    let start = Instant::now();
    let mut child = command.spawn().unwrap();
    drop(command);
    if let Some(mut pipe) = pipe {
        pipe.write_all(job).unwrap();
    }
    let mut printed = Vec::new();
    out.read_to_end(&mut printed).unwrap();
    assert!(child.wait().unwrap().success());
    (printed, start.elapsed().as_secs_f64() * 1000.0)
}

/// The two sides in turn, `runs` times after one run that is not counted; prints the medians.
fn row(name: &str, runs: usize, job: &[u8], file: Option<&File>, is_once: bool) {
    let (mut a, mut b) = (Vec::new(), Vec::new());
    for run in 0..=runs {
        let (ours, x) = time(fitlist(), job, file);
        let (rust, y) = time(reference(is_once), job, file);
        assert!(ours == rust, "{name}: the programs differ");
        if run > 0 {
            a.push(x);
            b.push(y);
        }
    }
    print(name, a, b);
}

/// Prints the rows: a full job by a file and by a pipe; the reference's stages as they are, and with the
/// levels made once; and a job of nothing.
pub fn bench(seed: u64, runs: usize, samples: &[f32]) {
    let job = written(&full(seed, samples));
    let [words, spans, samples] = MOST;
    let text = format!("{runs} runs of fitlist, {words} words, {spans} spans, {samples} samples");
    head(&text, "milliseconds");
    let file = holding(&job);
    row("fitlist by a file", runs, &job, Some(&file), false);
    row(
        "fitlist by a file, heard once",
        runs,
        &job,
        Some(&file),
        true,
    );
    row("fitlist by a pipe", runs, &job, None, false);
    row("fitlist by a pipe, heard once", runs, &job, None, true);
    let nothing = Full {
        kind: "nothing",
        words: Vec::new(),
        spans: Vec::new(),
        samples: Vec::new(),
    };
    let job = written(&nothing);
    let file = holding(&job);
    row("fitlist, a job of nothing", runs, &job, Some(&file), false);
}
