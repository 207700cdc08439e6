//! Compares this library with the Rust of voxr, bit for bit, and times both. See README.md.

mod bench;
mod crushed;
mod demand3;
mod even;
mod even_rule;
mod faults;
mod ffi;
mod file_rule;
mod filed;
mod files;
mod fit_rule;
mod fit_times;
mod fitted;
mod full;
mod full_hour;
mod full_refused;
mod full_rule;
mod full_run;
mod heard;
mod hour;
mod inputs;
mod job;
mod jobs;
mod locality;
mod loops;
mod numbers;
mod pairs;
mod peak;
mod phrases;
mod phrases_rule;
mod pieces;
mod places;
mod planted;
mod planted_fit;
mod process;
mod program;
mod program_bench;
mod program_kinds;
mod program_rule;
mod programs;
mod recorded;
mod recordings;
mod refused_inputs;
mod report;
mod rows;
mod run_rule;
mod runs;
mod scaled;
mod scaling;
mod sounds;
mod spans;
mod spoken;
mod stages;
mod tallied;
mod tally_rule;
mod times;
mod vectors;
mod vectors_fit;
mod vectors_lists;
mod vectors_run;
mod words;
mod words_alone;
mod words_fit;
mod words_hour;
mod words_refused;

// The files of voxr and the stand-ins, as modules of this package (build.rs).
include!(concat!(env!("OUT_DIR"), "/voxr.rs"));

// voxr derives `serde::Serialize`, which nothing taken asks of: `Default` is derived in its place.
extern crate self as serde;
use std::default::Default as Serialize;

use std::process::ExitCode;

use report::Compared;

const SEED: u64 = 0x5EED_0000_0000_0001;
const CASES: u64 = 10_000_000;
const JOBS: u64 = 200_000;
const RUNS: usize = 15;
const HOUR_RUNS: usize = 5;
const PROGRAM_RUNS: usize = 41;

const USAGE: &str = "\
usage: compare [CASES [NAME..]]    compare, CASES random cases of each function of numbers
                                   (10000000), and fewer of the others
       compare fuzz-program [JOBS] run the program on JOBS random job files (200000)
       compare bench [RUNS]        time both sides, medians over RUNS runs (15; of an hour 5; of
                                   the program 41)
       compare word-vectors        write the stored answers of words, the Rust's
       compare fit-vectors         write those of last runs and of fitted words
       compare run-vectors         write those of full runs
       compare refused-inputs      write what the Rust gives where this library refuses";

fn all<T: Compared>(list: &'static [T]) -> impl Iterator<Item = &'static dyn Compared> {
    list.iter().map(|entry| entry as &dyn Compared)
}

fn entries() -> Vec<&'static dyn Compared> {
    let entries = all(numbers::NUMBERS);
    let entries = entries.chain(all(heard::OF_RECORDINGS));
    let entries = entries.chain(all(pieces::OF_ROWS));
    let entries = entries.chain(all(&[peak::Peak]));
    let entries = entries.chain(all(&[loops::Loops]));
    let entries = entries.chain(all(stages::STAGES));
    let entries = entries.chain(all(&[phrases::Phrases]));
    let entries = entries.chain(all(&[even::Even]));
    let entries = entries.chain(all(&[runs::LastRun]));
    let entries = entries.chain(all(&[fitted::Fit]));
    let entries = entries.chain(all(&[filed::ByPhrase]));
    let entries = entries.chain(all(&[tallied::Tally]));
    let entries = entries.chain(all(&[full_run::FullRun]));
    let entries = entries.chain(all(pairs::PAIRS));
    let entries = entries.chain(all(planted::PLANTED));
    let entries = entries.chain(all(planted_fit::PLANTED));
    let entries = entries.chain(all(tallied::PLANTED));
    let entries = entries.chain(all(full_run::PLANTED));
    let entries = entries.chain(all(&[words_refused::Refused]));
    let entries = entries.chain(all(&[full_refused::Refused]));
    entries.collect()
}

fn bench(runs: Option<usize>) -> ExitCode {
    bench::bench(SEED, runs.unwrap_or(RUNS));
    let (samples, heard) = hour::bench(SEED, runs.unwrap_or(HOUR_RUNS));
    words_hour::bench(SEED, runs.unwrap_or(HOUR_RUNS), &samples, &heard);
    program_bench::bench(SEED, runs.unwrap_or(PROGRAM_RUNS), &samples);
    full_hour::bench(SEED, runs.unwrap_or(HOUR_RUNS), samples, &heard);
    bench::print_targets();
    ExitCode::SUCCESS
}

fn compare(cases: u64, names: &[String]) -> ExitCode {
    let is_named = |name: &str| names.is_empty() || names.iter().any(|n| n == name);
    let entries = entries();
    if let Some(name) = names
        .iter()
        .find(|n| entries.iter().all(|e| e.name() != *n))
    {
        eprintln!("no function {name}\n{USAGE}");
        return ExitCode::from(2);
    }
    println!(
        "seed {SEED:016X}; {cases} random cases of each function of numbers, fewer of the others, \
         and the limit cases"
    );
    let mut agree = true;
    for entry in entries.iter().filter(|e| is_named(e.name())) {
        agree &= report::compare(*entry, SEED, cases);
    }
    verdict(agree)
}

fn fuzz_program(jobs: u64) -> ExitCode {
    println!("seed {SEED:016X}; {jobs} random job files, and the limit cases");
    let mut agree = true;
    for entry in all(&[programs::Program]).chain(all(&[programs::Wrong])) {
        agree &= report::compare(entry, SEED, jobs);
    }
    verdict(agree)
}

/// Prints whether all agree, and answers it.
fn verdict(agree: bool) -> ExitCode {
    println!(
        "{}",
        if agree {
            "no difference"
        } else {
            "DIFFERENT, OR NOT REACHED"
        }
    );
    if agree {
        ExitCode::SUCCESS
    } else {
        ExitCode::FAILURE
    }
}

/// The reference program (src/bin/fitlist.rs).
pub fn fitlist() -> ExitCode {
    program::main()
}

/// The comparison (src/main.rs).
pub fn compare_all() -> ExitCode {
    let arguments: Vec<String> = std::env::args().skip(1).collect();
    let number = |at: usize| {
        arguments
            .get(at)
            .map(|text| text.replace('_', "").parse::<u64>())
    };
    match (arguments.first().map(String::as_str), number(0), number(1)) {
        (None, _, _) => compare(CASES, &[]),
        (Some("word-vectors"), _, None) => {
            vectors::write();
            ExitCode::SUCCESS
        }
        (Some("fit-vectors"), _, None) => {
            vectors_fit::write();
            ExitCode::SUCCESS
        }
        (Some("run-vectors"), _, None) => {
            vectors_run::write();
            ExitCode::SUCCESS
        }
        (Some("refused-inputs"), _, None) => {
            refused_inputs::write();
            ExitCode::SUCCESS
        }
        (Some("fuzz-program"), _, None) => fuzz_program(JOBS),
        (Some("fuzz-program"), _, Some(Ok(jobs))) => fuzz_program(jobs),
        (Some("wrong-program"), _, Some(Ok(at))) => programs::run_wrong(at as usize),
        (Some("bench"), _, None) => bench(None),
        (Some("bench"), _, Some(Ok(runs))) if runs > 0 => bench(Some(runs as usize)),
        (Some(_), Some(Ok(cases)), _) => compare(cases, &arguments[1..]),
        _ => {
            eprintln!("{USAGE}");
            ExitCode::from(2)
        }
    }
}
