//! Times both sides on the same inputs in one run.

use std::hint::black_box;
use std::sync::Mutex;
use std::time::Instant;

use crate::ffi::*;
use crate::inputs::times;
use crate::js::{js_max, js_to_fixed};
use crate::transcript::envelope::frame_at;

/// Inputs of one run.
const INPUTS: usize = 100_000;

/// What is to be reached: a row, and the most that ours may take over the Rust's.
const TARGETS: [(&str, f64); 4] = [
    ("envelope of an hour", 0.95),
    ("pieces of an hour", 0.8),
    ("full run of an hour, heard once", 0.95),
    ("fitlist by a file, heard once", 1.0),
];

/// The rows that were printed: their names, and ours over the Rust's.
static ROWS: Mutex<Vec<(String, f64)>> = Mutex::new(Vec::new());

/// Prints what the rows after it are of, and their columns.
pub fn head(text: &str, unit: &str) {
    println!("{text}; medians, {unit} a call");
    println!(
        "{:<42} {:>10} {:>10} {:>8}",
        "", "ours", "the Rust's", "ratio"
    );
}

/// Prints a row: the medians of both sides, and ours over the Rust's.
pub fn print(name: &str, ours: Vec<f64>, rust: Vec<f64>) {
    let (a, b) = (median(ours), median(rust));
    let ratio = a / b;
    println!("{name:<42} {a:>10.3} {b:>10.3} {ratio:>8.3}");
    ROWS.lock().unwrap().push((name.to_string(), ratio));
}

/// Prints the targets, and whether each is reached.
pub fn print_targets() {
    println!("targets, ours over the Rust's");
    let rows = ROWS.lock().unwrap();
    for (name, most) in TARGETS {
        let (_, ratio) = rows.iter().find(|(row, _)| row == name).unwrap();
        let word = if *ratio <= most { "pass" } else { "fail" };
        println!("{name:<42} {ratio:>8.3} <= {most:<4.2} {word}");
    }
}

fn median(mut values: Vec<f64>) -> f64 {
    values.sort_by(f64::total_cmp);
    values[values.len() / 2]
}

/// Nanoseconds of one call of `call`, over all inputs.
fn time(inputs: &[f64], call: &dyn Fn(&[f64])) -> f64 {
    let start = Instant::now();
    call(black_box(inputs));
    start.elapsed().as_nanos() as f64 / inputs.len() as f64
}

/// The two sides in turn, `runs` times after one run that is not counted; prints the medians.
fn row(name: &str, inputs: &[f64], runs: usize, ours: &dyn Fn(&[f64]), rust: &dyn Fn(&[f64])) {
    let (mut a, mut b) = (Vec::new(), Vec::new());
    for run in 0..=runs {
        let (x, y) = (time(inputs, ours), time(inputs, rust));
        if run > 0 {
            a.push(x);
            b.push(y);
        }
    }
    print(name, a, b);
}

/// A call for each input, of a function that the compiler does not see into.
macro_rules! each {
    ($function:expr, $kind:ty) => {
        &|inputs: &[f64]| {
            let function: $kind = black_box($function);
            for &x in inputs {
                black_box(function(x));
            }
        }
    };
}

/// A call for each input and the one before it.
macro_rules! pairs {
    ($function:expr, $kind:ty) => {
        &|inputs: &[f64]| {
            let function: $kind = black_box($function);
            for pair in inputs.windows(2) {
                black_box(function(pair[0], pair[1]));
            }
        }
    };
}

/// Prints the table: medians over `runs` runs, in nanoseconds a call, and ours over the Rust's.
pub fn bench(seed: u64, runs: usize) {
    let inputs = times(seed, INPUTS);
    let text = format!("{runs} runs of {INPUTS} times from 0 to 7,200 s");
    head(&text, "nanoseconds");
    type Ours<T> = extern "C" fn(f64) -> T;
    type Rust<T> = fn(f64) -> T;
    row(
        "js_to_fixed",
        &inputs,
        runs,
        each!(qiluvrait_js_to_fixed, Ours<f64>),
        each!(|x| js_to_fixed(x, 3), Rust<f64>),
    );
    row(
        "js_max",
        &inputs,
        runs,
        pairs!(qiluvrait_js_max, extern "C" fn(f64, f64) -> f64),
        pairs!(js_max, fn(f64, f64) -> f64),
    );
    row(
        "frame_at",
        &inputs,
        runs,
        each!(qiluvrait_frame_at, Ours<i64>),
        each!(frame_at, Rust<i64>),
    );
    row(
        "sqrt",
        &inputs,
        runs,
        each!(qiluvrait_sqrt, Ours<f64>),
        each!(f64::sqrt, Rust<f64>),
    );
}
