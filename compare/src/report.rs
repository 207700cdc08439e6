//! Runs a comparison over every core, and prints what it found.

use std::sync::Mutex;
use std::sync::atomic::{AtomicU64, Ordering};
use std::thread;

use crate::inputs::Random;

/// What a case found: how many things it compared, the first of them that differs, and which
/// branches it reached.
pub struct Case {
    pub compared: u64,
    pub difference: Option<String>,
    pub reached: Reached,
}

impl Case {
    pub fn new(compared: usize, difference: Option<String>) -> Case {
        Case {
            compared: compared as u64,
            difference,
            reached: Reached::default(),
        }
    }
}

/// Branches that were reached: a bit for each, by its place in `Compared::branches`.
#[derive(Clone, Copy, Default)]
pub struct Reached(u128);

impl Reached {
    /// Adds a branch where `yes` says so.
    pub fn add(&mut self, branch: usize, yes: bool) {
        self.0 |= u128::from(yes) << branch;
    }

    fn has(self, branch: usize) -> bool {
        self.0 >> branch & 1 == 1
    }
}

/// What is compared, case by case.
pub trait Compared: Sync {
    fn name(&self) -> &str;
    /// The limit cases, each once.
    fn limits(&self) -> Vec<Case>;
    /// One case that the generator draws.
    fn random(&self, random: &mut Random) -> Case;
    /// A case stands for so many cases of a function of numbers.
    fn weight(&self) -> u64 {
        1
    }
    /// What the random cases have to reach, each at least once.
    fn branches(&self) -> Vec<String> {
        Vec::new()
    }
    /// So many random cases, or more, have to reach every branch.
    fn enough(&self) -> u64 {
        10_000
    }
}

/// The random cases come in this many parts, each with a generator of its own, so that they are
/// the same on every number of cores.
const PARTS: u64 = 256;
/// So many differences are printed.
const SHOWN: usize = 5;

#[derive(Default)]
struct Found {
    cases: u64,
    compared: u64,
    differences: u64,
    /// The first differences, with the place of each: the part, and the case in it.
    shown: Vec<(u64, u64, String)>,
    /// How many random cases reached each branch.
    reached: Vec<u64>,
}

impl Found {
    fn new(entry: &dyn Compared) -> Found {
        Found {
            reached: vec![0; entry.branches().len()],
            ..Found::default()
        }
    }

    fn case(&mut self, part: u64, case: Case) {
        self.cases += 1;
        self.compared += case.compared;
        if part > 0 {
            for (branch, count) in self.reached.iter_mut().enumerate() {
                *count += u64::from(case.reached.has(branch));
            }
        }
        let Some(text) = case.difference else { return };
        self.differences += 1;
        if self.shown.len() < SHOWN {
            self.shown.push((part, self.cases, text));
        }
    }

    fn join(&mut self, other: Found) {
        self.cases += other.cases;
        self.compared += other.compared;
        self.differences += other.differences;
        for (count, more) in self.reached.iter_mut().zip(other.reached) {
            *count += more;
        }
        self.shown.extend(other.shown);
        self.shown.sort();
        self.shown.truncate(SHOWN);
    }
}

fn part(entry: &dyn Compared, seed: u64, cases: u64, part: u64) -> Found {
    let mut found = Found::new(entry);
    let mut random = Random::new(seed, part);
    for _ in 0..cases / PARTS + u64::from(part <= cases % PARTS) {
        found.case(part, entry.random(&mut random));
    }
    found
}

/// Prints how many of the random cases reached each branch, and answers whether each was reached,
/// or the cases are too few for that.
fn print_reached(entry: &dyn Compared, reached: &[u64], cases: u64) -> bool {
    for (name, count) in entry.branches().iter().zip(reached) {
        let missed = if *count > 0 { "" } else { ": NOT REACHED" };
        println!("    {count:>12} {name}{missed}");
    }
    cases < entry.enough() || reached.iter().all(|&count| count > 0)
}

/// Compares the limit cases and the random ones. Prints a line, and one for each branch, and says
/// whether all agree and every branch was reached.
pub fn compare(entry: &dyn Compared, seed: u64, cases: u64) -> bool {
    let cases = cases.div_ceil(entry.weight());
    let mut limits = Found::new(entry);
    for case in entry.limits() {
        limits.case(0, case);
    }
    let found = Mutex::new(limits);
    let next = AtomicU64::new(1);
    thread::scope(|scope| {
        for _ in 0..thread::available_parallelism().map_or(1, usize::from) {
            scope.spawn(|| {
                loop {
                    let at = next.fetch_add(1, Ordering::Relaxed);
                    if at > PARTS {
                        break;
                    }
                    let more = part(entry, seed, cases, at);
                    found.lock().unwrap().join(more);
                }
            });
        }
    });
    let found = found.into_inner().unwrap();
    println!(
        "{:<22} {:>12} compared {:>12} different",
        entry.name(),
        found.compared,
        found.differences
    );
    for (_, _, text) in &found.shown {
        println!("    {text}");
    }
    print_reached(entry, &found.reached, cases) && found.differences == 0
}
