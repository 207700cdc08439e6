//! What is compared of the program: what it prints for job files, with the reference over the Rust. Beside
//! it, programs that are wrong on purpose: each has to be noticed on the same jobs.

use std::io::{self, Write};
use std::path::PathBuf;
use std::process::{self, Command, ExitCode};
use std::sync::atomic::{AtomicUsize, Ordering};
use std::{env, fmt};

use crate::full_rule;
use crate::inputs::Random;
use crate::job::{self, needed};
use crate::jobs::Job;
use crate::process::{Ran, Way, endless, run};
use crate::program::{self, Answer, printed};
use crate::program_kinds;
use crate::program_rule::Test::{self, Counts, Length, Numbers, Offsets, Samples, Texts, Times};
use crate::program_rule::{RIGHT, Reading, Rule};
use crate::recordings::HOP;
use crate::report::{Case, Compared};

/// The program: what `FITLIST` names.
pub fn fitlist() -> Command {
    let path = env::var_os("FITLIST").map(PathBuf::from);
    Command::new(path.expect("FITLIST names the program"))
}

/// How often the program took too long, and how often it may.
static LATE: AtomicUsize = AtomicUsize::new(0);
const MOST_LATE: usize = 10;

/// The one job of document 01, and what it prints.
const EXAMPLE: &str = "piece 0 16000\nword 0000000000000000 3FE0000000000000 -\n";

fn example() -> Job {
    let mut bytes = Vec::new();
    for number in [24u32, 1, 52, 0, 52, 16_000] {
        bytes.extend(number.to_le_bytes());
    }
    for time in [0.0f64, 0.5] {
        bytes.extend(time.to_le_bytes());
    }
    for number in [4u32, 4, 1] {
        bytes.extend(number.to_le_bytes());
    }
    for at in 0..16_000 {
        let sample: f32 = if at < 8000 { 0.5 } else { 0.0 };
        bytes.extend(sample.to_le_bytes());
    }
    let kinds = vec!["document 01's"];
    let way = Way::File;
    Job { bytes, way, kinds }
}

/// What is printed, shortened.
struct Shown<'a>(&'a [u8]);

impl fmt::Display for Shown<'_> {
    fn fmt(&self, f: &mut fmt::Formatter) -> fmt::Result {
        let text = String::from_utf8_lossy(&self.0[..self.0.len().min(80)]);
        write!(f, "{:?} ({} bytes)", text, self.0.len())
    }
}

impl Job {
    /// What a program gets to read, as far as it decides over the answer.
    fn read(&self) -> Vec<u8> {
        match self.way {
            Way::Endless => endless(&self.bytes),
            _ => self.bytes.clone(),
        }
    }

    /// What is wrong with what a program did on this job.
    fn differs(&self, ran: &Ran, read: &[u8], want: &str) -> Option<String> {
        let most = needed(read, job::MOST);
        if ran.is_late {
            return Some("it takes too long".to_string());
        }
        if ran.printed != want.as_bytes() {
            let (ours, want) = (Shown(&ran.printed), Shown(want.as_bytes()));
            return Some(format!("ours {ours}, and it is {want}"));
        }
        if !ran.errors.is_empty() {
            return Some(format!("an error is printed: {}", Shown(&ran.errors)));
        }
        if !ran.status.success() {
            return Some(format!("{}", ran.status));
        }
        (ran.took > most).then(|| format!("it read {} bytes of {most}", ran.took))
    }

    /// Runs the program on this job. One that is late too often ends the comparison.
    fn run(&self) -> Ran {
        let ran = run(fitlist(), &self.bytes, self.way);
        if ran.is_late && LATE.fetch_add(1, Ordering::Relaxed) + 1 == MOST_LATE {
            println!("{MOST_LATE} jobs took too long");
            process::exit(1);
        }
        ran
    }

    /// What a difference is of.
    fn describe(&self, text: String) -> String {
        let (n, kinds) = (self.bytes.len(), self.kinds.join(", "));
        format!("{kinds}, {n} bytes, {:?}: {text}", self.way)
    }

    fn case(&self) -> Case {
        let read = self.read();
        let answer: Answer = program::run(&read);
        let want = printed(&answer);
        let is_second = RIGHT.printed(&read) == want;
        let second = (!is_second).then(|| "the second rule differs".to_string());
        let difference = self.differs(&self.run(), &read, &want).or(second);
        Case {
            reached: program_kinds::reached(&read, self.way, &answer),
            ..Case::new(1, difference.map(|text| self.describe(text)))
        }
    }
}

/// The program beside the reference.
pub struct Program;

impl Compared for Program {
    fn name(&self) -> &str {
        "fitlist"
    }

    fn branches(&self) -> Vec<String> {
        program_kinds::names()
    }

    fn limits(&self) -> Vec<Case> {
        let own = example();
        assert_eq!(printed(&program::run(&own.bytes)), EXAMPLE);
        let limits = Job::limits(&mut Random::new(0, 16));
        limits.iter().chain([&own]).map(Job::case).collect()
    }

    fn random(&self, random: &mut Random) -> Case {
        Job::random(random).case()
    }
}

/// The wrong programs.
pub struct Wrong;

const NUMBERS: [u32; 3] = job::MOST;

/// A word's line.
fn line(start: String, end: String, phrase: Option<u32>) -> String {
    let phrase = phrase.map_or("-".to_string(), |number| number.to_string());
    format!("word {start} {end} {phrase}\n")
}

const WRONG: &[(&str, Rule)] = &[
    (
        "offsets before numbers",
        Rule {
            tests: &[Test::Table, Offsets, Numbers, Length, Counts, Times, Texts],
            ..RIGHT
        },
    ),
    (
        "offsets not tested",
        Rule {
            tests: &[Test::Table, Numbers, Length, Counts, Times, Texts],
            ..RIGHT
        },
    ),
    (
        "times before span counts",
        Rule {
            tests: &[Test::Table, Numbers, Offsets, Length, Times, Counts, Texts],
            ..RIGHT
        },
    ),
    (
        "letters before times",
        Rule {
            tests: &[Test::Table, Numbers, Offsets, Length, Counts, Texts, Times],
            ..RIGHT
        },
    ),
    (
        "times before the length",
        Rule {
            tests: &[Test::Table, Numbers, Offsets, Times, Length, Counts, Texts],
            ..RIGHT
        },
    ),
    (
        "span counts not tested",
        Rule {
            tests: &[Test::Table, Numbers, Offsets, Length, Times, Texts],
            ..RIGHT
        },
    ),
    (
        "a trailing byte ignored",
        Rule {
            is_length: |length, end| length >= end,
            ..RIGHT
        },
    ),
    (
        "a file that is too short taken",
        Rule {
            is_length: |length, end| length <= end,
            ..RIGHT
        },
    ),
    (
        "511 words at the most",
        Rule {
            most: [511, NUMBERS[1], NUMBERS[2]],
            ..RIGHT
        },
    ),
    (
        "65 spans taken",
        Rule {
            most: [NUMBERS[0], 65, NUMBERS[2]],
            ..RIGHT
        },
    ),
    (
        "960,000 samples at the most",
        Rule {
            most: [NUMBERS[0], NUMBERS[1], 960_000],
            ..RIGHT
        },
    ),
    (
        "960,160 samples taken",
        Rule {
            most: [NUMBERS[0], NUMBERS[1], 960_160],
            ..RIGHT
        },
    ),
    (
        "a span count of 4,096 refused",
        Rule {
            most_count: 4095,
            ..RIGHT
        },
    ),
    (
        "NaN times taken",
        Rule {
            is_time: |time| time.is_nan() || (RIGHT.is_time)(time),
            ..RIGHT
        },
    ),
    (
        "times of 7,200 s refused",
        Rule {
            is_time: |time| time.abs() < 7200.0,
            ..RIGHT
        },
    ),
    (
        "negative times refused",
        Rule {
            is_time: |time| (0.0..=7200.0).contains(&time),
            ..RIGHT
        },
    ),
    (
        "no letters taken",
        Rule {
            is_letters: |letters| letters < 1001,
            ..RIGHT
        },
    ),
    (
        "10,000 units refused",
        Rule {
            is_units: |units| units > 0 && units < 10_000,
            ..RIGHT
        },
    ),
    (
        "NaN samples refused",
        Rule {
            tests: &[
                Test::Table,
                Numbers,
                Offsets,
                Length,
                Counts,
                Times,
                Texts,
                Samples,
            ],
            ..RIGHT
        },
    ),
    (
        "NaN samples read as 0",
        Rule {
            sample: |sample| if sample.is_nan() { 0.0 } else { sample },
            ..RIGHT
        },
    ),
    (
        "a duration of whole frames",
        Rule {
            run: full_rule::Rule {
                duration: |samples| (samples / HOP * HOP) as f64 / 16000.0,
                ..full_rule::RIGHT
            },
            ..RIGHT
        },
    ),
    (
        "a last piece of whole frames",
        Rule {
            run: full_rule::Rule {
                last_end: |samples| samples / HOP * HOP,
                ..full_rule::RIGHT
            },
            ..RIGHT
        },
    ),
    (
        "lower-case digits",
        Rule {
            word: |[start, end], phrase| {
                line(format!("{start:016x}"), format!("{end:016x}"), phrase)
            },
            ..RIGHT
        },
    ),
    (
        "digits without leading zeros",
        Rule {
            word: |[start, end], phrase| line(format!("{start:X}"), format!("{end:X}"), phrase),
            ..RIGHT
        },
    ),
    (
        "- for phrase numbers",
        Rule {
            word: |bits, _| (RIGHT.word)(bits, None),
            ..RIGHT
        },
    ),
    (
        "0 for no phrase",
        Rule {
            word: |bits, phrase| (RIGHT.word)(bits, phrase.or(Some(0))),
            ..RIGHT
        },
    ),
    (
        "phrase numbers from 1",
        Rule {
            word: |bits, phrase| (RIGHT.word)(bits, phrase.map(|number| number + 1)),
            ..RIGHT
        },
    ),
    (
        "one digit of phrase numbers",
        Rule {
            word: |bits, phrase| (RIGHT.word)(bits, phrase.map(|number| number % 10)),
            ..RIGHT
        },
    ),
    (
        "words before pieces",
        Rule {
            whole: |pieces, words| words + &pieces,
            ..RIGHT
        },
    ),
    (
        "no line break at the end",
        Rule {
            whole: |pieces, words| (pieces + &words).trim_end().to_string(),
            ..RIGHT
        },
    ),
    (
        "words that were dropped printed",
        Rule {
            all_words: true,
            ..RIGHT
        },
    ),
    (
        "a status of 1 where it refuses",
        Rule {
            refused: ("", 1),
            ..RIGHT
        },
    ),
    (
        "an error where it refuses",
        Rule {
            refused: ("refused\n", 0),
            ..RIGHT
        },
    ),
    (
        "one read alone",
        Rule {
            reading: Reading::Once,
            ..RIGHT
        },
    ),
    (
        "reading to the end",
        Rule {
            reading: Reading::ToTheEnd,
            ..RIGHT
        },
    ),
    (
        "odd bytes of a read dropped",
        Rule {
            reading: Reading::Fours,
            ..RIGHT
        },
    ),
];

/// Runs the wrong program of this number.
pub fn run_wrong(at: usize) -> ExitCode {
    let (_, rule) = &WRONG[at];
    let job = rule.read().unwrap();
    io::stdout()
        .write_all(rule.printed(&job).as_bytes())
        .unwrap();
    if rule.refusal(&job).is_none() {
        return ExitCode::SUCCESS;
    }
    let (error, status) = rule.refused;
    eprint!("{error}");
    ExitCode::from(status)
}

/// The command of the wrong program of this number.
fn wrong(at: usize) -> Command {
    let mut command = Command::new(env::current_exe().unwrap());
    command.args(["wrong-program", &at.to_string()]);
    command
}

impl Compared for Wrong {
    fn name(&self) -> &str {
        "fitlist_planted"
    }

    fn weight(&self) -> u64 {
        100
    }

    fn branches(&self) -> Vec<String> {
        WRONG.iter().map(|(name, _)| name.to_string()).collect()
    }

    fn enough(&self) -> u64 {
        1000
    }

    fn limits(&self) -> Vec<Case> {
        Vec::new()
    }

    fn random(&self, random: &mut Random) -> Case {
        let job = Job::random(random);
        let read = job.read();
        let want = printed(&program::run(&read));
        let mut case = Case::new(WRONG.len(), None);
        for at in 0..WRONG.len() {
            let ran = run(wrong(at), &job.bytes, job.way);
            let differs = job.differs(&ran, &read, &want);
            case.reached.add(at, differs.is_some());
        }
        case
    }
}
