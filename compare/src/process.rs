//! Runs a program on a job that comes by its standard input, and holds it to what it may read and how
//! long it may take.

use std::cell::RefCell;
use std::fs::{self, File};
use std::io::{self, PipeReader, PipeWriter, Read, Seek, Write};
use std::process::{Child, Command, ExitStatus};
use std::sync::{Arc, Mutex, Once};
use std::time::{Duration, Instant};
use std::{env, process, thread};

use crate::inputs::Random;
use crate::job::{MOST, TABLE, needed};

/// A program that runs for longer is killed.
const LIMIT: Duration = Duration::from_secs(10);
/// An endless input ends this far behind what the program has to read: a pipe holds less.
const BEHIND: usize = 1 << 20;
/// Parts of an input are no more than this.
const PARTS: usize = 64;

/// How a job comes to the program.
#[derive(Clone, Copy, PartialEq, Debug)]
pub enum Way {
    File,
    Pipe,
    /// By a pipe, in parts of sizes that are drawn from this seed.
    Parts(u64),
    /// By a pipe that is never closed: behind the job, its bytes come again and again, or zeros.
    Endless,
}

/// What a program did.
pub struct Ran {
    pub printed: Vec<u8>,
    /// What it printed as an error.
    pub errors: Vec<u8>,
    pub status: ExitStatus,
    pub is_late: bool,
    /// How many bytes it took, as far as that can be told.
    pub took: usize,
}

/// The processes that run, and since when.
static RUNNING: Mutex<Vec<(Instant, Arc<Mutex<Child>>)>> = Mutex::new(Vec::new());

/// Kills each process that runs for too long.
fn watch() {
    loop {
        thread::sleep(Duration::from_millis(200));
        for (since, child) in RUNNING.lock().unwrap().iter() {
            if since.elapsed() > LIMIT {
                child.lock().unwrap().kill().unwrap();
            }
        }
    }
}

thread_local! {
    /// A file of this thread, without a name.
    static FILE: RefCell<File> = RefCell::new(file());
}

fn file() -> File {
    let name = format!("compare-{}-{:?}", process::id(), thread::current().id());
    let path = env::temp_dir().join(name);
    let options = File::options()
        .read(true)
        .write(true)
        .create_new(true)
        .clone();
    let file = options.open(&path).unwrap();
    fs::remove_file(&path).unwrap();
    file
}

/// A file of this thread that holds these bytes.
pub fn holding(bytes: &[u8]) -> File {
    FILE.with_borrow_mut(|file| {
        file.set_len(0).unwrap();
        file.rewind().unwrap();
        file.write_all(bytes).unwrap();
        file.rewind().unwrap();
        file.try_clone().unwrap()
    })
}

/// The sizes of parts: around those of the table, a word, a span, a sample, a frame and a page.
const SIZES: [usize; 18] = [
    1, 2, 3, 5, 7, 20, 23, 24, 25, 27, 28, 29, 639, 641, 4095, 4097, 8191, 65_535,
];

/// Writes a job in parts. What is read of a pipe at once is no more than is in it: so it waits.
fn write_parts(pipe: &mut PipeWriter, job: &[u8], seed: u64) -> io::Result<()> {
    let mut random = Random::new(seed, 0);
    let least = job.len() / PARTS;
    let mut rest = job;
    while !rest.is_empty() {
        let size = random
            .of(&SIZES)
            .max(random.below(least as u64 + 1) as usize);
        let (part, more) = rest.split_at(size.min(rest.len()));
        pipe.write_all(part)?;
        match random.below(8) {
            0 => thread::sleep(Duration::from_micros(50)),
            _ => thread::yield_now(),
        }
        rest = more;
    }
    Ok(())
}

/// Writes a job, and goes on with it. Answers how many bytes were written at last.
fn write_on(pipe: &mut PipeWriter, job: &[u8]) -> usize {
    let again = if job.is_empty() { &[0; 4096][..] } else { job };
    let most = needed(&endless(job), MOST) + BEHIND;
    let mut written = 0;
    for bytes in std::iter::once(job).chain(std::iter::repeat(again)) {
        if pipe.write_all(bytes).is_err() || written > most {
            break;
        }
        written += bytes.len();
    }
    written
}

/// The first bytes of an endless input: as many as decide over its answer.
pub fn endless(job: &[u8]) -> Vec<u8> {
    let again = if job.is_empty() { &[0][..] } else { job };
    let first = |n: usize| again.iter().copied().cycle().take(n).collect::<Vec<u8>>();
    first(needed(&first(TABLE), MOST))
}

/// Gives the job to a program by a pipe. Answers how many bytes it took for sure.
fn give(mut pipe: PipeWriter, job: &[u8], way: Way) -> usize {
    match way {
        Way::Parts(seed) => {
            // a program may end before it has read all
            let _ = write_parts(&mut pipe, job, seed);
            0
        }
        Way::Endless => write_on(&mut pipe, job).saturating_sub(BEHIND),
        _ => {
            let _ = pipe.write_all(job);
            0
        }
    }
}

/// Waits for a process that printed all.
fn status(child: &Mutex<Child>) -> ExitStatus {
    loop {
        if let Some(status) = child.lock().unwrap().try_wait().unwrap() {
            return status;
        }
        thread::sleep(Duration::from_micros(20));
    }
}

fn all(mut pipe: PipeReader) -> Vec<u8> {
    let mut bytes = Vec::new();
    pipe.read_to_end(&mut bytes).unwrap();
    bytes
}

/// Runs a program on a job.
pub fn run(mut command: Command, job: &[u8], way: Way) -> Ran {
    static WATCHED: Once = Once::new();
    WATCHED.call_once(|| drop(thread::spawn(watch)));
    let (out, out_end) = io::pipe().unwrap();
    let (err, err_end) = io::pipe().unwrap();
    let mut pipe = None;
    let mut file = None;
    if way == Way::File {
        let lent = holding(job);
        command.stdin(lent.try_clone().unwrap());
        file = Some(lent);
    } else {
        let (input, end) = io::pipe().unwrap();
        command.stdin(input);
        pipe = Some(end);
    }
    let child = command.stdout(out_end).stderr(err_end).spawn().unwrap();
    // its own ends of the pipes stay with the command
    drop(command);
    let (since, child) = (Instant::now(), Arc::new(Mutex::new(child)));
    RUNNING.lock().unwrap().push((since, child.clone()));
    let took = pipe.map_or(0, |pipe| give(pipe, job, way));
    let (printed, errors) = (all(out), all(err));
    let status = status(&child);
    RUNNING
        .lock()
        .unwrap()
        .retain(|(_, other)| !Arc::ptr_eq(other, &child));
    Ran {
        printed,
        errors,
        status,
        is_late: since.elapsed() > LIMIT,
        took: file.map_or(took, |mut file| file.stream_position().unwrap() as usize),
    }
}
