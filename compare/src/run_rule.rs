//! The rule of the last run, written a second time with its numbers open. It tells which branches a
//! search reaches, and it can be made wrong on purpose (src/planted.rs).

use crate::report::Reached;
use crate::transcript::envelope::{Envelope, frame_from_zero, frame_seconds};

/// What the rule goes by.
#[derive(Clone, Copy)]
pub struct Rule {
    /// A run goes back over so many quiet frames.
    pub bridged: i64,
    /// A run counts whose last frame lies so many behind its first.
    pub min_run: i64,
}

/// The rule of fit.rs.
pub const RIGHT: Rule = Rule {
    bridged: 15,
    min_run: 3,
};

/// The branches, by their names.
pub const BRANCHES: &[&str] = &[
    "a run found",
    "no loud frame",
    "a run under 4 frames",
    "a run of 4 frames",
    "a run stopped by 16 quiet frames",
    "a run that reached the start",
    "14 quiet frames bridged",
    "15 quiet frames bridged",
    "16 quiet frames not bridged",
    "no frame between the times",
    "a time before zero",
    "a time past the sound",
    "times reversed",
    "7,200 s among the times",
    "a floor that is NaN",
];

const FOUND: usize = 0;
const NO_LOUD: usize = 1;
const SHORT: usize = 2;
const LEAST: usize = 3;
const STOPPED: usize = 4;
const AT_START: usize = 5;
const BRIDGED_14: usize = 6;
const BRIDGED_15: usize = 7;
const NOT_BRIDGED: usize = 8;
const NO_FRAME: usize = 9;
const BEFORE: usize = 10;
const PAST: usize = 11;
const REVERSED: usize = 12;
const FAR: usize = 13;
const NAN: usize = 14;

/// Where a run starts and ends, in seconds, or no sound.
pub type Found = Option<(f64, f64)>;

/// Notes what there is to a search as it is given.
fn look(heard: &Envelope, from: f64, to: f64, reached: &mut Reached) {
    let first = frame_from_zero(from);
    let past = heard.frames().min(frame_from_zero(to));
    reached.add(NO_FRAME, first >= past);
    reached.add(BEFORE, from < 0.0 || to < 0.0);
    reached.add(PAST, frame_from_zero(to) > heard.frames());
    reached.add(REVERSED, to < from);
    reached.add(FAR, from.abs() == 7200.0 || to.abs() == 7200.0);
    reached.add(NAN, heard.floor.is_nan());
}

impl Rule {
    /// The run, and what was reached.
    pub fn last_run(&self, heard: &Envelope, from: f64, to: f64) -> (Found, Reached) {
        let mut reached = Reached::default();
        look(heard, from, to, &mut reached);
        let first = frame_from_zero(from);
        let frames = first..heard.frames().min(frame_from_zero(to));
        let mut loud = frames.rev().filter(|&frame| heard.loud(frame));
        let Some(end) = loud.next() else {
            reached.add(NO_LOUD, true);
            return (None, reached);
        };
        let mut start = end;
        for frame in loud {
            let quiet = start - frame - 1;
            reached.add(NOT_BRIDGED, quiet == 16);
            if quiet > self.bridged {
                break;
            }
            reached.add(BRIDGED_14, quiet == 14);
            reached.add(BRIDGED_15, quiet == 15);
            start = frame;
        }
        let stopped = start - first > self.bridged;
        reached.add(STOPPED, stopped);
        reached.add(AT_START, !stopped);
        reached.add(SHORT, end - start < self.min_run);
        reached.add(LEAST, end - start == self.min_run);
        if end - start < self.min_run {
            return (None, reached);
        }
        reached.add(FOUND, true);
        let times = (frame_seconds(start), frame_seconds(end + 1));
        (Some(times), reached)
    }
}
