//! The program `fitlist` over the Rust of voxr: what the proved one is compared with, and timed beside.

use std::process::ExitCode;

fn main() -> ExitCode {
    compare::fitlist()
}
