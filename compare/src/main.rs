//! Compares this library with the Rust of voxr, bit for bit, and times both. See README.md.

use std::process::ExitCode;

fn main() -> ExitCode {
    compare::compare_all()
}
