//! What the comparisons in `tests/` stand on: engines behind one trait, buffers between
//! guard cells, calls made at random, all that a call is lent, a list of calls held against the
//! notebook, with what it keeps beside its plate, a plate for calls made one by one, and a count
//! of the numbers that calls got.

pub mod c;
pub mod engine;
pub mod guard;
mod keeping;
pub mod lent;
pub mod list;
pub mod numbers;
pub mod plate;
pub mod random;
pub mod step;

use std::io::Write;
use std::path::{Path, PathBuf};

/// Prints a line even where the test harness holds back what passing tests print.
pub fn say(line: &str) {
    writeln!(std::io::stderr(), "{line}").expect("standard error can be written");
}

/// The folder of the repository, above this workspace.
pub fn repository() -> PathBuf {
    Path::new(env!("CARGO_MANIFEST_DIR")).join("../..")
}
