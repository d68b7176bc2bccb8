//! The record program on a long stream.

use std::env;
use std::fs::{self, File};
use std::path::Path;
use std::process::{Command, Stdio};
use std::time::{Duration, Instant};

/// Bytes of the stream, about.
const STREAM: usize = 10_000_000;

/// How long the program took, and how long its input is.
pub struct Streamed {
    pub time: Duration,
    pub bytes: usize,
}

/// Puts and undos in turn on a plate of 5 × 4 pixels, as raw records.
fn stream() -> Vec<u8> {
    let mut stream = vec![1, 5, 0, 4, 0, 3];
    for turn in (0..=u8::MAX).cycle() {
        if stream.len() >= STREAM {
            break;
        }
        let (x, y, radius) = (turn % 5, turn / 5 % 4, turn % 4);
        stream.extend([2, x, 0, y, 0, turn, turn & 15, 255, 3 + turn % 3, radius]);
        stream.push(3);
    }
    stream
}

/// The best of a few runs by the wall clock, or nothing where there is no program.
pub fn run() -> Option<Streamed> {
    let program = Path::new(env!("CARGO_MANIFEST_DIR"))
        .join("../../crates/lens_records/out/lens_records");
    if !program.is_file() {
        return None;
    }
    let stream = stream();
    let file = env::temp_dir().join(format!("lens_records_{}.bin", std::process::id()));
    fs::write(&file, &stream).expect("the stream can be written");
    let time = (0..5).map(|_| run_once(&program, &file)).min().expect("there are rounds");
    fs::remove_file(&file).expect("the stream can be removed");
    Some(Streamed { time, bytes: stream.len() })
}

fn run_once(program: &Path, input: &Path) -> Duration {
    let input = File::open(input).expect("the stream can be read");
    let start = Instant::now();
    let status = Command::new(program).stdin(input).stdout(Stdio::null()).status();
    let time = start.elapsed();
    assert!(status.expect("the program starts").success(), "the program fails");
    time
}
