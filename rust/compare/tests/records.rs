//! The record program on byte strings, against the reference's text.
//!
//! The program is crates/lens_records/out/lens_records, or what `LENS_RECORDS` names;
//! where it is not there, the comparison fails.
#![cfg(feature = "proved")]

use std::env;
use std::fs::{self, File};
use std::io::{self, ErrorKind, Read, Write};
use std::path::{Path, PathBuf};
use std::process::{Command, Output, Stdio};
use std::thread;

use compare::random::Random;
use compare::{repository, say};
use reference::records::text;

const STRINGS: usize = 1_500;

/// Bytes of a long stream: the program reads at most 65,536 at a time, so about a hundred
/// times.
const STREAM: usize = 6_500_000;

fn program() -> PathBuf {
    let built = repository().join("crates/lens_records/out/lens_records");
    let program = env::var_os("LENS_RECORDS").map_or(built, PathBuf::from);
    assert!(
        program.is_file(),
        "no {}: build it by `rt run` in crates/lens_records, or name another in LENS_RECORDS",
        program.display(),
    );
    program
}

/// Runs the program on an input that is written in parts of these sizes: its text, and
/// whether all of the input could be written. It must have nothing to complain of.
fn run(program: &Path, input: &[u8], sizes: &[usize]) -> (String, io::Result<()>) {
    let mut child = Command::new(program)
        .stdin(Stdio::piped())
        .stdout(Stdio::piped())
        .stderr(Stdio::piped())
        .spawn()
        .unwrap_or_else(|error| panic!("{} does not start: {error}", program.display()));
    let mut stdin = child.stdin.take().expect("piped");
    let (output, written) = thread::scope(|scope| {
        let writer = scope.spawn(move || {
            let mut rest = input;
            sizes.iter().try_for_each(|&size| {
                let (part, after) = rest.split_at(size);
                rest = after;
                stdin.write_all(part)
            })
        });
        let output = child.wait_with_output().expect("the program ends");
        (output, writer.join().expect("the writer ends"))
    });
    assert!(output.status.success(), "the program failed: {}", output.status);
    assert_eq!(String::from_utf8_lossy(&output.stderr), "");
    (String::from_utf8(output.stdout).expect("the text is plain"), written)
}

/// The paper's example, and its examples of 13 to 16.
fn examples() -> Vec<Vec<u8>> {
    let shown = [
        0x01, 0x03, 0x00, 0x01, 0x00, 0x01, 0x02, 0x01, 0x00, 0x00, 0x00, 0x64, 0x00, 0xFF,
        0x00, 0x01, 0x02, 0x00, 0x00, 0x00, 0x00, 0x28, 0x00, 0xFF, 0x00, 0x00, 0x04, 0x03,
        0x04,
    ];
    vec![
        vec![],
        shown.to_vec(),
        vec![0x09],
        vec![0x02, 0x01],
        vec![0x04],
        open(20, 20, 0),
        [open(3, 1, 1), open(3, 1, 1)].concat(),
        open(0, 1, 0),
    ]
}

fn open(width: u16, height: u16, reach: u8) -> Vec<u8> {
    let mut record = vec![1];
    record.extend(width.to_le_bytes());
    record.extend(height.to_le_bytes());
    record.push(reach);
    record
}

/// A string of records, mostly lawful; then perhaps cut, or with a byte changed.
fn random_string(random: &mut Random) -> Vec<u8> {
    if random.once_in(10) {
        let length = random.below(40);
        return (0..length).map(|_| random.below(8) as u8).collect();
    }
    let reach = random.below(7);
    // P is at most 512: sides of 22 cells, or one longer and one shorter.
    let margins = 2 * reach + 6;
    let width = random.within(1, (512 / (margins + 1) - margins).min(30));
    let height = random.within(1, 512 / (margins + width) - margins);
    let mut string = match random.below(20) {
        0 => open(width as u16, (height + 40) as u16, reach as u8),
        1 => open(random.pick(&[0, 1, 4_096, 4_097, 65_535]), 1, random.pick(&[0, 7, 65])),
        2 => Vec::new(),
        _ => open(width as u16, height as u16, reach as u8),
    };
    // Sometimes enough puts to fill the log.
    let records = if random.once_in(10) { 100 } else { random.below(30) };
    for _ in 0..records {
        match random.below(10) {
            0..6 => string.extend(put(width, height, reach, random)),
            6..8 => string.push(3),
            _ => string.push(4),
        }
    }
    if random.once_in(5) {
        string.truncate(random.below(string.len() + 1));
    }
    if !string.is_empty() && random.once_in(5) {
        let at = random.below(string.len());
        string[at] = random.bits() as u8;
    }
    string
}

/// A long stream: puts and undos, and a show once in so many records.
fn stream(shown_once_in: usize, random: &mut Random) -> Vec<u8> {
    let mut stream = open(5, 4, 3);
    while stream.len() < STREAM {
        match random.below(2) {
            _ if random.once_in(shown_once_in) => stream.push(4),
            0 => stream.extend(put(5, 4, 3, random)),
            _ => stream.push(3),
        }
    }
    stream
}

/// Cuts an input anywhere: parts of one byte, of a few, and of more than a pipe holds.
fn cut(input: &[u8], random: &mut Random) -> Vec<usize> {
    let mut sizes = Vec::new();
    let mut left = input.len();
    while left > 0 {
        let most = if random.once_in(40) { 200_000 } else { random.pick(&[1, 30, 2_000]) };
        let size = random.within(1, most).min(left);
        sizes.push(size);
        left -= size;
    }
    sizes
}

/// A plate of 256 pixels, and shows of it in few bytes of input.
fn shows(count: usize, random: &mut Random) -> Vec<u8> {
    let mut input = open(16, 16, 0);
    for _ in 0..60 {
        input.extend(put(16, 16, 0, random));
    }
    input.extend(vec![4; count]);
    input
}

fn put(width: usize, height: usize, reach: usize, random: &mut Random) -> Vec<u8> {
    let inside = |end: usize, random: &mut Random| {
        if random.once_in(12) { random.bits() as u16 } else { random.below(end) as u16 }
    };
    let mut record = vec![2];
    record.extend(inside(width, random).to_le_bytes());
    record.extend(inside(height, random).to_le_bytes());
    record.extend(inside(4_096, random).to_le_bytes());
    record.push(random.bits() as u8);
    record.push(inside(6, random) as u8);
    record.push(inside(reach + 1, random) as u8);
    record
}

#[test]
fn texts_agree() {
    let program = program();
    let random = &mut Random::new(51);
    let mut strings = examples();
    strings.extend((0..STRINGS).map(|_| random_string(random)));
    let (mut count, mut lines, mut stopped) = (0, 0, 0);
    for string in strings {
        let expected = text(&string);
        // A run that stops early leaves the rest of its input unread, and the pipe may break.
        let (told, _) = run(&program, &string, &[string.len()]);
        assert_eq!(told, expected, "on {string:02x?}");
        count += 1;
        lines += expected.lines().count();
        stopped += usize::from(expected.contains("stopped"));
    }
    say(&format!("records: {count} byte strings, {stopped} stopped, {lines} lines compared"));
}

/// A text of many megabytes, held against the reference's.
fn assert_same(told: &str, expected: &str, which: &str) {
    if told == expected {
        return;
    }
    let at = told.bytes().zip(expected.bytes()).take_while(|(one, other)| one == other).count();
    let near = |text: &str| text[at.min(text.len())..text.len().min(at + 40)].to_string();
    panic!(
        "{which}: {} bytes of text for {}; from byte {at} on {:?} for {:?}",
        told.len(),
        expected.len(),
        near(told),
        near(expected),
    );
}

/// Streams that take the program many reads, and texts that fill its buffer many times.
#[test]
fn streams_agree() {
    let program = program();
    let random = &mut Random::new(52);
    let whole = [
        ("a stream with many shows", stream(8, random)),
        ("a stream with few shows", stream(3_000, random)),
        ("shows in few bytes", shows(15_000, random)),
    ];
    for (which, input) in whole {
        let expected = text(&input);
        for sizes in [cut(&input, random), vec![input.len()]] {
            let (told, written) = run(&program, &input, &sizes);
            assert_same(&told, &expected, which);
            written.unwrap_or_else(|error| panic!("{which}: not all was read: {error}"));
            let (bytes, parts) = (input.len(), sizes.len());
            say(&format!(
                "records: {which}: {bytes} bytes in {parts} parts, {} of text",
                told.len()
            ));
        }
    }
    stopped_stream_agrees(&program, random);
}

/// A stream that stops early: the program ends, and the pipe breaks.
fn stopped_stream_agrees(program: &Path, random: &mut Random) {
    let mut input = stream(8, random);
    let third = STREAM / 3;
    // The longest record has ten bytes, so one of these is a kind.
    input[third..third + 10].fill(9);
    let expected = text(&input);
    assert!(expected.contains("stopped 13"), "the stream does not stop");
    let (told, written) = run(program, &input, &cut(&input, random));
    assert_same(&told, &expected, "a stream that stops");
    let error = written.expect_err("what comes after a stop is not read");
    assert_eq!(error.kind(), ErrorKind::BrokenPipe);
    say(&format!("records: a stream that stops: {} of text", told.len()));
}

/// What the program writes, to standard output and standard error, between these streams.
fn ended(input: Stdio, output: Stdio) -> Output {
    let mut command = Command::new(program());
    command.stdin(input).stdout(output).stderr(Stdio::piped());
    command.spawn().and_then(|child| child.wait_with_output()).expect("the program ends")
}

fn example_input() -> Stdio {
    let file = repository().join("crates/lens_records/stdin");
    File::open(file).expect("the example's input").into()
}

/// A run that a failed read or write cuts short has no last line, and says so on standard error.
#[test]
fn a_run_cut_short_is_told() {
    // A folder can be opened, and not read.
    let folder = File::open(repository()).expect("the repository's folder");
    let unread = ended(folder.into(), Stdio::piped());
    assert_eq!(unread.stdout, b"");
    let said = "lens_records: cannot read standard input, so the run is cut short\n";
    assert_eq!(String::from_utf8_lossy(&unread.stderr), said);

    let full = File::options().write(true).open("/dev/full").expect("the full device");
    let unwritten = ended(example_input(), full.into());
    let said = "lens_records: cannot write standard output, so the text is cut short\n";
    assert_eq!(String::from_utf8_lossy(&unwritten.stderr), said);

    // It has no exit status of its own.
    assert!(unread.status.success() && unwritten.status.success());
}

/// A reader that goes away is a write that fails: the toolchain's programs take no SIGPIPE.
#[test]
fn a_reader_that_goes_away() {
    let input = shows(15_000, &mut Random::new(53));
    let mut child = Command::new(program())
        .stdin(Stdio::piped())
        .stdout(Stdio::piped())
        .stderr(Stdio::piped())
        .spawn()
        .expect("the program starts");
    let mut stdin = child.stdin.take().expect("piped");
    let writer = thread::spawn(move || stdin.write_all(&input));
    let mut stdout = child.stdout.take().expect("piped");
    stdout.read_exact(&mut [0; 100]).expect("the first bytes of the text");
    drop(stdout);
    let ended = child.wait_with_output().expect("the program ends");
    let said = "lens_records: cannot write standard output, so the text is cut short\n";
    assert_eq!(String::from_utf8_lossy(&ended.stderr), said);
    assert!(ended.status.success());
    // All of the input may have been read before.
    let _ = writer.join().expect("the writer ends");
}

/// The example of README.md, typed as it stands there.
#[test]
fn readme_shows_what_it_prints() {
    let readme = fs::read_to_string(repository().join("README.md")).expect("README.md");
    let mut lines = readme.lines().skip_while(|line| !line.starts_with("    printf "));
    let typed = lines.next().expect("README.md has an example of records").trim();
    let printed: String = lines
        .map_while(|line| line.strip_prefix("    "))
        .map(|line| format!("{line}\n"))
        .collect();
    let typed = typed
        .replace("crates/lens_records/out/lens_records", program().to_str().expect("plain"));
    let output = Command::new("sh").args(["-c", &typed]).output().expect("sh starts");
    assert_eq!(String::from_utf8_lossy(&output.stdout), printed);
    assert!(printed.ends_with("done 6\n"));
}

/// The cases that the program `records_cases` runs, each with its name.
///
/// A line that starts with # names a case; below it stand the bytes of its input, two
/// hexadecimal digits each.
fn cases() -> Vec<(String, Vec<u8>)> {
    let file = repository().join("crates/records_cases/stdin");
    let listed = fs::read_to_string(file).expect("the cases can be read");
    let mut cases: Vec<(String, Vec<u8>)> = Vec::new();
    for line in listed.lines() {
        if line.starts_with('#') {
            cases.push((line.to_string(), Vec::new()));
            continue;
        }
        let (_, input) = cases.last_mut().expect("a case starts with its name");
        let digits: String = line.split(' ').collect();
        let bytes = (0..digits.len()).step_by(2).map(|at| &digits[at..at + 2]);
        input.extend(bytes.map(|byte| u8::from_str_radix(byte, 16).expect("two digits")));
    }
    cases
}

/// What the gate holds `records_cases` to is the reference's text, not the engine's.
#[test]
fn cases_agree() {
    let cases = cases();
    let told: String =
        cases.iter().map(|(name, input)| format!("{name}\n{}", text(input))).collect();
    let file = repository().join("crates/records_cases/stdout");
    assert_eq!(told, fs::read_to_string(file).expect("the texts can be read"));
    say(&format!("records: the texts of {} cases are the reference's", cases.len()));
}
