//! The same refusals in every interface: the reference's numbers, the names of `include/lens.h`, the
//! Rust crate's and the table of README.md.
#![cfg(feature = "proved")]

use std::collections::BTreeMap;
use std::fs;

use compare::repository;
use lens::Refusal;
use reference::records::STOPS;
use reference::table::NUMBERS;

/// Names by number.
type Names = BTreeMap<u32, String>;

fn read(file: &str) -> String {
    fs::read_to_string(repository().join(file))
        .unwrap_or_else(|error| panic!("{file}: {error}"))
}

/// `LogFull`, of `LOG_FULL`.
fn joined(name: &str) -> String {
    let part = |part: &str| {
        let (first, rest) = part.split_at(1);
        first.to_string() + &rest.to_lowercase()
    };
    name.split('_').map(part).collect()
}

fn in_header() -> Names {
    let header = read("include/lens.h");
    let rows = header.lines().filter_map(|line| {
        let (name, number) = line.trim().strip_prefix("LENS_REFUSED_")?.split_once(" = ")?;
        let digits = number.split(|letter: char| !letter.is_ascii_digit()).next()?;
        Some((digits.parse().expect("a number"), joined(name)))
    });
    rows.collect()
}

fn in_rust() -> Names {
    let rows = Refusal::KNOWN.iter().map(|refusal| (refusal.number(), format!("{refusal:?}")));
    rows.collect()
}

/// A row of README's table: the number, the name, and what the record program does.
struct Row {
    number: u32,
    name: String,
    records: String,
}

fn in_readme() -> Vec<Row> {
    let readme = read("README.md");
    let section = readme.split("\n## ").find(|section| section.starts_with("Numbers\n"));
    let lines = section.expect("README.md has a section of numbers").lines();
    let rows = lines.filter_map(|line| {
        let cells: Vec<&str> = line.split('|').map(str::trim).collect();
        let number = cells.get(1)?.parse().ok()?;
        let name = cells[2].trim_matches('`').to_string();
        Some(Row { number, name, records: cells[3].to_string() })
    });
    rows.collect()
}

#[test]
fn names_and_numbers() {
    let rust = in_rust();
    assert_eq!(rust.keys().copied().collect::<Vec<_>>(), NUMBERS);
    assert_eq!(in_header(), rust);
    let rows = in_readme();
    let calls = rows.iter().filter(|row| !row.name.is_empty());
    let named: Names = calls.map(|row| (row.number, row.name.clone())).collect();
    assert_eq!(named, rust);
}

/// README's table has each number once, in order: a call's, or one that only stops records.
#[test]
fn readme_has_them_all() {
    let rows = in_readme();
    let told: Vec<u32> = rows.iter().map(|row| row.number).collect();
    let mut all = [&NUMBERS[..], &STOPS[..]].concat();
    all.sort();
    all.dedup();
    assert_eq!(told, all);
    let stopping = rows.iter().filter(|row| row.records == "stops");
    let mut stops = STOPS;
    stops.sort();
    assert_eq!(stopping.map(|row| row.number).collect::<Vec<_>>(), stops);
}

#[test]
fn a_number_without_a_name_is_an_error() {
    for number in (1..100).filter(|number| !NUMBERS.contains(number)) {
        let refusal = Refusal::from_number(number).expect("not 0");
        assert_eq!((refusal, refusal.number()), (Refusal::Other(number), number));
    }
    assert_eq!(Refusal::from_number(0), None);
}
