//! The record program's text for a byte string.

use std::fmt::Write;

use crate::marks::Layout;
use crate::notebook::{Notebook, Report};
use crate::table::sizes_outside;
use crate::{Put, State};

/// Entries of the record program's log.
const LOG: usize = 64;

/// The greatest P of the record program's plate.
const TOP_CELLS: usize = 512;

/// The numbers that stop a run, in the order in which they are checked. After any other the run
/// goes on.
pub const STOPS: [u32; 5] = [13, 14, 15, 1, 16];

enum Record {
    Open { width: usize, height: usize, reach: usize },
    Put(Put),
    Undo,
    Show,
}

/// What the record program writes when these bytes are its standard input.
pub fn text(mut input: &[u8]) -> String {
    let mut text = String::new();
    let mut notebook = None;
    let mut count = 0;
    while !input.is_empty() {
        count += 1;
        let done =
            take_record(&mut input).and_then(|record| run(record, &mut notebook, &mut text));
        if let Err(number) = done {
            if STOPS.contains(&number) {
                writeln!(text, "stopped {number} at {count}").unwrap();
                return text;
            }
            writeln!(text, "refused {number} at {count}").unwrap();
        }
    }
    writeln!(text, "done {count}").unwrap();
    text
}

/// Takes one record off the input, or tells the number that there is none with: 13 or 14.
fn take_record(input: &mut &[u8]) -> Result<Record, u32> {
    let (&kind, rest) = input.split_first().expect("a record has a kind");
    let length = match kind {
        1 => 5,
        2 => 9,
        3 | 4 => 0,
        _ => return Err(13),
    };
    let (body, rest) = rest.split_at_checked(length).ok_or(14u32)?;
    *input = rest;
    let two = |at: usize| u16::from_le_bytes([body[at], body[at + 1]]);
    Ok(match kind {
        1 => {
            Record::Open { width: two(0).into(), height: two(2).into(), reach: body[4].into() }
        }
        2 => Record::Put(Put {
            x: two(0).into(),
            y: two(2).into(),
            value: two(4),
            opacity: body[6],
            shape: body[7],
            radius: body[8],
        }),
        3 => Record::Undo,
        _ => Record::Show,
    })
}

/// Runs one record, or tells the number that it is refused by.
fn run(record: Record, notebook: &mut Option<Notebook>, text: &mut String) -> Result<(), u32> {
    match (record, notebook.as_mut()) {
        (Record::Open { width, height, reach }, None) => {
            *notebook = Some(open(width, height, reach)?);
            Ok(())
        }
        (Record::Open { .. }, Some(_)) | (_, None) => Err(15),
        (Record::Put(put), Some(notebook)) => accepted(notebook.put(put)),
        (Record::Undo, Some(notebook)) => accepted(notebook.undo()),
        (Record::Show, Some(notebook)) => {
            print_plate(notebook, text);
            Ok(())
        }
    }
}

fn accepted(report: Report) -> Result<(), u32> {
    if report.number == 0 { Ok(()) } else { Err(report.number) }
}

fn open(width: usize, height: usize, reach: usize) -> Result<Notebook, u32> {
    if sizes_outside(State { width, height, reach, count: 0 }) {
        return Err(1);
    }
    if Layout::of(width, height, reach).cells() > TOP_CELLS {
        return Err(16);
    }
    Ok(Notebook::open(width, height, reach, LOG))
}

fn print_plate(notebook: &Notebook, text: &mut String) {
    let (width, height) = (notebook.grid.width, notebook.grid.height);
    let pictures = crate::spread::pictures(&notebook.grid);
    writeln!(text, "plate {width} {height}").unwrap();
    for row in 0..height {
        let cells: Vec<String> = (row * width..(row + 1) * width)
            .map(|place| format!("{}/{}", pictures.values[place], pictures.mattes[place]))
            .collect();
        writeln!(text, "{}", cells.join(" ")).unwrap();
    }
}

#[cfg(test)]
mod tests {
    use super::*;

    #[test]
    fn the_example_of_the_paper() {
        let input = [
            0x01, 0x03, 0x00, 0x01, 0x00, 0x01, 0x02, 0x01, 0x00, 0x00, 0x00, 0x64, 0x00, 0xFF,
            0x00, 0x01, 0x02, 0x00, 0x00, 0x00, 0x00, 0x28, 0x00, 0xFF, 0x00, 0x00, 0x04, 0x03,
            0x04,
        ];
        let shown = "plate 3 1\n46/255 100/28 100/28\n\
                     plate 3 1\n100/28 100/28 100/28\n\
                     done 6\n";
        assert_eq!(text(&input), shown);
    }

    #[test]
    fn the_table_of_refusals() {
        assert_eq!(text(&[]), "done 0\n");
        assert_eq!(text(&[0x09]), "stopped 13 at 1\n");
        assert_eq!(text(&[0x02, 0x01]), "stopped 14 at 1\n");
        assert_eq!(text(&[0x04]), "stopped 15 at 1\n");
        assert_eq!(text(&[1, 20, 0, 20, 0, 0]), "stopped 16 at 1\n");
        assert_eq!(text(&[1, 0, 0, 1, 0, 0]), "stopped 1 at 1\n");
        assert_eq!(text(&[1, 1, 0, 1, 0, 0, 3]), "refused 9 at 2\ndone 2\n");
        assert_eq!(text(&[1, 1, 0, 1, 0, 0, 1, 1, 0, 1, 0, 0]), "stopped 15 at 2\n");
    }
}
