//! Pictures as files and as grays to look at.

use std::fs::File;
use std::io::{self, BufWriter, Write};
use std::path::Path;

/// A picture of 8-bit grays, row by row.
pub struct Gray(pub Vec<u8>);

impl Gray {
    /// Values of twelve bits.
    pub fn of_values(values: &[u16]) -> Gray {
        Gray(values.iter().map(|value| (value >> 4) as u8).collect())
    }

    pub fn of_mattes(mattes: &[u8]) -> Gray {
        Gray(mattes.to_vec())
    }
}

/// Writes a binary PGM: one byte a cell up to a top of 255, else two, the high one first.
pub fn write_pgm(path: &Path, width: usize, top: u16, cells: &[u16]) -> io::Result<()> {
    let mut file = BufWriter::new(File::create(path)?);
    write!(file, "P5\n{width} {}\n{top}\n", cells.len() / width)?;
    for &cell in cells {
        if top < 256 {
            file.write_all(&[cell as u8])?;
        } else {
            file.write_all(&cell.to_be_bytes())?;
        }
    }
    file.flush()
}
