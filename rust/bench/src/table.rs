//! Markdown tables.

use std::time::Duration;

pub struct Table<const N: usize> {
    rows: Vec<[String; N]>,
}

impl<const N: usize> Table<N> {
    pub fn new(heads: &[&str; N]) -> Table<N> {
        Table { rows: vec![heads.map(String::from)] }
    }

    pub fn row(&mut self, cells: [String; N]) {
        self.rows.push(cells);
    }

    /// Columns as wide as their widest cell.
    pub fn print(&self) {
        let widths: [usize; N] = std::array::from_fn(|column| {
            self.rows.iter().map(|row| row[column].chars().count()).max().unwrap_or(0)
        });
        for (index, row) in self.rows.iter().enumerate() {
            for (cell, width) in row.iter().zip(widths) {
                print!("| {cell:width$} ");
            }
            println!("|");
            if index == 0 {
                for width in widths {
                    print!("|{}", "-".repeat(width + 2));
                }
                println!("|");
            }
        }
        println!();
    }
}

pub fn ratio(time: Duration, to: Duration) -> String {
    let ratio = time.as_secs_f64() / to.as_secs_f64();
    if ratio < 100.0 { format!("{ratio:.2}") } else { format!("{ratio:.0}") }
}

pub fn milliseconds(time: Duration) -> String {
    format!("{:.2} ms", time.as_secs_f64() * 1e3)
}

pub fn microseconds(time: Duration) -> String {
    format!("{:.2} µs", time.as_secs_f64() * 1e6)
}

pub fn nanoseconds(time: Duration) -> String {
    format!("{:.0} ns", time.as_secs_f64() * 1e9)
}
