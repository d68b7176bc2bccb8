//! A contact sheet: pictures of one size in rows, each with a caption above it.

use std::path::Path;
use std::{fs, io};

use crate::files::Gray;
use crate::png;

/// Pixels around and between pictures.
const GAP: usize = 8;

/// The height of a caption.
const CAPTION: usize = 22;

/// Letters are drawn at this many times their size.
const ZOOM: usize = 2;

pub struct Sheet {
    width: usize,
    height: usize,
    columns: usize,
    pictures: Vec<(&'static str, Gray)>,
}

impl Sheet {
    pub fn new(width: usize, height: usize, columns: usize) -> Sheet {
        Sheet { width, height, columns, pictures: Vec::new() }
    }

    pub fn add(&mut self, caption: &'static str, picture: Gray) {
        self.pictures.push((caption, picture));
    }

    pub fn write(&self, path: &Path) -> io::Result<()> {
        let rows = self.pictures.len().div_ceil(self.columns);
        let (step_x, step_y) = (self.width + GAP, CAPTION + self.height + GAP);
        let width = self.columns * step_x + GAP;
        let mut paper = Paper { width, grays: vec![24; width * (rows * step_y + GAP)] };
        for (index, (caption, picture)) in self.pictures.iter().enumerate() {
            let x = GAP + index % self.columns * step_x;
            let y = GAP + index / self.columns * step_y;
            paper.write(caption, x, y);
            paper.paste(&picture.0, self.width, x, y + CAPTION);
        }
        fs::write(path, png::encode(width, &paper.grays))
    }
}

struct Paper {
    width: usize,
    grays: Vec<u8>,
}

impl Paper {
    fn paste(&mut self, picture: &[u8], width: usize, x: usize, y: usize) {
        for (row, cells) in picture.chunks_exact(width).enumerate() {
            let start = (y + row) * self.width + x;
            self.grays[start..start + width].copy_from_slice(cells);
        }
    }

    fn write(&mut self, text: &str, x: usize, y: usize) {
        for (index, letter) in text.chars().enumerate() {
            for (column, dots) in glyph(letter).into_iter().enumerate() {
                for row in (0..8).filter(|row| dots >> row & 1 == 1) {
                    self.dot(x + (6 * index + column) * ZOOM, y + row * ZOOM);
                }
            }
        }
    }

    fn dot(&mut self, x: usize, y: usize) {
        for row in y..y + ZOOM {
            self.grays[row * self.width + x..][..ZOOM].fill(220);
        }
    }
}

/// Five columns of dots, the lowest bit at the top.
fn glyph(letter: char) -> [u8; 5] {
    match letter {
        'a'..='z' => LETTERS[letter as usize - 'a' as usize],
        ',' => [0x00, 0x50, 0x30, 0x00, 0x00],
        _ => [0; 5],
    }
}

const LETTERS: [[u8; 5]; 26] = [
    [0x20, 0x54, 0x54, 0x54, 0x78],
    [0x7F, 0x48, 0x44, 0x44, 0x38],
    [0x38, 0x44, 0x44, 0x44, 0x20],
    [0x38, 0x44, 0x44, 0x48, 0x7F],
    [0x38, 0x54, 0x54, 0x54, 0x18],
    [0x08, 0x7E, 0x09, 0x01, 0x02],
    [0x18, 0xA4, 0xA4, 0xA4, 0x7C],
    [0x7F, 0x08, 0x04, 0x04, 0x78],
    [0x00, 0x44, 0x7D, 0x40, 0x00],
    [0x40, 0x80, 0x84, 0x7D, 0x00],
    [0x7F, 0x10, 0x28, 0x44, 0x00],
    [0x00, 0x41, 0x7F, 0x40, 0x00],
    [0x7C, 0x04, 0x18, 0x04, 0x78],
    [0x7C, 0x08, 0x04, 0x04, 0x78],
    [0x38, 0x44, 0x44, 0x44, 0x38],
    [0xFC, 0x24, 0x24, 0x24, 0x18],
    [0x18, 0x24, 0x24, 0x24, 0xFC],
    [0x7C, 0x08, 0x04, 0x04, 0x08],
    [0x48, 0x54, 0x54, 0x54, 0x20],
    [0x04, 0x3F, 0x44, 0x40, 0x20],
    [0x3C, 0x40, 0x40, 0x20, 0x7C],
    [0x1C, 0x20, 0x40, 0x20, 0x1C],
    [0x3C, 0x40, 0x30, 0x40, 0x3C],
    [0x44, 0x28, 0x10, 0x28, 0x44],
    [0x1C, 0xA0, 0xA0, 0xA0, 0x7C],
    [0x44, 0x64, 0x54, 0x4C, 0x44],
];
