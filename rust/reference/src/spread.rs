//! The plain pictures of a grid: every pixel spread tap by tap.

use std::ops::Range;

use crate::kernel::{Kernel, WHOLE};
use crate::pixel::Pixel;
use crate::rounding::{shown_matte, shown_value};

/// W × H pixels, row by row.
#[derive(Clone, Debug, PartialEq, Eq)]
pub struct Grid {
    pub width: usize,
    pub height: usize,
    pub pixels: Vec<Pixel>,
}

impl Grid {
    pub fn empty(width: usize, height: usize) -> Grid {
        Grid { width, height, pixels: vec![Pixel::EMPTY; width * height] }
    }

    /// Each pixel with its x and y.
    pub fn places(&self) -> impl Iterator<Item = (usize, usize, Pixel)> {
        self.pixels
            .iter()
            .enumerate()
            .map(|(place, &pixel)| (place % self.width, place / self.width, pixel))
    }
}

/// What show gives, W × H cells each, row by row.
#[derive(Clone, Debug, PartialEq, Eq)]
pub struct Pictures {
    pub values: Vec<u16>,
    pub mattes: Vec<u8>,
}

/// At each image cell, the sums of all that the pixels add there, rounded.
pub fn pictures(grid: &Grid) -> Pictures {
    let sums = spread_all(grid);
    Pictures {
        values: sums.iter().map(|sum| shown_value(sum.light, sum.matte)).collect(),
        mattes: sums.iter().map(|sum| shown_matte(sum.matte)).collect(),
    }
}

/// These sums themselves: all light ones by place, then all matte ones.
pub fn sums(grid: &Grid) -> Vec<u64> {
    let sums = spread_all(grid);
    let light = sums.iter().map(|sum| sum.light);
    light.chain(sums.iter().map(|sum| sum.matte)).collect()
}

fn spread_all(grid: &Grid) -> Vec<Sum> {
    let mut sums = vec![Sum::default(); grid.pixels.len()];
    for (x, y, pixel) in grid.places() {
        spread(pixel, x, y, grid.width, grid.height, &mut sums);
    }
    sums
}

/// The light and the matte of a cell, or of a whole plate. Neither can overflow: at most 2^21
/// pixels add at most 255 × 2^23 each, in light 4,095 times that.
#[derive(Clone, Copy, Debug, Default, PartialEq, Eq)]
pub struct Sum {
    pub light: u64,
    pub matte: u64,
}

/// All that the pixels give, on the image or beside it: 8,388,608 times the sum of their
/// opacities, and times the sum of opacity times value. Neither can overflow.
pub fn total(grid: &Grid) -> Sum {
    let times_whole = |given: fn(Pixel) -> u64| {
        let sum: u128 = grid.pixels.iter().map(|&pixel| u128::from(given(pixel))).sum();
        u64::try_from(u128::from(WHOLE) * sum).expect("no plate gives more than 64 bits hold")
    };
    Sum {
        light: times_whole(|pixel| u64::from(pixel.opacity) * u64::from(pixel.value)),
        matte: times_whole(|pixel| u64::from(pixel.opacity)),
    }
}

/// Adds one pixel's kernel to the cells of the image that it reaches: the share for each
/// tap, and the rest at the centre, which is the pixel's own cell.
fn spread(pixel: Pixel, x: usize, y: usize, width: usize, height: usize, sums: &mut [Sum]) {
    let kernel = Kernel::of(pixel.shape, usize::from(pixel.radius));
    let share = worth(pixel, kernel.share());
    let (left, top) = (x as i64 - kernel.reach(), y as i64 - kernel.reach());
    let columns = inside(left, x as i64 + kernel.reach(), width);
    for row in inside(top, y as i64 + kernel.reach(), height) {
        let cells = &mut sums[row * width..][columns.clone()];
        let taps = &kernel.row(row as i64 - y as i64)[(columns.start as i64 - left) as usize..];
        for (cell, tap) in cells.iter_mut().zip(taps) {
            cell.matte += share.matte * tap;
            cell.light += share.light * tap;
        }
    }
    let rest = worth(pixel, kernel.rest());
    let centre = &mut sums[y * width + x];
    centre.matte += rest.matte;
    centre.light += rest.light;
}

/// What a pixel adds to a cell where its kernel weighs this much.
pub(crate) fn worth(pixel: Pixel, weight: u64) -> Sum {
    let matte = u64::from(pixel.opacity) * weight;
    Sum { light: u64::from(pixel.value) * matte, matte }
}

/// The part of first ..= last that is inside 0 .. end.
fn inside(first: i64, last: i64, end: usize) -> Range<usize> {
    first.max(0) as usize..(last + 1).min(end as i64) as usize
}

#[cfg(test)]
mod tests {
    use super::*;
    use crate::kernel::SHAPES;

    /// The middle cell of a flat layer that has the kernel's square on the plate.
    fn middle_shown(pixel: Pixel) -> (u16, u8) {
        let reach = Kernel::of(pixel.shape, usize::from(pixel.radius)).reach() as usize;
        let side = 2 * reach + 1;
        let pixels = vec![pixel; side * side];
        let shown = pictures(&Grid { width: side, height: side, pixels });
        let middle = reach * side + reach;
        (shown.values[middle], shown.mattes[middle])
    }

    #[test]
    fn a_flat_layer_stays_flat() {
        for shape in SHAPES {
            for radius in 0..=shape.top_under(16) as u8 {
                for (value, opacity) in [(4_095, 255), (1_000, 254), (1, 1)] {
                    let shown = middle_shown(Pixel { value, opacity, shape, radius });
                    assert_eq!(shown, (value, opacity), "{shape:?} {radius}");
                }
            }
        }
    }
}
