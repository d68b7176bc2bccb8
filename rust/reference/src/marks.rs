//! The marks of a grid, and the sums that turn planes of marks into pictures.
//!
//! The sums here are the paper's definitions, cell by cell. They serve only for
//! planes that no list of calls makes; the pictures of a grid come from [`crate::spread`].

use std::sync::OnceLock;

use crate::kernel::{Kernel, SHAPES, Shape, TOP};
use crate::pixel::Pixel;
use crate::spread::Grid;

/// Planes of one channel, light or matte: slopes −2, −1, 0, 1, 2, second box, third box.
pub const PLANES: usize = 7;
const SECOND: usize = 5;
const THIRD: usize = 6;

/// The plane of a slope from −2 to 2.
pub fn plane_of_slope(slope: i64) -> usize {
    (slope + 2) as usize
}

/// The padded planes of a plate. Cells go row by row.
#[derive(Clone, Copy, Debug)]
pub struct Layout {
    columns: usize,
    rows: usize,
    /// The column and row where the image starts.
    margin: usize,
}

impl Layout {
    pub fn of(width: usize, height: usize, reach: usize) -> Layout {
        Layout {
            columns: width + 2 * reach + 6,
            rows: height + 2 * reach + 6,
            margin: reach + 3,
        }
    }

    /// P, the cells of one plane.
    pub fn cells(self) -> usize {
        self.columns * self.rows
    }

    /// The cell of a plane where the image starts.
    pub fn first(self) -> usize {
        self.margin * self.columns + self.margin
    }

    /// All planes of both channels.
    pub fn all_planes(self) -> usize {
        2 * PLANES * self.cells()
    }
}

/// A mark, seen from its pixel.
#[derive(Clone, Copy, Debug, PartialEq, Eq)]
pub struct Mark {
    pub plane: usize,
    pub column: i64,
    pub row: i64,
    /// Its sign or factor, times the kernel's share, or times its rest for the centre's.
    pub coefficient: i64,
}

/// The marks of a kernel. Each kernel's are made once.
pub fn marks_of(shape: Shape, radius: usize) -> &'static [Mark] {
    static MARKS: [[OnceLock<Vec<Mark>>; TOP + 1]; SHAPES.len()] =
        [const { [const { OnceLock::new() }; TOP + 1] }; SHAPES.len()];
    MARKS[usize::from(shape.number())][radius].get_or_init(|| make_marks(shape, radius))
}

/// The marks of the taps, each times the share, and those of a box of radius 0 at the
/// centre, each times the rest.
fn make_marks(shape: Shape, radius: usize) -> Vec<Mark> {
    let kernel = Kernel::of(shape, radius);
    let taps = scaled(tap_marks(shape, radius), kernel.share());
    let centre = scaled(box_marks(1, 0, plane_of_slope(0)), kernel.rest());
    [taps, centre].concat()
}

fn scaled(mut marks: Vec<Mark>, part: u64) -> Vec<Mark> {
    for mark in &mut marks {
        mark.coefficient *= part as i64;
    }
    marks
}

/// The marks of the taps, with their signs or factors alone.
fn tap_marks(shape: Shape, radius: usize) -> Vec<Mark> {
    let r = radius as i64;
    let t = r / 2;
    match shape {
        Shape::Box => box_marks(1, r, plane_of_slope(0)),
        Shape::Tent => box_marks(2, r, SECOND),
        Shape::Triple => box_marks(3, r, THIRD),
        Shape::Diamond => line_marks(r, &[-1, 1], |dx| r - dx.abs()),
        Shape::Hexagon => line_marks(r, &[-2, 0, 2], |dx| (2 * t).min(2 * (r - dx.abs()))),
        Shape::Octagon => line_marks(r, &[-1, 0, 1], |dx| r.min(r + t - dx.abs())),
    }
}

/// Along each axis marks at −n r + i(2r + 1), i from 0 to n, with factor (−1)^i times n over i.
fn box_marks(n: i64, r: i64, plane: usize) -> Vec<Mark> {
    let axis: Vec<(i64, i64)> = (0..=n)
        .map(|i| {
            let sign = if i % 2 == 0 { 1 } else { -1 };
            (-n * r + i * (2 * r + 1), sign * n_over_i(n, i))
        })
        .collect();
    let mut marks = Vec::new();
    for &(row, down) in &axis {
        for &(column, across) in &axis {
            marks.push(Mark { plane, column, row, coefficient: down * across });
        }
    }
    marks
}

fn n_over_i(n: i64, i: i64) -> i64 {
    (0..i).fold(1, |product, k| product * (n - k) / (k + 1))
}

/// The two lines of a shape whose taps run from −h to h in each column: the top
/// line −h counts plus, the line h + 1 minus. `slopes` are the top line's pieces.
fn line_marks(r: i64, slopes: &[i64], height: impl Fn(i64) -> i64) -> Vec<Mark> {
    let top = pieces(r, slopes, |dx| -height(dx));
    let down: Vec<i64> = slopes.iter().map(|slope| -slope).collect();
    let bottom = pieces(r, &down, |dx| height(dx) + 1);
    let mut marks = Vec::new();
    for (line, sign) in [(top, 1), (bottom, -1)] {
        for piece in line {
            marks.extend(piece.marks(sign));
        }
    }
    marks
}

/// A piece of a line: where it starts, its slope, and how many columns it has.
#[derive(Clone, Copy)]
struct Piece {
    slope: i64,
    column: i64,
    row: i64,
    columns: i64,
}

impl Piece {
    /// A mark at its start and the opposite one a step past its last column.
    fn marks(self, sign: i64) -> [Mark; 2] {
        let plane = plane_of_slope(self.slope);
        [
            Mark { plane, column: self.column, row: self.row, coefficient: sign },
            Mark {
                plane,
                column: self.column + self.columns,
                row: self.row + self.columns * self.slope,
                coefficient: -sign,
            },
        ]
    }
}

/// Shares a line's columns −r to r out among pieces of the given slopes.
///
/// The first piece lies on the straight line through the line's left end, the last
/// on that through its right end, one between them on that through its middle. A
/// column that two pieces fit goes to the later one.
fn pieces(r: i64, slopes: &[i64], row: impl Fn(i64) -> i64) -> Vec<Piece> {
    let last = slopes.len() - 1;
    let fits = |piece: usize, dx: i64| {
        let anchor = match piece {
            0 => -r,
            p if p == last => r,
            _ => 0,
        };
        row(dx) == row(anchor) + (dx - anchor) * slopes[piece]
    };
    let mut pieces = Vec::new();
    let mut column = -r;
    for (piece, &slope) in slopes.iter().enumerate() {
        let columns = (-r..=r)
            .filter(|&dx| (0..=last).rev().find(|&p| fits(p, dx)) == Some(piece))
            .count() as i64;
        // Beyond the right end there is no row; the last piece is never empty, so
        // an empty piece always stands on a column.
        pieces.push(Piece { slope, column, row: row(column), columns });
        column += columns;
    }
    assert_eq!(column, r + 1, "every column belongs to one piece");
    pieces
}

/// Adds a pixel's marks, `times` times: 1 lays them, −1 takes them off.
pub fn lay(planes: &mut [u64], layout: Layout, x: usize, y: usize, pixel: Pixel, times: i64) {
    let matte = u64::from(pixel.opacity);
    let light = matte * u64::from(pixel.value);
    for mark in marks_of(pixel.shape, usize::from(pixel.radius)) {
        let column = (x + layout.margin) as i64 + mark.column;
        let row = (y + layout.margin) as i64 + mark.row;
        let cell = row as usize * layout.columns + column as usize;
        let coefficient = (times * mark.coefficient) as u64;
        for (plane, worth) in [(mark.plane, light), (mark.plane + PLANES, matte)] {
            let cell = &mut planes[plane * layout.cells() + cell];
            *cell = cell.wrapping_add(coefficient.wrapping_mul(worth));
        }
    }
}

/// At each cell of the 14 planes, the sum, wrapped, of all marks that the pixels lay there.
pub fn marks_of_grid(grid: &Grid, reach: usize) -> Vec<u64> {
    let layout = Layout::of(grid.width, grid.height, reach);
    let mut planes = vec![0; layout.all_planes()];
    for (x, y, pixel) in grid.places() {
        lay(&mut planes, layout, x, y, pixel, 1);
    }
    planes
}

/// The finished sums of one channel's seven planes, at the image cells.
pub fn finished(planes: &[u64], layout: Layout) -> Vec<u64> {
    let padded = finished_padded(planes, layout);
    let mut image = Vec::new();
    for row in layout.margin..layout.rows - layout.margin {
        let start = row * layout.columns;
        image.extend_from_slice(
            &padded[start + layout.margin..start + layout.columns - layout.margin],
        );
    }
    image
}

/// These sums at every cell of the padded plane.
pub fn finished_padded(planes: &[u64], layout: Layout) -> Vec<u64> {
    let plane = |index: usize| planes[index * layout.cells()..][..layout.cells()].to_vec();
    let summed = |plane: &[u64]| down_sum(&slope_sum(plane, 0, layout), layout);
    let second = added(&plane(SECOND), &summed(&plane(THIRD)));
    let level = added(&plane(plane_of_slope(0)), &summed(&second));
    let mut total = slope_sum(&level, 0, layout);
    for slope in [-2, -1, 1, 2] {
        let sum = slope_sum(&plane(plane_of_slope(slope)), slope, layout);
        total = added(&total, &sum);
    }
    down_sum(&total, layout)
}

fn added(first: &[u64], second: &[u64]) -> Vec<u64> {
    first.iter().zip(second).map(|(a, b)| a.wrapping_add(*b)).collect()
}

/// Slope sum d: each cell plus the summed cell one column left and d rows up, 0 outside.
fn slope_sum(plane: &[u64], slope: i64, layout: Layout) -> Vec<u64> {
    let mut sum = plane.to_vec();
    for column in 1..layout.columns {
        for row in 0..layout.rows {
            let from = row as i64 - slope;
            if (0..layout.rows as i64).contains(&from) {
                let left = sum[from as usize * layout.columns + column - 1];
                let cell = &mut sum[row * layout.columns + column];
                *cell = cell.wrapping_add(left);
            }
        }
    }
    sum
}

/// Each cell plus the summed cell above it.
fn down_sum(plane: &[u64], layout: Layout) -> Vec<u64> {
    let mut sum = plane.to_vec();
    for cell in layout.columns..layout.cells() {
        sum[cell] = sum[cell].wrapping_add(sum[cell - layout.columns]);
    }
    sum
}

#[cfg(test)]
mod tests {
    use super::*;
    use crate::kernel::WHOLE;

    #[test]
    fn every_kernel_makes_the_marks_of_the_table() {
        for shape in SHAPES {
            for radius in 0..=shape.top() {
                let marks = marks_of(shape, radius);
                assert_eq!(marks.len(), shape.marks() as usize, "{shape:?} {radius}");
            }
        }
    }

    /// The marks of every kernel, summed, are its weights, and these add up to the whole.
    #[test]
    fn marks_sum_to_weights() {
        for shape in SHAPES {
            for radius in 0..=shape.top() {
                let kernel = Kernel::of(shape, radius);
                let reach = kernel.reach() as usize;
                let side = 2 * reach + 1;
                let layout = Layout::of(side, side, reach);
                let mut planes = vec![0; layout.all_planes()];
                let pixel = Pixel { value: 1, opacity: 1, shape, radius: radius as u8 };
                lay(&mut planes, layout, reach, reach, pixel, 1);
                let sums = finished(&planes[PLANES * layout.cells()..], layout);
                for (place, sum) in sums.iter().enumerate() {
                    let dx = (place % side) as i64 - kernel.reach();
                    let dy = (place / side) as i64 - kernel.reach();
                    let weight = kernel.weight(dx, dy);
                    assert_eq!(*sum, weight, "{shape:?} {radius} at {dx}, {dy}");
                }
                assert_eq!(sums.iter().sum::<u64>(), WHOLE, "{shape:?} {radius}");
            }
        }
    }
}
