//! Shapes, weights, and the marks of a pixel.

use crate::layout::Layout;
use crate::word::Pixel;

const SHAPES: usize = 6;
const TOP: usize = 64;

/// The marks of a kernel by shape: those of its taps, and four of its centre.
pub(crate) const MARKS: [u32; SHAPES] = [8, 13, 20, 12, 16, 16];

const TOPS: [usize; SHAPES] = [TOP, 8, 3, TOP, TOP, TOP];
pub(crate) const BOXES: [usize; SHAPES] = [1, 2, 3, 1, 1, 1];

pub(crate) fn is_shape(shape: u8) -> bool {
    usize::from(shape) < SHAPES
}

/// The greatest radius of a shape on a plate of this reach.
pub(crate) fn top_under(shape: u8, reach: usize) -> usize {
    TOPS[usize::from(shape)].min(reach / BOXES[usize::from(shape)])
}

/// What all of a kernel weighs.
const WHOLE: u32 = 8_388_608;

/// What a kernel weighs for each tap, and what its centre weighs besides, so that nothing
/// is lost by rounding the share down.
#[derive(Clone, Copy)]
struct Weights {
    share: u32,
    rest: u32,
}

/// The weights by shape and radius, 0 above the shape's top.
static WEIGHTS: [[Weights; TOP + 1]; SHAPES] = weights();

const fn weights() -> [[Weights; TOP + 1]; SHAPES] {
    let mut weights = [[Weights { share: 0, rest: 0 }; TOP + 1]; SHAPES];
    let mut shape = 0;
    while shape < SHAPES {
        let mut radius = 0;
        while radius <= TOPS[shape] {
            let area = area(shape, radius as u32);
            weights[shape][radius] = Weights { share: WHOLE / area, rest: WHOLE % area };
            radius += 1;
        }
        shape += 1;
    }
    weights
}

/// The sum of all taps: a power of the box's side, or the heights of all columns.
const fn area(shape: usize, r: u32) -> u32 {
    let side = 2 * r + 1;
    if shape < 3 {
        return side.pow(2 * BOXES[shape] as u32);
    }
    let t = r / 2;
    let mut area = 0;
    let mut column = 0;
    while column < side {
        let dx = column.abs_diff(r);
        let height = match shape {
            3 => r - dx,
            4 => min(2 * t, 2 * (r - dx)),
            _ => min(r, r + t - dx),
        };
        area += 2 * height + 1;
        column += 1;
    }
    area
}

const fn min(a: u32, b: u32) -> u32 {
    if a < b { a } else { b }
}

/// What a mark of factor 1 is worth.
#[derive(Clone, Copy)]
pub(crate) struct Worth {
    pub light: u64,
    pub matte: u64,
}

impl Worth {
    #[inline]
    fn of(pixel: Pixel, weight: u32) -> Worth {
        let matte = u64::from(pixel.opacity) * u64::from(weight);
        Worth { light: matte * u64::from(pixel.value), matte }
    }

    fn negated(self) -> Worth {
        self.times(-1)
    }

    #[inline]
    pub fn plus(self, other: Worth) -> Worth {
        Worth {
            light: self.light.wrapping_add(other.light),
            matte: self.matte.wrapping_add(other.matte),
        }
    }

    #[inline]
    pub fn times(self, factor: i64) -> Worth {
        let factor = factor as u64;
        Worth { light: self.light.wrapping_mul(factor), matte: self.matte.wrapping_mul(factor) }
    }
}

/// What a pixel adds for each of its taps, and besides at its centre: the worth of the marks
/// of the one and of the other.
#[derive(Clone, Copy)]
pub(crate) struct Worths {
    pub taps: Worth,
    pub centre: Worth,
}

impl Worths {
    #[inline]
    pub fn of(pixel: Pixel) -> Worths {
        let weights = WEIGHTS[usize::from(pixel.shape)][usize::from(pixel.radius)];
        Worths { taps: Worth::of(pixel, weights.share), centre: Worth::of(pixel, weights.rest) }
    }

    pub fn negated(self) -> Worths {
        Worths { taps: self.taps.negated(), centre: self.centre.negated() }
    }
}

/// The planes of one channel, light or matte: slope d is 2 + d.
const LEVEL: usize = 2;
const SECOND: usize = 5;
const THIRD: usize = 6;
const CHANNEL: usize = 7;

/// Lays the marks of a pixel whose cell is `centre`.
pub(crate) fn lay(
    planes: &mut [u64],
    layout: Layout,
    centre: usize,
    pixel: Pixel,
    worths: Worths,
) {
    let mut pen = Pen { planes, layout, centre };
    match pixel.shape {
        0 => pen.lay::<0>(pixel.radius, worths),
        1 => pen.lay::<1>(pixel.radius, worths),
        2 => pen.lay::<2>(pixel.radius, worths),
        3 => pen.lay::<3>(pixel.radius, worths),
        4 => pen.lay::<4>(pixel.radius, worths),
        _ => pen.lay::<5>(pixel.radius, worths),
    }
}

/// The outline of a shape whose columns rise, stay level and fall.
struct Outline {
    /// Rows per sloping column.
    slope: isize,
    /// The half-height of the first column, at -r.
    edge: isize,
    /// How many columns rise.
    rise: isize,
    r: isize,
}

/// Lays marks around one cell.
pub(crate) struct Pen<'a> {
    pub planes: &'a mut [u64],
    pub layout: Layout,
    pub centre: usize,
}

impl Pen<'_> {
    /// The shape is known where this is compiled, so that the loop over all pixels of a
    /// fill has straight code for it.
    #[inline]
    pub fn lay<const SHAPE: u8>(&mut self, radius: u8, worths: Worths) {
        let r = radius as isize;
        let t = r / 2;
        let taps = worths.taps;
        match SHAPE {
            0 => self.boxes(LEVEL, r, [1, -1], taps),
            1 => self.boxes(SECOND, r, [1, -2, 1], taps),
            2 => self.boxes(THIRD, r, [1, -3, 3, -1], taps),
            3 => self.outline(Outline { slope: 1, edge: 0, rise: r, r }, false, taps),
            4 => self.outline(Outline { slope: 2, edge: 0, rise: t, r }, true, taps),
            _ => self.outline(Outline { slope: 1, edge: t, rise: r - t, r }, true, taps),
        }
        // The centre is a box of one cell.
        self.boxes(LEVEL, 0, [1, -1], worths.centre);
    }

    /// N - 1 boxes convolved: a grid of N × N marks.
    #[inline]
    fn boxes<const N: usize>(
        &mut self,
        plane: usize,
        r: isize,
        factors: [i64; N],
        worth: Worth,
    ) {
        let first = -(N as isize - 1) * r;
        let step = 2 * r + 1;
        for (j, down) in factors.into_iter().enumerate() {
            for (i, across) in factors.into_iter().enumerate() {
                let column = first + i as isize * step;
                let row = first + j as isize * step;
                self.mark(plane, column, row, worth.times(down * across));
            }
        }
    }

    /// The top line counts plus. The bottom line counts minus and is the top line upside
    /// down, the row y at 1 - y.
    #[inline]
    fn outline(&mut self, outline: Outline, level: bool, worth: Worth) {
        let Outline { slope, edge, rise, r } = outline;
        let (left, right) = (rise - r, r - rise);
        let (start, top) = (-edge, -edge - slope * rise);
        let end = top + slope * (rise + 1);
        let [up, down] = [2 - slope as usize, 2 + slope as usize];
        for (sign, rising, falling, flip) in [(1, up, down, false), (-1, down, up, true)] {
            let (opens, closes) = (worth.times(sign), worth.times(-sign));
            let row = |y: isize| if flip { 1 - y } else { y };
            self.mark(rising, -r, row(start), opens);
            self.mark(rising, left, row(top), closes);
            if level {
                self.mark(LEVEL, left, row(top), opens);
                self.mark(LEVEL, right, row(top), closes);
            }
            self.mark(falling, right, row(top), opens);
            self.mark(falling, r + 1, row(end), closes);
        }
    }

    #[inline]
    fn mark(&mut self, plane: usize, column: isize, row: isize, worth: Worth) {
        let offset = row * self.layout.stride as isize + column;
        let cell = plane * self.layout.cells + self.centre.wrapping_add_signed(offset);
        let matte_cell = cell + CHANNEL * self.layout.cells;
        debug_assert!(matte_cell < self.planes.len());
        // Safety: every call has checked that there are 14 padded planes and that the
        // kernel reaches no farther than the plate's reach; its marks are then at most
        // three cells farther out, inside the padding.
        unsafe {
            add(self.planes.get_unchecked_mut(cell), worth.light);
            add(self.planes.get_unchecked_mut(matte_cell), worth.matte);
        }
    }
}

#[inline]
fn add(cell: &mut u64, worth: u64) {
    *cell = cell.wrapping_add(worth);
}
