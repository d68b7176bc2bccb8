//! Refresh under the brush: the sums and pictures that a painter keeps beside a plate, and
//! how one changed pixel mends them.

use crate::kernel::Kernel;
use crate::pixel::Pixel;
use crate::rounding::{shown_matte, shown_value};
use crate::spread::{Sum, worth};

/// What the second form of a call is lent: 2 × W × H sums, all light ones by place, then all
/// matte ones, and the two pictures.
#[derive(Debug)]
pub struct Kept<'a> {
    pub sums: &'a mut [u64],
    pub values: &'a mut [u16],
    pub mattes: &'a mut [u8],
}

/// How long they are.
#[derive(Clone, Copy, Debug, PartialEq, Eq)]
pub struct KeptLengths {
    pub sums: usize,
    pub values: usize,
    pub mattes: usize,
}

impl KeptLengths {
    /// The right ones for a plate of so many image cells.
    pub fn of(cells: usize) -> KeptLengths {
        KeptLengths { sums: 2 * cells, values: cells, mattes: cells }
    }
}

/// One pixel exchanged for another.
#[derive(Clone, Copy, Debug)]
pub struct Change {
    pub place: usize,
    pub old: Pixel,
    pub new: Pixel,
}

impl Kept<'_> {
    pub fn lengths(&self) -> KeptLengths {
        let Kept { sums, values, mattes } = self;
        KeptLengths { sums: sums.len(), values: values.len(), mattes: mattes.len() }
    }

    /// Rounds one cell of the pictures from its two sums.
    pub fn round(&mut self, cell: usize) {
        let (light, matte) = (self.sums[cell], self.sums[self.values.len() + cell]);
        self.values[cell] = shown_value(light, matte);
        self.mattes[cell] = shown_matte(matte);
    }

    /// Mends the cells in reach of the old or of the new kernel, on a plate of this width:
    /// the kept sum less what the old pixel gave the cell and plus what the new one gives,
    /// wrapped; the pictures there rounded from it. No other cell is written.
    pub fn mend(&mut self, width: usize, change: Change) {
        let Change { place, old, new } = change;
        let cells = self.values.len();
        for cell in 0..cells {
            let dx = (cell % width) as i64 - (place % width) as i64;
            let dy = (cell / width) as i64 - (place / width) as i64;
            if in_reach(old, dx, dy) || in_reach(new, dx, dy) {
                let (less, plus) = (given(old, dx, dy), given(new, dx, dy));
                exchange(&mut self.sums[cell], less.light, plus.light);
                exchange(&mut self.sums[cells + cell], less.matte, plus.matte);
                self.round(cell);
            }
        }
    }
}

/// Whether a pixel's kernel has a tap other than 0 there, seen from the pixel. Its opacity
/// does not matter: the empty pixel has its own cell in reach.
fn in_reach(pixel: Pixel, dx: i64, dy: i64) -> bool {
    kernel_of(pixel).tap(dx, dy) != 0
}

/// What a pixel gives the cell there.
fn given(pixel: Pixel, dx: i64, dy: i64) -> Sum {
    worth(pixel, kernel_of(pixel).weight(dx, dy))
}

fn kernel_of(pixel: Pixel) -> &'static Kernel {
    Kernel::of(pixel.shape, usize::from(pixel.radius))
}

fn exchange(sum: &mut u64, less: u64, plus: u64) {
    *sum = sum.wrapping_sub(less).wrapping_add(plus);
}

#[cfg(test)]
mod tests {
    use super::*;
    use crate::kernel::{Shape, WHOLE};

    /// A tent's corner taps weigh something, but a pixel of opacity 0 gives nothing anywhere:
    /// its cells are in reach all the same, and rounded.
    #[test]
    fn reach_goes_by_taps() {
        let clear = Pixel { value: 9, opacity: 0, shape: Shape::Tent, radius: 1 };
        assert!(in_reach(clear, 2, -2) && !in_reach(clear, 3, 0));
        assert!(in_reach(Pixel::EMPTY, 0, 0) && !in_reach(Pixel::EMPTY, 1, 0));
        assert_eq!(given(clear, 0, 0), Sum::default());
    }

    #[test]
    fn a_mended_sum_wraps() {
        let (mut sums, mut values, mut mattes) = ([5, 7, 5, WHOLE], [1, 1], [1, 1]);
        let mut kept = Kept { sums: &mut sums, values: &mut values, mattes: &mut mattes };
        let old = Pixel { value: 2, opacity: 1, shape: Shape::Box, radius: 0 };
        kept.mend(2, Change { place: 1, old, new: Pixel::EMPTY });
        assert_eq!(sums, [5, 7u64.wrapping_sub(2 * WHOLE), 5, 0]);
        assert_eq!((values, mattes), ([1, 0], [1, 0]));
    }
}
