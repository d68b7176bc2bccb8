//! How a plate is opened.

use crate::plate::Plate;
use crate::raw;
use crate::refusal::Refusal;

/// What a plate is opened with. [`Plate::builder`] makes one, and [`PlateBuilder::open`] the
/// plate.
///
/// What is not named is the most that the engine has: a reach of 64 pixels, and 65,535 puts
/// that can be undone.
///
/// ```
/// use lens::{Plate, Refusal};
///
/// let plate = Plate::builder(320, 180).reach(16).undo_steps(600).open()?;
/// assert_eq!((plate.width(), plate.height(), plate.reach()), (320, 180, 16));
/// assert_eq!(plate.undo_capacity(), 600);
/// # Ok::<(), Refusal>(())
/// ```
///
/// # Memory
///
/// A plate of width W, height H and reach R works on padded planes of P cells,
/// P = (W + 2 R + 6) × (H + 2 R + 6), and takes, in bytes:
///
/// | buffer | bytes |
/// |---|---|
/// | planes, where the pixels are marked | 14 × P × 8 |
/// | scratch, for show and total | 3 × P × 8 |
/// | pixels | 8 × W × H |
/// | undo log | 8 for each step |
///
/// [`PlateBuilder::bytes`] adds that up. For an image of 1920 × 1080 pixels with the greatest
/// reach and undo log it is 356,236,696 bytes:
///
/// ```
/// # use lens::Plate;
/// assert_eq!(Plate::builder(1_920, 1_080).bytes(), 356_236_696);
/// ```
#[derive(Clone, Copy, Debug)]
#[must_use = "a builder is no plate until it is opened"]
pub struct PlateBuilder {
    width: usize,
    height: usize,
    reach: usize,
    undo_steps: usize,
}

/// How many cells each buffer of a plate has.
pub(crate) struct Lengths {
    pub planes: usize,
    pub scratch: usize,
    pub pixels: usize,
    pub log: usize,
}

impl PlateBuilder {
    pub(crate) fn new(width: usize, height: usize) -> PlateBuilder {
        let (reach, undo_steps) = (Plate::MAX_REACH, Plate::MAX_UNDO_STEPS);
        PlateBuilder { width, height, reach, undo_steps }
    }

    /// How many pixels a kernel may reach to each side, 0 to [`Plate::MAX_REACH`], which it
    /// is where it is not named. It bounds the radii, see
    /// [`Shape::top_radius`](crate::Shape::top_radius).
    pub fn reach(self, reach: usize) -> PlateBuilder {
        PlateBuilder { reach, ..self }
    }

    /// How many puts can be undone, 0 to [`Plate::MAX_UNDO_STEPS`], which it is where it is
    /// not named. A put beyond them is refused, so with none there is only fill.
    pub fn undo_steps(self, undo_steps: usize) -> PlateBuilder {
        PlateBuilder { undo_steps, ..self }
    }

    /// The bytes that [`PlateBuilder::open`] allocates; 0 for what it refuses.
    pub fn bytes(&self) -> usize {
        if self.padded_cells() == 0 || self.undo_steps > Plate::MAX_UNDO_STEPS {
            return 0;
        }
        let Lengths { planes, scratch, pixels, log } = self.lengths();
        (planes + scratch + pixels + log) * size_of::<u64>()
    }

    /// Opens a plate of empty pixels.
    ///
    /// # Errors
    /// [`Refusal::Sizes`] if width or height is not 1 to [`Plate::MAX_SIDE`], their product
    /// above [`Plate::MAX_PIXELS`], or the reach above [`Plate::MAX_REACH`];
    /// [`Refusal::Lengths`] if more than [`Plate::MAX_UNDO_STEPS`] are to be undone.
    pub fn open(&self) -> Result<Plate, Refusal> {
        Plate::over(self.lengths(), self.width, self.height, self.reach)
    }

    /// The buffers' lengths, such that the engine refuses what is to be refused, and little
    /// is allocated for that.
    fn lengths(&self) -> Lengths {
        let cells = self.padded_cells();
        Lengths {
            planes: raw::PLANES * cells,
            scratch: raw::SCRATCH_PLANES * cells,
            pixels: if cells == 0 { 0 } else { self.width * self.height },
            // One more entry than is lawful is refused like any greater number.
            log: self.undo_steps.min(Plate::MAX_UNDO_STEPS + 1),
        }
    }

    /// The cells of a padded plane; 0 for sizes that open refuses.
    fn padded_cells(&self) -> usize {
        let PlateBuilder { width, height, reach, .. } = *self;
        let sides = 1..=Plate::MAX_SIDE;
        let is_lawful = sides.contains(&width)
            && sides.contains(&height)
            && width * height <= Plate::MAX_PIXELS
            && reach <= Plate::MAX_REACH;
        let around = || 2 * (reach + raw::MARGIN);
        if is_lawful { (width + around()) * (height + around()) } else { 0 }
    }
}

#[cfg(test)]
mod tests {
    use super::*;

    #[test]
    fn sizes_and_log_are_judged_by_the_engine() {
        for (width, height, reach) in [
            (0, 1, 0),
            (1, 0, 0),
            (Plate::MAX_SIDE + 1, 1, 0),
            (1, Plate::MAX_SIDE + 1, 0),
            (Plate::MAX_SIDE, Plate::MAX_PIXELS / Plate::MAX_SIDE + 1, 0),
            (1, 1, Plate::MAX_REACH + 1),
            (usize::MAX, 2, 0),
            (1, 1, usize::MAX),
        ] {
            let builder = Plate::builder(width, height).reach(reach).undo_steps(usize::MAX);
            assert_eq!(builder.open().err(), Some(Refusal::Sizes), "{builder:?}");
            assert_eq!(builder.undo_steps(0).bytes(), 0, "{builder:?}");
        }
        for undo_steps in [Plate::MAX_UNDO_STEPS + 1, usize::MAX] {
            let builder = Plate::builder(1, 1).reach(0).undo_steps(undo_steps);
            assert_eq!(builder.open().err(), Some(Refusal::Lengths));
            assert_eq!(builder.bytes(), 0);
        }
    }

    #[test]
    fn the_limits_themselves_are_accepted() {
        for (width, height, reach) in
            [(1, 1, 0), (Plate::MAX_SIDE, 1, 0), (1, Plate::MAX_SIDE, 0), (1, 1, 64)]
        {
            let plate = Plate::builder(width, height).reach(reach).open().unwrap();
            assert_eq!([plate.width(), plate.height()], [width, height]);
            assert_eq!(plate.reach(), reach);
        }
        let most = Plate::MAX_PIXELS / Plate::MAX_SIDE;
        assert_eq!(most * Plate::MAX_SIDE, Plate::MAX_PIXELS);
        assert_ne!(Plate::builder(Plate::MAX_SIDE, most).bytes(), 0);
        assert_eq!(Plate::builder(Plate::MAX_SIDE, most + 1).bytes(), 0);
    }

    #[test]
    fn what_is_not_named_is_the_most() {
        let plate = Plate::builder(2, 3).open().unwrap();
        assert_eq!((plate.reach(), plate.undo_capacity()), (64, 65_535));
        let plate = Plate::builder(2, 3).undo_steps(0).open().unwrap();
        assert_eq!((plate.reach(), plate.undo_capacity()), (64, 0));
        let plate = Plate::builder(2, 3).reach(0).open().unwrap();
        assert_eq!((plate.reach(), plate.undo_capacity()), (0, 65_535));
    }

    #[test]
    fn bytes_are_those_of_the_buffers() {
        for (width, height, reach, undo_steps) in
            [(1, 1, 0, 0), (3, 2, 1, 5), (40, 7, 64, 1), (7, 40, 9, 65_535)]
        {
            let builder = Plate::builder(width, height).reach(reach).undo_steps(undo_steps);
            assert_eq!(builder.bytes(), builder.open().unwrap().buffers_size());
        }
    }

    #[test]
    fn the_documented_memory() {
        let padded = (1_920 + 2 * 64 + 6) * (1_080 + 2 * 64 + 6);
        let bytes = 14 * padded * 8 + 3 * padded * 8 + 8 * 1_920 * 1_080 + 8 * 65_535;
        assert_eq!(bytes, 356_236_696);
        assert_eq!(Plate::builder(1_920, 1_080).bytes(), bytes);
    }
}
