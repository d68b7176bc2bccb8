//! A plate with its pictures kept under the brush.

use std::fmt;

use crate::pixel::Pixel;
use crate::plate::{Layer, Pictures, Plate, Totals};
use crate::raw::Lens;
use crate::refusal::Refusal;
use crate::shape::Shape;

/// A plate that is painted on, together with its pictures. After every call the pictures are
/// those of the pixels that stand there now, and a put or an undo does no more for that than
/// mend the cells which the old or the new kernel covers.
///
/// [`Plate::paint`] makes one, and [`Canvas::into_plate`] hands the plate back. In between the
/// plate can be changed through the canvas only, so what is kept never falls behind. A canvas
/// takes 19 bytes a pixel besides what its plate takes.
///
/// Like a plate it is [`Send`] and [`Sync`], and a clone copies all of it: for 1920 × 1080
/// pixels with the greatest reach and undo log 395,635,096 bytes.
///
/// ```
/// use lens::{Pixel, Plate, Refusal, Shape};
///
/// let plate = Plate::builder(3, 1).reach(1).undo_steps(2).open()?;
/// let mut canvas = plate.paint()?;
/// canvas.put(1, 0, Pixel { value: 100, opacity: 255, shape: Shape::Box, radius: 1 })?;
/// assert_eq!(canvas.pictures().mattes, [28, 28, 28]);
/// canvas.put(0, 0, Pixel { value: 40, opacity: 255, shape: Shape::Box, radius: 0 })?;
/// assert_eq!(canvas.pictures().values, [46, 100, 100]);
/// canvas.undo()?;
/// assert_eq!(canvas.pictures().values, [100, 100, 100]);
/// assert_eq!(canvas.into_plate().show()?.values, [100, 100, 100]);
/// # Ok::<(), Refusal>(())
/// ```
///
/// The plate on it can be read, and not changed:
///
/// ```
/// # use lens::{Pixel, Plate, Refusal};
/// # let canvas = Plate::builder(3, 1).reach(1).undo_steps(2).open()?.paint()?;
/// assert_eq!(canvas.plate().pixel(1, 0), Ok(Pixel::EMPTY));
/// # Ok::<(), Refusal>(())
/// ```
///
/// ```compile_fail,E0596
/// # let mut canvas = lens::Plate::builder(3, 1).open().unwrap().paint().unwrap();
/// canvas.plate().undo();
/// ```
#[derive(Clone)]
pub struct Canvas {
    plate: Plate,
    /// What the pictures are rounded from: all light by place, then all matte.
    sums: Vec<u64>,
    pictures: Pictures,
}

impl Plate {
    /// Shows the plate, and from now on keeps what it shows beside it.
    ///
    /// # Errors
    /// Those of [`Plate::show`].
    pub fn paint(mut self) -> Result<Canvas, Refusal> {
        let cells = self.width() * self.height();
        let mut sums = vec![0; 2 * cells];
        let mut pictures = Pictures { values: vec![0; cells], mattes: vec![0; cells] };
        self.show_kept(&mut sums, &mut pictures)?;
        Ok(Canvas { plate: self, sums, pictures })
    }
}

impl Canvas {
    /// What the plate shows now, the same as [`Plate::show`] would give.
    pub fn pictures(&self) -> &Pictures {
        &self.pictures
    }

    /// The light of each pixel of the image, row by row, before rounding: exact whole numbers.
    /// With [`Canvas::matte_sums`] these are what [`Canvas::pictures`] are rounded from: a
    /// value is light / matte, and a matte is its sum / [`Totals::WHOLE`].
    ///
    /// ```
    /// use lens::{Pixel, Plate, Refusal, Shape, Totals};
    ///
    /// let mut canvas = Plate::builder(2, 1).reach(1).undo_steps(2).open()?.paint()?;
    /// let sharp = Pixel { value: 100, opacity: 255, shape: Shape::Box, radius: 0 };
    /// let spread = Pixel { value: 40, radius: 1, ..sharp };
    /// canvas.put(0, 0, sharp)?;
    /// canvas.put(1, 0, spread)?;
    ///
    /// // A ninth of the whole goes to each of nine pixels, and what is left over to the middle.
    /// let (ninth, rest) = (Totals::WHOLE / 9, Totals::WHOLE % 9);
    /// assert_eq!(canvas.matte_sums(), [255 * (Totals::WHOLE + ninth), 255 * (ninth + rest)]);
    /// assert_eq!(canvas.light_sums()[1], 40 * canvas.matte_sums()[1]);
    /// assert_eq!(canvas.pictures().mattes, [255, 28]);
    /// assert_eq!(canvas.pictures().values, [94, 40]);
    /// # Ok::<(), Refusal>(())
    /// ```
    pub fn light_sums(&self) -> &[u64] {
        &self.sums[..self.pictures.values.len()]
    }

    /// The matte of each pixel of the image, row by row, before rounding, in steps of
    /// 1 / [`Totals::WHOLE`] of an opacity. Where kernels overlap it may be above 255 times
    /// that, which the picture shows as 255.
    pub fn matte_sums(&self) -> &[u64] {
        &self.sums[self.pictures.values.len()..]
    }

    /// The plate as it is now, to be read: its sizes, its pixels and its undo count.
    pub fn plate(&self) -> &Plate {
        &self.plate
    }

    /// Hands the plate back; what was kept is given up.
    pub fn into_plate(self) -> Plate {
        self.plate
    }

    /// Like [`Plate::total`].
    ///
    /// # Errors
    /// Those of [`Plate::total`].
    pub fn total(&mut self) -> Result<Totals, Refusal> {
        self.plate.total()
    }

    /// Like [`Plate::put`], and mends the pictures.
    ///
    /// # Errors
    /// Those of [`Plate::put`].
    pub fn put(&mut self, x: usize, y: usize, pixel: Pixel) -> Result<u32, Refusal> {
        self.plate.put_kept(x, y, pixel, &mut self.sums, &mut self.pictures)
    }

    /// Like [`Plate::undo`], and mends the pictures. It also takes puts back that were made
    /// before the plate was painted on.
    ///
    /// # Errors
    /// Those of [`Plate::undo`].
    pub fn undo(&mut self) -> Result<u32, Refusal> {
        self.plate.undo_kept(&mut self.sums, &mut self.pictures)
    }

    /// Like [`Plate::fill`], and shows the plate anew.
    ///
    /// # Errors
    /// Those of [`Plate::fill`] and of [`Plate::show`].
    pub fn fill(&mut self, lens: Lens, shape: Shape, layer: Layer) -> Result<(), Refusal> {
        self.plate.fill(lens, shape, layer)?;
        self.plate.show_kept(&mut self.sums, &mut self.pictures)
    }
}

impl fmt::Debug for Canvas {
    fn fmt(&self, f: &mut fmt::Formatter<'_>) -> fmt::Result {
        f.debug_struct("Canvas").field("plate", &self.plate).finish_non_exhaustive()
    }
}

#[cfg(test)]
mod tests {
    use super::*;

    const LENS: Lens = Lens { opening: 250, focal: 500, focus: 20_000, pitch: 50 };

    /// The pictures that are kept, after making sure that they are those of a show.
    fn shown(canvas: &Canvas) -> Pictures {
        let pictures = canvas.plate().clone().show().unwrap();
        assert_eq!(*canvas.pictures(), pictures);
        pictures
    }

    fn open(width: usize, height: usize, reach: usize, undo_steps: usize) -> Plate {
        Plate::builder(width, height).reach(reach).undo_steps(undo_steps).open().unwrap()
    }

    fn pixel(shape: Shape, radius: u8) -> Pixel {
        Pixel { value: 1_000, opacity: 200, shape, radius }
    }

    #[test]
    fn pictures_follow_every_call() {
        let mut plate = open(7, 5, 6, 20);
        plate.put(6, 4, pixel(Shape::Tent, 3)).unwrap();
        let mut canvas = plate.paint().unwrap();
        let mut before = vec![shown(&canvas)];
        for (x, shape) in Shape::ALL.into_iter().enumerate() {
            canvas.put(x, 2, pixel(shape, 2)).unwrap();
            assert_eq!(canvas.plate().pixel(x, 2), Ok(pixel(shape, 2)));
            before.push(shown(&canvas));
            let matte = Totals::WHOLE * 200 * before.len() as u64;
            assert_eq!(canvas.total(), Ok(Totals { matte, light: 1_000 * matte }));
        }
        for pictures in before.iter().rev() {
            assert_eq!(shown(&canvas), *pictures);
            canvas.undo().unwrap();
        }
        assert_eq!(shown(&canvas).mattes, [0; 35]);
        assert_eq!(canvas.undo(), Err(Refusal::LogEmpty));
    }

    #[test]
    fn a_refused_call_leaves_the_pictures() {
        let mut canvas = open(4, 4, 3, 1).paint().unwrap();
        canvas.put(1, 1, pixel(Shape::Octagon, 3)).unwrap();
        let before = shown(&canvas);
        assert_eq!(canvas.put(1, 1, pixel(Shape::Box, 4)), Err(Refusal::Radius));
        assert_eq!(canvas.put(4, 1, pixel(Shape::Box, 3)), Err(Refusal::Place));
        assert_eq!(canvas.put(2, 2, pixel(Shape::Box, 3)), Err(Refusal::LogFull));
        let short = Layer { values: &[1; 15], opacities: &[1; 16], depths: &[0; 16] };
        assert_eq!(canvas.fill(LENS, Shape::Box, short), Err(Refusal::Lengths));
        assert_eq!(shown(&canvas), before);
    }

    #[test]
    fn a_fill_is_shown_anew() {
        let mut canvas = open(4, 4, 3, 1).paint().unwrap();
        canvas.put(3, 0, pixel(Shape::Diamond, 3)).unwrap();
        let layer = Layer { values: &[7; 16], opacities: &[255; 16], depths: &[20_000; 16] };
        canvas.fill(LENS, Shape::Hexagon, layer).unwrap();
        assert_eq!(shown(&canvas).values, [7; 16]);
        canvas.put(0, 0, pixel(Shape::Box, 3)).unwrap();
        let painted = shown(&canvas);
        let mut plate = canvas.into_plate();
        assert_eq!(plate.show(), Ok(painted));
        assert_eq!(plate.undo_count(), 1);
    }

    #[test]
    fn the_documented_memory() {
        let canvas = open(7, 5, 6, 20).paint().unwrap();
        let Canvas { sums, pictures: Pictures { values, mattes }, .. } = &canvas;
        let kept = size_of_val(&sums[..]) + size_of_val(&values[..]) + size_of_val(&mattes[..]);
        assert_eq!(kept, 19 * 7 * 5);
        let cloned = Plate::builder(1_920, 1_080).bytes() + 19 * 1_920 * 1_080;
        assert_eq!(cloned, 395_635_096);
    }
}
