//! A plate that owns its buffers.

use std::fmt;

use crate::builder::{Lengths, PlateBuilder};
use crate::pixel::Pixel;
use crate::raw::{self, Answer, Lens, State};
use crate::refusal::Refusal;
use crate::shape::Shape;

/// A whole layer, each part with a cell for every pixel of the plate, row by row.
///
/// A fill looks at every value and every depth, those of pixels of opacity 0 too, and refuses
/// one that is not lawful; 0 for both always is.
#[derive(Clone, Copy, Debug)]
pub struct Layer<'a> {
    /// 0 to 4,095 ([`Pixel::MAX_VALUE`]), not multiplied by the opacity. Light adds up
    /// linearly: values in proportion to light blur as they do in a lens; log or display codes
    /// are averaged as codes, which makes blurred highlights dimmer.
    pub values: &'a [u16],
    /// 0 none to 255 all.
    pub opacities: &'a [u8],
    /// In 0.1 mm, above the lens's focal length and at most 10,000,000
    /// ([`Layer::MAX_DEPTH`]); 0 is infinity.
    pub depths: &'a [u32],
}

impl Layer<'_> {
    /// The greatest depth but infinity, in 0.1 mm: as far as a lens can be focused.
    pub const MAX_DEPTH: u32 = Lens::MAX_FOCUS;
}

/// What a plate shows, one channel, row by row.
#[derive(Clone, Debug, PartialEq, Eq)]
pub struct Pictures {
    /// Light over matte, 0 to 4,095: how bright what is there is, unpremultiplied, that is not
    /// multiplied by the matte. It is 0 where no pixel adds to the matte; where they add too
    /// little for a matte of 1, the value still stands.
    pub values: Vec<u16>,
    /// How much of the layer is there, 0 none to 255 all. Where radii differ, kernels overlap
    /// in some cells and others get too little, so a layer of opacity 255 has a flat matte only
    /// where its radius is the same: a sum above 255 is shown as 255, one below as it is. The
    /// value is right in both. [`Canvas::matte_sums`](crate::Canvas::matte_sums) has the sums.
    pub mattes: Vec<u8>,
}

/// What a plate adds up to.
#[derive(Clone, Copy, Debug, PartialEq, Eq)]
pub struct Totals {
    /// [`Totals::WHOLE`] times the sum of all opacities.
    pub matte: u64,
    /// [`Totals::WHOLE`] times the sum of opacity × value.
    pub light: u64,
}

impl Totals {
    /// What the weights of every kernel add up to, so what a pixel gives for each step of its
    /// opacity.
    pub const WHOLE: u64 = 8_388_608;
}

/// A plate with its buffers. Calls that return a [`Refusal`] have changed nothing.
///
/// No call panics. That show and total of a plate are accepted is a theorem; where they return
/// an error all the same, the archive that is linked is not the one this crate was written for.
///
/// # Threads
///
/// A plate is [`Send`] and [`Sync`]. The engine keeps nothing of its own, so calls on
/// different plates may run at once; of one plate, whatever takes `&self` may.
///
/// # Cost of a clone
///
/// A clone copies all buffers, [`PlateBuilder::bytes`] of them: for 1920 × 1080 pixels with
/// the greatest reach and undo log 356,236,696 bytes. To come back to an earlier picture, undo.
#[derive(Clone)]
pub struct Plate {
    state: State,
    planes: Vec<u64>,
    pixels: Vec<u64>,
    log: Vec<u64>,
    /// All zero between calls.
    scratch: Vec<u64>,
}

impl Plate {
    /// The greatest width, and the greatest height.
    pub const MAX_SIDE: usize = 4_096;

    /// The greatest width × height.
    pub const MAX_PIXELS: usize = 2_097_152;

    /// The greatest reach.
    pub const MAX_REACH: usize = 64;

    /// The most puts that an undo log holds.
    pub const MAX_UNDO_STEPS: usize = 65_535;

    /// Begins to open a plate of this size; see [`PlateBuilder`] for what else it can be
    /// given, and for the memory that it takes.
    pub fn builder(width: usize, height: usize) -> PlateBuilder {
        PlateBuilder::new(width, height)
    }

    /// A plate with buffers of these lengths, where the engine opens one over them.
    pub(crate) fn over(
        lengths: Lengths,
        width: usize,
        height: usize,
        reach: usize,
    ) -> Result<Plate, Refusal> {
        let mut plate = Plate {
            state: State::default(),
            planes: vec![0; lengths.planes],
            pixels: vec![0; lengths.pixels],
            log: vec![0; lengths.log],
            scratch: vec![0; lengths.scratch],
        };
        let Plate { planes, pixels, log, .. } = &mut plate;
        let answer = raw::open(width, height, reach, planes, pixels, log);
        plate.take(answer)?;
        Ok(plate)
    }

    /// How many pixels a row has.
    pub fn width(&self) -> usize {
        self.state.width
    }

    /// How many rows there are.
    pub fn height(&self) -> usize {
        self.state.height
    }

    /// How many pixels a kernel may reach to each side.
    pub fn reach(&self) -> usize {
        self.state.reach
    }

    /// How many puts can be undone now.
    pub fn undo_count(&self) -> usize {
        self.state.count
    }

    /// How many puts the undo log holds in all; when [`Plate::undo_count`] is there, the next
    /// put is refused.
    pub fn undo_capacity(&self) -> usize {
        self.log.len()
    }

    /// The pixel that stands there now, as it was put or filled: a filled one with the radius
    /// that the lens gave it.
    ///
    /// ```
    /// use lens::{Pixel, Plate, Refusal, Shape};
    ///
    /// let mut plate = Plate::builder(3, 1).reach(1).undo_steps(2).open()?;
    /// let pixel = Pixel { value: 100, opacity: 255, shape: Shape::Box, radius: 1 };
    /// plate.put(1, 0, pixel)?;
    /// assert_eq!(plate.pixel(1, 0), Ok(pixel));
    /// assert_eq!(plate.pixel(2, 0), Ok(Pixel::EMPTY));
    /// assert_eq!(plate.pixel(3, 0), Err(Refusal::Place));
    /// # Ok::<(), Refusal>(())
    /// ```
    ///
    /// # Errors
    /// [`Refusal::Place`]; [`Refusal::StoredWord`] for a stored word that is no pixel's, which
    /// no call leaves.
    pub fn pixel(&self, x: usize, y: usize) -> Result<Pixel, Refusal> {
        let State { width, height, reach, .. } = self.state;
        if x >= width || y >= height {
            return Err(Refusal::Place);
        }
        let word = self.pixels.get(y * width + x);
        word.and_then(|&word| Pixel::from_word(word, reach)).ok_or(Refusal::StoredWord)
    }

    /// Sets one pixel, remembers the old one in the undo log, and tells how many marks
    /// that moved, 16 to 40.
    ///
    /// # Errors
    /// [`Refusal::Place`], [`Refusal::Value`], [`Refusal::Radius`], or [`Refusal::LogFull`].
    pub fn put(&mut self, x: usize, y: usize, pixel: Pixel) -> Result<u32, Refusal> {
        let Plate { state, planes, pixels, log, .. } = self;
        let answer = raw::put(
            *state,
            x,
            y,
            pixel.value,
            pixel.opacity,
            pixel.shape.number(),
            pixel.radius,
            planes,
            pixels,
            log,
        );
        self.take(answer)
    }

    /// Takes the last put back, and tells how many marks that moved, 16 to 40.
    ///
    /// # Errors
    /// [`Refusal::LogEmpty`].
    pub fn undo(&mut self) -> Result<u32, Refusal> {
        let Plate { state, planes, pixels, log, .. } = self;
        let answer = raw::undo(*state, planes, pixels, log);
        self.take(answer)
    }

    /// Replaces every pixel, with one shape for all and each radius by the lens from its
    /// depth, see [`Lens`]. Empties the undo log.
    ///
    /// # Errors
    /// [`Refusal::Lengths`] if a part of the layer has another length than width × height,
    /// [`Refusal::Value`], [`Refusal::Lens`], [`Refusal::Depth`], or
    /// [`Refusal::DepthInside`].
    pub fn fill(&mut self, lens: Lens, shape: Shape, layer: Layer) -> Result<(), Refusal> {
        let Plate { state, planes, pixels, log, .. } = self;
        let answer = raw::fill(
            *state,
            lens,
            shape.number(),
            layer.values,
            layer.opacities,
            layer.depths,
            planes,
            pixels,
            log,
        );
        self.take(answer)?;
        Ok(())
    }

    /// The pictures of the pixels that stand there now, to the nearest code value: a value
    /// half way between two goes to the even one, a matte upwards.
    ///
    /// # Errors
    /// None, with the archive that this crate was written for.
    pub fn show(&mut self) -> Result<Pictures, Refusal> {
        let cells = self.state.width * self.state.height;
        let mut pictures = Pictures { values: vec![0; cells], mattes: vec![0; cells] };
        self.show_into(&mut pictures.values, &mut pictures.mattes)?;
        Ok(pictures)
    }

    /// Like [`Plate::show`], into pictures of the caller's.
    ///
    /// # Errors
    /// [`Refusal::Lengths`] if a picture has another length than width × height.
    pub fn show_into(&mut self, values: &mut [u16], mattes: &mut [u8]) -> Result<(), Refusal> {
        let answer = raw::show(self.state, &self.planes, &mut self.scratch, values, mattes);
        self.take(answer)?;
        Ok(())
    }

    /// Adds up the finished sums, which the pictures are rounded from, over all cells that
    /// kernels reach, the image's and those around it. Light is neither made nor lost: each
    /// pixel gives its opacity, and its opacity times its value, whole, whatever its kernel.
    ///
    /// ```
    /// use lens::{Pixel, Plate, Refusal, Shape, Totals};
    ///
    /// // One row high: a box of radius 1 has six of its nine taps outside the image.
    /// let mut plate = Plate::builder(3, 1).reach(1).undo_steps(2).open()?;
    /// plate.put(1, 0, Pixel { value: 100, opacity: 255, shape: Shape::Box, radius: 1 })?;
    /// plate.put(0, 0, Pixel { value: 40, opacity: 51, shape: Shape::Box, radius: 0 })?;
    /// let matte = Totals::WHOLE * (255 + 51);
    /// let light = Totals::WHOLE * (255 * 100 + 51 * 40);
    /// assert_eq!(plate.total()?, Totals { matte, light });
    /// # Ok::<(), Refusal>(())
    /// ```
    ///
    /// # Errors
    /// None, with the archive that this crate was written for.
    pub fn total(&mut self) -> Result<Totals, Refusal> {
        let totals = raw::total(self.state, &self.planes, &mut self.scratch);
        self.take(totals.answer)?;
        Ok(Totals { matte: totals.matte, light: totals.light })
    }

    /// Show into pictures and sums of the plate's size.
    pub(crate) fn show_kept(
        &mut self,
        sums: &mut [u64],
        pictures: &mut Pictures,
    ) -> Result<(), Refusal> {
        let Plate { state, planes, scratch, .. } = self;
        let Pictures { values, mattes } = pictures;
        let answer = raw::show_kept(*state, planes, scratch, values, mattes, sums);
        self.take(answer)?;
        Ok(())
    }

    /// Put that mends sums and pictures of the plate's size.
    pub(crate) fn put_kept(
        &mut self,
        x: usize,
        y: usize,
        pixel: Pixel,
        sums: &mut [u64],
        pictures: &mut Pictures,
    ) -> Result<u32, Refusal> {
        let Plate { state, planes, pixels, log, .. } = self;
        let answer = raw::put_kept(
            *state,
            x,
            y,
            pixel.value,
            pixel.opacity,
            pixel.shape.number(),
            pixel.radius,
            planes,
            pixels,
            log,
            sums,
            &mut pictures.values,
            &mut pictures.mattes,
        );
        self.take(answer)
    }

    /// Undo that mends sums and pictures of the plate's size.
    pub(crate) fn undo_kept(
        &mut self,
        sums: &mut [u64],
        pictures: &mut Pictures,
    ) -> Result<u32, Refusal> {
        let Plate { state, planes, pixels, log, .. } = self;
        let Pictures { values, mattes } = pictures;
        let answer = raw::undo_kept(*state, planes, pixels, log, sums, values, mattes);
        self.take(answer)
    }

    /// Keeps the state of an accepted call, and gives its mark count.
    fn take(&mut self, answer: Answer) -> Result<u32, Refusal> {
        match Refusal::from_number(answer.number) {
            None => {
                self.state = answer.state;
                Ok(answer.marks)
            }
            Some(refusal) => Err(refusal),
        }
    }
}

impl fmt::Debug for Plate {
    fn fmt(&self, f: &mut fmt::Formatter<'_>) -> fmt::Result {
        f.debug_struct("Plate").field("state", &self.state).finish_non_exhaustive()
    }
}

#[cfg(test)]
impl Plate {
    /// The bytes of all buffers.
    pub(crate) fn buffers_size(&self) -> usize {
        let Plate { planes, pixels, log, scratch, .. } = self;
        [planes, pixels, log, scratch].map(|buffer| size_of_val(&buffer[..])).iter().sum()
    }
}

#[cfg(test)]
mod tests {
    use super::*;
    use crate::Canvas;

    const LENS: Lens = Lens { opening: 250, focal: 500, focus: 20_000, pitch: 50 };

    fn open(width: usize, height: usize, reach: usize, undo_steps: usize) -> Plate {
        Plate::builder(width, height).reach(reach).undo_steps(undo_steps).open().unwrap()
    }

    #[test]
    fn wrong_lengths_are_refused() {
        let mut plate = open(2, 2, 3, 0);
        let refused = plate.show_into(&mut [0; 3], &mut [0; 4]);
        assert_eq!(refused, Err(Refusal::Lengths));
        let layer = Layer { values: &[7; 4], opacities: &[255; 4], depths: &[20_000; 3] };
        assert_eq!(plate.fill(LENS, Shape::Box, layer), Err(Refusal::Lengths));
        let layer = Layer { depths: &[20_000; 4], ..layer };
        assert_eq!(plate.fill(LENS, Shape::Box, layer), Ok(()));
        assert_eq!(plate.show().unwrap().values, [7; 4]);
    }

    #[test]
    fn a_depth_inside_the_lens_is_refused() {
        let mut plate = open(2, 1, 3, 0);
        let mut fill = |value: u16, depth: u32| {
            let depths = [20_000, depth];
            let layer = Layer { values: &[value; 2], opacities: &[255; 2], depths: &depths };
            let answer = plate.fill(LENS, Shape::Octagon, layer);
            (answer, plate.show().unwrap().values)
        };
        assert_eq!(fill(7, 0), (Ok(()), vec![7; 2]));
        for depth in [1, 499, 500] {
            assert_eq!(fill(8, depth), (Err(Refusal::DepthInside), vec![7; 2]));
        }
        assert_eq!(fill(8, 501), (Ok(()), vec![8; 2]));
    }

    #[test]
    fn a_pixel_of_opacity_0_is_looked_at_like_any_other() {
        let mut plate = open(2, 1, 3, 0);
        let mut fill = |value: u16, depth: u32| {
            let (values, depths) = ([7, value], [20_000, depth]);
            let layer = Layer { values: &values, opacities: &[255, 0], depths: &depths };
            plate.fill(LENS, Shape::Box, layer)
        };
        assert_eq!(fill(Pixel::MAX_VALUE + 1, 0), Err(Refusal::Value));
        assert_eq!(fill(0, Layer::MAX_DEPTH + 1), Err(Refusal::Depth));
        assert_eq!(fill(0, LENS.focal), Err(Refusal::DepthInside));
        assert_eq!(fill(0, 0), Ok(()));
        assert_eq!(plate.show().unwrap().values, [7, 0]);
    }

    #[test]
    fn a_flat_layer_of_opacity_0_shows_nothing() {
        let mut plate = open(3, 3, 1, 0);
        let layer = Layer { values: &[7; 9], opacities: &[0; 9], depths: &[0; 9] };
        plate.fill(LENS, Shape::Box, layer).unwrap();
        let shown = plate.show().unwrap();
        assert_eq!((shown.values, shown.mattes), (vec![0; 9], vec![0; 9]));
    }

    #[test]
    fn the_greatest_value_lens_and_depth() {
        let mut plate = open(1, 1, 3, 1);
        let mut fill = |lens, value, depth| {
            let layer = Layer { values: &[value], opacities: &[255], depths: &[depth] };
            plate.fill(lens, Shape::Box, layer)
        };
        let greatest = Lens {
            opening: Lens::MAX_OPENING,
            focal: Lens::MAX_FOCAL,
            focus: Lens::MAX_FOCUS,
            pitch: Lens::MAX_PITCH,
        };
        let least = Lens { opening: 1, focal: 1, focus: 2, pitch: 1 };
        assert_eq!(fill(greatest, Pixel::MAX_VALUE, Layer::MAX_DEPTH), Ok(()));
        assert_eq!(fill(least, Pixel::MAX_VALUE, Layer::MAX_DEPTH), Ok(()));
        for wrong in [
            Lens { opening: 0, ..least },
            Lens { focal: 0, ..least },
            Lens { focus: 1, ..least },
            Lens { pitch: 0, ..least },
            Lens { opening: Lens::MAX_OPENING + 1, ..greatest },
            Lens { focal: Lens::MAX_FOCAL + 1, ..greatest },
            Lens { focus: Lens::MAX_FOCUS + 1, ..greatest },
            Lens { pitch: Lens::MAX_PITCH + 1, ..greatest },
        ] {
            assert_eq!(fill(wrong, 1, 0), Err(Refusal::Lens), "{wrong:?}");
        }
        assert_eq!(fill(LENS, Pixel::MAX_VALUE + 1, 0), Err(Refusal::Value));
        assert_eq!(fill(LENS, 1, Layer::MAX_DEPTH + 1), Err(Refusal::Depth));
    }

    #[test]
    fn pixels_are_those_that_were_put() {
        let mut plate = open(4, 3, 6, 100);
        assert_eq!(plate.undo_capacity(), 100);
        assert_eq!(plate.pixel(3, 2), Ok(Pixel::EMPTY));
        let mut before = vec![Pixel::EMPTY];
        for shape in Shape::ALL {
            for radius in 0..=shape.top_radius(6) {
                let value = Pixel::MAX_VALUE - 100 * u16::from(radius);
                let pixel = Pixel { value, opacity: 255 - radius, shape, radius };
                plate.put(3, 2, pixel).unwrap();
                assert_eq!(plate.pixel(3, 2), Ok(pixel));
                before.push(pixel);
            }
        }
        for pixel in before.into_iter().rev() {
            assert_eq!(plate.pixel(3, 2), Ok(pixel));
            let _ = plate.undo();
        }
        assert_eq!((plate.undo_count(), plate.undo_capacity()), (0, 100));
    }

    #[test]
    fn pixels_are_found_row_by_row() {
        let mut plate = open(3, 2, 1, 0);
        let values = [1, 2, 3, 4, 5, 6];
        let layer = Layer { values: &values, opacities: &[9; 6], depths: &[LENS.focus; 6] };
        plate.fill(LENS, Shape::Octagon, layer).unwrap();
        for (place, value) in values.into_iter().enumerate() {
            let pixel = Pixel { value, opacity: 9, shape: Shape::Octagon, radius: 0 };
            assert_eq!(plate.pixel(place % 3, place / 3), Ok(pixel));
        }
        for (x, y) in [(3, 0), (0, 2), (3, 2), (usize::MAX, 0), (0, usize::MAX)] {
            assert_eq!(plate.pixel(x, y), Err(Refusal::Place));
        }
    }

    /// A put refuses a stored word that is no pixel's, so it tells which words are.
    #[test]
    fn words_of_pixels_are_those_that_the_engine_takes() {
        let mut plate = open(1, 1, 7, 1);
        let mut damaged = 0;
        for parts in 0..1 << 13 {
            plate.pixels[0] = parts << 20 | 254 << 12 | 2_748;
            let put = plate.put(0, 0, Pixel::EMPTY).and_then(|_| plate.undo());
            match plate.pixel(0, 0) {
                Ok(pixel) => {
                    assert!(put.is_ok(), "{pixel:?}");
                    assert_eq!((pixel.value, pixel.opacity), (2_748, 254));
                    let word = u64::from(pixel.shape.number()) | u64::from(pixel.radius) << 4;
                    assert_eq!(word, parts);
                }
                Err(refusal) => {
                    assert_eq!(refusal, Refusal::StoredWord);
                    assert_eq!(put, Err(Refusal::StoredWord), "{parts:#x}");
                    damaged += 1;
                }
            }
        }
        // Four shapes with radii 0 to 7, tents 0 to 3, triples 0 to 2.
        assert_eq!(damaged, (1 << 13) - (4 * 8 + 4 + 3));
    }

    #[test]
    fn a_number_without_a_name_is_an_error() {
        let mut plate = open(2, 1, 0, 1);
        let state = State { width: 9, height: 9, reach: 9, count: 9 };
        let answer = plate.take(Answer { number: 4_000, marks: 20, state });
        assert_eq!(answer, Err(Refusal::Other(4_000)));
        assert_eq!((plate.width(), plate.undo_count()), (2, 0));
        assert_eq!(plate.take(Answer { number: 0, marks: 20, state }), Ok(20));
        assert_eq!((plate.width(), plate.undo_count()), (9, 9));
    }

    #[test]
    fn a_faint_matte_keeps_its_value() {
        let mut plate = open(5, 1, 1, 1);
        let faint = Pixel { value: 100, opacity: 1, shape: Shape::Box, radius: 1 };
        plate.put(1, 0, faint).unwrap();
        let shown = plate.show().unwrap();
        assert_eq!(shown.values, [100, 100, 100, 0, 0]);
        assert_eq!(shown.mattes, [0; 5]);
    }

    #[test]
    fn plates_are_filled_and_shown_by_threads_at_once() {
        fn is_shared<T: Send + Sync>() {}
        is_shared::<Plate>();
        is_shared::<Canvas>();
        let painted = |value: u16| {
            let mut plate = open(40, 30, 9, 0);
            let depths: Vec<u32> = (0..1_200).map(|place| 15_000 + 10 * place).collect();
            let layer =
                Layer { values: &[value; 1_200], opacities: &[200; 1_200], depths: &depths };
            plate.fill(LENS, Shape::Hexagon, layer).unwrap();
            (plate.show(), plate.total())
        };
        let alone = [1, 20, 300, 4_000].map(painted);
        let at_once = std::thread::scope(|scope| {
            let threads = [1, 20, 300, 4_000].map(|value| scope.spawn(move || painted(value)));
            threads.map(|thread| thread.join().unwrap())
        });
        assert_eq!(alone, at_once);
    }
}
