//! The notebook of demand 3: a grid of pixels and a pile of (place, old pixel).
//!
//! It is fed the calls' arguments and the lengths of what they lend, and nothing
//! that an engine stores or answers.

use crate::kept::KeptLengths;
use crate::kernel::Shape;
use crate::pixel::Pixel;
use crate::radius::FARTHEST;
use crate::rounding::TOP_VALUE;
use crate::spread::{Grid, Pictures, Sum, pictures, total};
use crate::{Fill, Put};

/// What the notebook says of a call: the number, and the mark count.
#[derive(Clone, Copy, Debug, PartialEq, Eq)]
pub struct Report {
    pub number: u32,
    pub marks: u32,
}

impl Report {
    fn accepted(marks: u32) -> Report {
        Report { number: 0, marks }
    }

    fn refused(number: u32) -> Report {
        Report { number, marks: 0 }
    }
}

#[derive(Clone, Debug)]
pub struct Notebook {
    pub grid: Grid,
    pub reach: usize,
    /// Places with the pixels that stood there, the oldest first.
    pub pile: Vec<(usize, Pixel)>,
    /// How many the pile holds at most: the log's length.
    pub room: usize,
}

impl Notebook {
    /// The notebook of an accepted open.
    pub fn open(width: usize, height: usize, reach: usize, room: usize) -> Notebook {
        Notebook { grid: Grid::empty(width, height), reach, pile: Vec::new(), room }
    }

    pub fn put(&mut self, put: Put) -> Report {
        if put.x >= self.grid.width || put.y >= self.grid.height {
            return Report::refused(4);
        }
        if put.value > TOP_VALUE {
            return Report::refused(5);
        }
        let Some(shape) = Shape::from_number(put.shape) else {
            return Report::refused(6);
        };
        if usize::from(put.radius) > shape.top_under(self.reach) {
            return Report::refused(7);
        }
        if self.pile.len() == self.room {
            return Report::refused(8);
        }
        let place = put.y * self.grid.width + put.x;
        let pixel = Pixel { value: put.value, opacity: put.opacity, shape, radius: put.radius };
        self.pile.push((place, self.grid.pixels[place]));
        self.change(place, pixel)
    }

    pub fn undo(&mut self) -> Report {
        match self.pile.pop() {
            Some((place, pixel)) => self.change(place, pixel),
            None => Report::refused(9),
        }
    }

    /// Put in its second form: as put, but lent sums and pictures of these lengths.
    pub fn put_kept(&mut self, put: Put, lent: KeptLengths) -> Report {
        if self.does_not_fit(lent) {
            return Report::refused(2);
        }
        self.put(put)
    }

    /// Undo in its second form.
    pub fn undo_kept(&mut self, lent: KeptLengths) -> Report {
        if self.does_not_fit(lent) {
            return Report::refused(2);
        }
        self.undo()
    }

    fn does_not_fit(&self, lent: KeptLengths) -> bool {
        lent != KeptLengths::of(self.grid.pixels.len())
    }

    /// Sets one pixel, and reports the marks of the shape that left and of the one that came.
    fn change(&mut self, place: usize, pixel: Pixel) -> Report {
        let old = std::mem::replace(&mut self.grid.pixels[place], pixel);
        Report::accepted(old.shape.marks() + pixel.shape.marks())
    }

    pub fn fill(&mut self, fill: &Fill) -> Report {
        let lengths = [fill.values.len(), fill.opacities.len(), fill.depths.len()];
        if lengths.iter().any(|&length| length != self.grid.pixels.len()) {
            return Report::refused(2);
        }
        if fill.values.iter().any(|&value| value > TOP_VALUE) {
            return Report::refused(5);
        }
        let Some(shape) = Shape::from_number(fill.shape) else {
            return Report::refused(6);
        };
        if !fill.lens.is_lawful() {
            return Report::refused(11);
        }
        if fill.depths.iter().any(|&depth| depth > FARTHEST) {
            return Report::refused(12);
        }
        if fill.depths.iter().any(|&depth| fill.lens.is_inside(depth)) {
            return Report::refused(17);
        }
        let top = shape.top_under(self.reach);
        for (place, pixel) in self.grid.pixels.iter_mut().enumerate() {
            *pixel = Pixel {
                value: fill.values[place],
                opacity: fill.opacities[place],
                shape,
                radius: fill.lens.radius(fill.depths[place], top),
            };
        }
        self.pile.clear();
        Report::accepted(0)
    }

    /// Show, lent a scratch and two pictures of these lengths; with the plain pictures if accepted.
    pub fn show(
        &self,
        scratch: usize,
        values: usize,
        mattes: usize,
    ) -> (Report, Option<Pictures>) {
        let cells = self.grid.pixels.len();
        if scratch != self.scratch() || values != cells || mattes != cells {
            return (Report::refused(2), None);
        }
        (Report::accepted(0), Some(pictures(&self.grid)))
    }

    /// The length of a scratch that fits.
    fn scratch(&self) -> usize {
        let margins = 2 * self.reach + 6;
        3 * (self.grid.width + margins) * (self.grid.height + margins)
    }

    /// Total, lent a scratch of this length; with the matte and the light of all pixels, which
    /// are 0 if it is refused.
    pub fn total(&self, scratch: usize) -> (Report, Sum) {
        if scratch != self.scratch() {
            return (Report::refused(2), Sum::default());
        }
        (Report::accepted(0), total(&self.grid))
    }

    /// Show in its second form: the sums that it leaves are the plain ones of the grid.
    pub fn show_kept(&self, scratch: usize, lent: KeptLengths) -> (Report, Option<Pictures>) {
        if self.does_not_fit(lent) {
            return (Report::refused(2), None);
        }
        self.show(scratch, lent.values, lent.mattes)
    }
}
