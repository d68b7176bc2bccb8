//! Calls made at random, lawful ones and unlawful ones, for a plate of given sizes.

use reference::kept::{Change, KeptLengths};
use reference::kernel::Shape;
use reference::marks::Layout;
use reference::notebook::{Notebook, Report};
use reference::radius::FARTHEST;
use reference::spread::Pictures;
use reference::{Fill, Lens, Put};

use crate::random::Random;

/// One call after open, with its arguments.
#[derive(Clone, Debug)]
pub enum Step {
    Put(Put),
    Undo,
    Fill(Inputs),
    Show {
        scratch: usize,
        values: usize,
        mattes: usize,
    },
    Total {
        scratch: usize,
    },
    /// The second forms, with the lengths of what they are lent to keep.
    PutKept(Put, KeptLengths),
    UndoKept(KeptLengths),
    ShowKept {
        scratch: usize,
        kept: KeptLengths,
    },
}

/// What the notebook says of a call.
pub struct Told {
    pub report: Report,
    /// The plain pictures, of an accepted show.
    pub pictures: Option<Pictures>,
    /// What an accepted put or undo changed.
    pub change: Option<Change>,
}

/// Fill's arguments, with its three inputs.
#[derive(Clone, Debug)]
pub struct Inputs {
    pub lens: Lens,
    pub shape: u8,
    pub values: Vec<u16>,
    pub opacities: Vec<u8>,
    pub depths: Vec<u32>,
}

impl Inputs {
    pub fn as_fill(&self) -> Fill<'_> {
        Fill {
            lens: self.lens,
            shape: self.shape,
            values: &self.values,
            opacities: &self.opacities,
            depths: &self.depths,
        }
    }
}

impl Step {
    /// A show that is lent the right lengths.
    pub fn show(width: usize, height: usize, reach: usize) -> Step {
        let scratch = 3 * Layout::of(width, height, reach).cells();
        Step::Show { scratch, values: width * height, mattes: width * height }
    }

    /// A total that is lent the right length.
    pub fn total(width: usize, height: usize, reach: usize) -> Step {
        Step::Total { scratch: 3 * Layout::of(width, height, reach).cells() }
    }

    /// Its second form, lent the right lengths; a fill and a total have none.
    pub fn kept(self, cells: usize) -> Step {
        let kept = KeptLengths::of(cells);
        match self {
            Step::Put(put) => Step::PutKept(put, kept),
            Step::Undo => Step::UndoKept(kept),
            Step::Show { scratch, .. } => Step::ShowKept { scratch, kept },
            other => other,
        }
    }

    pub fn is_kept(&self) -> bool {
        matches!(self, Step::PutKept(..) | Step::UndoKept(_) | Step::ShowKept { .. })
    }

    /// Whether it changes the plate, where it is accepted, and is lent nothing to mend.
    pub fn leaves_kept_behind(&self) -> bool {
        matches!(self, Step::Put(_) | Step::Undo | Step::Fill(_))
    }

    /// Hands the call to the notebook.
    pub fn tell(&self, notebook: &mut Notebook) -> Told {
        let before = self.place(notebook).map(|place| (place, notebook.grid.pixels[place]));
        let (report, pictures) = match self {
            Step::Put(put) => (notebook.put(*put), None),
            Step::Undo => (notebook.undo(), None),
            Step::Fill(inputs) => (notebook.fill(&inputs.as_fill()), None),
            &Step::Show { scratch, values, mattes } => notebook.show(scratch, values, mattes),
            &Step::Total { scratch } => (notebook.total(scratch).0, None),
            &Step::PutKept(put, kept) => (notebook.put_kept(put, kept), None),
            &Step::UndoKept(kept) => (notebook.undo_kept(kept), None),
            &Step::ShowKept { scratch, kept } => notebook.show_kept(scratch, kept),
        };
        let change = before.filter(|_| report.number == 0).map(|(place, old)| {
            let new = notebook.grid.pixels[place];
            Change { place, old, new }
        });
        Told { report, pictures, change }
    }

    /// Where a put or an undo would make its change.
    fn place(&self, notebook: &Notebook) -> Option<usize> {
        let Notebook { grid, pile, .. } = notebook;
        match self {
            Step::Put(put) | Step::PutKept(put, _) => {
                let inside = put.x < grid.width && put.y < grid.height;
                inside.then(|| put.y * grid.width + put.x)
            }
            Step::Undo | Step::UndoKept(_) => pile.last().map(|&(place, _)| place),
            Step::Fill(_) | Step::Show { .. } | Step::ShowKept { .. } | Step::Total { .. } => {
                None
            }
        }
    }
}

/// One argument in this many is unlawful, so that calls with two faults come up too.
const FAULT: usize = 14;

/// The lens of the paper's examples: radius 64 at infinity, 0 at 2 m.
pub const PAPER_LENS: Lens = Lens { opening: 250, focal: 500, focus: 20_000, pitch: 50 };

/// A depth at which that lens gives this radius, 0 to 64.
pub fn depth_of(radius: usize) -> u32 {
    (PAPER_LENS.focus..FARTHEST)
        .chain([0])
        .find(|&depth| usize::from(PAPER_LENS.radius(depth, 64)) == radius)
        .expect("the lens gives every radius up to 64")
}

/// Makes calls for plates of one size.
pub struct Maker<'a> {
    pub random: &'a mut Random,
    pub width: usize,
    pub height: usize,
    pub reach: usize,
}

impl Maker<'_> {
    /// A call in its first form, or, where it has one, as often in its second.
    pub fn step(&mut self) -> Step {
        let kept = self.random.once_in(2).then(|| self.kept_lengths());
        match (self.random.below(11), kept) {
            (0..5, None) => Step::Put(self.put()),
            (0..5, Some(kept)) => Step::PutKept(self.put(), kept),
            (5..7, None) => Step::Undo,
            (5..7, Some(kept)) => Step::UndoKept(kept),
            (7, _) => Step::Fill(self.inputs()),
            (8, _) => {
                let [scratch, ..] = self.show_lengths();
                Step::Total { scratch }
            }
            (_, None) => {
                let [scratch, values, mattes] = self.show_lengths();
                Step::Show { scratch, values, mattes }
            }
            (_, Some(kept)) => {
                let [scratch, ..] = self.show_lengths();
                Step::ShowKept { scratch, kept }
            }
        }
    }

    pub fn put(&mut self) -> Put {
        let shape = self.shape();
        Put {
            x: self.place(self.width),
            y: self.place(self.height),
            value: self.value(FAULT),
            opacity: self.opacity(),
            shape,
            radius: self.radius(shape),
        }
    }

    /// Lengths of scratch, values and mattes to lend to show.
    pub fn show_lengths(&mut self) -> [usize; 3] {
        let cells = self.width * self.height;
        let scratch = 3 * Layout::of(self.width, self.height, self.reach).cells();
        [scratch, cells, cells].map(|right| self.length(right))
    }

    /// Lengths of sums, values and mattes to lend to the second form of a call.
    pub fn kept_lengths(&mut self) -> KeptLengths {
        let KeptLengths { sums, values, mattes } = KeptLengths::of(self.width * self.height);
        let [sums, values, mattes] = [sums, values, mattes].map(|right| self.length(right));
        KeptLengths { sums, values, mattes }
    }

    pub fn inputs(&mut self) -> Inputs {
        let cells = self.width * self.height;
        let values = self.length(cells);
        let opacities = self.length(cells);
        let depths = self.length(cells);
        let lens = self.lens();
        Inputs {
            lens,
            shape: self.shape(),
            values: self.values(values),
            opacities: (0..opacities).map(|_| self.opacity()).collect(),
            depths: self.depths(depths, lens),
        }
    }

    /// The right length, mostly.
    pub fn length(&mut self, right: usize) -> usize {
        if self.random.once_in(2 * FAULT) {
            self.random.pick(&[0, right - 1, right + 1, 2 * right])
        } else {
            right
        }
    }

    /// A column or a row. Some that are outside would be inside if cut to 32 bits.
    fn place(&mut self, end: usize) -> usize {
        if self.random.once_in(FAULT) {
            self.random.pick(&[end, end + 1, 1 << 32, usize::MAX])
        } else {
            self.random.below(end)
        }
    }

    fn value(&mut self, fault: usize) -> u16 {
        if self.random.once_in(fault) {
            return self.random.pick(&[4_096, 4_097, 8_191, u16::MAX]);
        }
        match self.random.below(8) {
            0 => 0,
            1 => 4_095,
            _ => self.random.below(4_096) as u16,
        }
    }

    fn opacity(&mut self) -> u8 {
        match self.random.below(4) {
            0 => 255,
            1 => self.random.pick(&[0, 1, 254]),
            _ => self.random.bits() as u8,
        }
    }

    fn shape(&mut self) -> u8 {
        if self.random.once_in(FAULT) {
            self.random.pick(&[6, 7, 15, 16, 255])
        } else {
            self.random.below(6) as u8
        }
    }

    fn radius(&mut self, shape: u8) -> u8 {
        let shape = Shape::from_number(shape).unwrap_or(Shape::Box);
        let top = shape.top_under(self.reach);
        if self.random.once_in(FAULT) {
            return self.random.pick(&[top + 1, 65, 128, 255]) as u8;
        }
        match self.random.below(4) {
            0 => top as u8,
            1 => self.random.below(top.min(4) + 1) as u8,
            _ => self.random.below(top + 1) as u8,
        }
    }

    fn values(&mut self, length: usize) -> Vec<u16> {
        let mut values: Vec<u16> = (0..length).map(|_| self.value(usize::MAX)).collect();
        if length > 0 && self.random.once_in(FAULT) {
            values[self.random.below(length)] = self.value(1);
        }
        values
    }

    pub fn lens(&mut self) -> Lens {
        let mut lens = match self.random.below(3) {
            0 => PAPER_LENS,
            1 => self.any_lens(4_000, FARTHEST as usize, 1_000),
            // Small numbers, whose quotients are often halves.
            _ => self.any_lens(8, 40, 1_000),
        };
        if self.random.once_in(FAULT) {
            let outside = |random: &mut Random, top: u32| random.pick(&[0, top + 1, u32::MAX]);
            match self.random.below(4) {
                0 => lens.opening = outside(self.random, 4_000),
                1 => lens.focal = outside(self.random, 4_000),
                2 => {
                    lens.focus =
                        self.random.pick(&[0, lens.focal - 1, lens.focal, FARTHEST + 1])
                }
                _ => lens.pitch = outside(self.random, 1_000),
            }
        }
        lens
    }

    /// A lawful lens with opening and focal length, focus and pitch up to these.
    fn any_lens(&mut self, glass: usize, focus: usize, pitch: usize) -> Lens {
        let focal = self.random.within(1, glass);
        Lens {
            opening: self.random.within(1, glass) as u32,
            focal: focal as u32,
            focus: self.random.within(focal + 1, focus) as u32,
            pitch: self.random.within(1, pitch) as u32,
        }
    }

    /// Depths for a lens, past its f; at times one of infinity, one too far, one inside.
    fn depths(&mut self, length: usize, lens: Lens) -> Vec<u32> {
        let farthest = FARTHEST as usize;
        // An f that no lens can have is refused before any depth.
        let nearest = lens.focal.min(4_000) as usize + 1;
        let (first, last) = self.random.pick(&[
            (nearest, farthest),
            (nearest, nearest + 100),
            (nearest, 60_000),
            (18_000, 23_000),
            (20_000, 20_000),
            (farthest, farthest),
        ]);
        let mut depths: Vec<u32> =
            (0..length).map(|_| self.random.within(first, last) as u32).collect();
        if length == 0 {
            return depths;
        }
        if self.random.once_in(4) {
            depths[self.random.below(length)] = 0;
        }
        if self.random.once_in(FAULT) {
            depths[self.random.below(length)] = self.random.pick(&[FARTHEST + 1, u32::MAX]);
        }
        if self.random.once_in(FAULT) {
            depths[self.random.below(length)] = self.random.pick(&[1, lens.focal]);
        }
        depths
    }
}
