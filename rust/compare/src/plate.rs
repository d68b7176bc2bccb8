//! A plate with its own buffers, for calls made one by one.

use reference::kept::Kept;
use reference::marks::{Layout, PLANES, plane_of_slope};
use reference::{Answer, Fill, Lens, Put, State, Totals};

use crate::engine::Engine;

pub struct Plate {
    pub state: State,
    pub planes: Vec<u64>,
    pub pixels: Vec<u64>,
    log: Vec<u64>,
}

/// The finished sums of a cell.
#[derive(Clone, Copy, Debug)]
pub struct Sums {
    pub light: u64,
    pub matte: u64,
}

/// What every pixel of a flat layer has.
#[derive(Clone, Copy, Debug)]
pub struct Flat {
    pub value: u16,
    pub opacity: u8,
    pub depth: u32,
}

impl Plate {
    pub fn open<E: Engine>(width: usize, height: usize, reach: usize, room: usize) -> Plate {
        let cells = Layout::of(width, height, reach).all_planes();
        let mut plate = Plate {
            state: State::default(),
            planes: vec![0; cells],
            pixels: vec![0; width * height],
            log: vec![0; room],
        };
        let answer =
            E::open(width, height, reach, &mut plate.planes, &mut plate.pixels, &mut plate.log);
        assert_eq!(answer.number, 0);
        plate.state = answer.state;
        plate
    }

    /// One row high, with planes that no call makes: their finished sums are these.
    pub fn with_sums<E: Engine>(sums: &[Sums]) -> Plate {
        let mut plate = Plate::open::<E>(sums.len(), 1, 0, 0);
        let layout = Layout::of(sums.len(), 1, 0);
        let (light, matte) = plate.planes.split_at_mut(PLANES * layout.cells());
        mark_row(light, layout, sums.iter().map(|sums| sums.light));
        mark_row(matte, layout, sums.iter().map(|sums| sums.matte));
        plate
    }

    pub fn put<E: Engine>(&mut self, put: Put) -> Answer {
        let Plate { state, planes, pixels, log } = self;
        let answer = E::put(*state, put, planes, pixels, log);
        *state = answer.state;
        answer
    }

    pub fn undo<E: Engine>(&mut self) -> Answer {
        let Plate { state, planes, pixels, log } = self;
        let answer = E::undo(*state, planes, pixels, log);
        *state = answer.state;
        answer
    }

    pub fn put_kept<E: Engine>(&mut self, put: Put, kept: Kept) -> Answer {
        let Plate { state, planes, pixels, log } = self;
        let answer = E::put_kept(*state, put, planes, pixels, log, kept);
        *state = answer.state;
        answer
    }

    pub fn undo_kept<E: Engine>(&mut self, kept: Kept) -> Answer {
        let Plate { state, planes, pixels, log } = self;
        let answer = E::undo_kept(*state, planes, pixels, log, kept);
        *state = answer.state;
        answer
    }

    /// A fill with a flat layer.
    pub fn fill<E: Engine>(&mut self, lens: Lens, shape: u8, flat: Flat) -> Answer {
        let Plate { state, planes, pixels, log } = self;
        let cells = pixels.len();
        let fill = Fill {
            lens,
            shape,
            values: &vec![flat.value; cells],
            opacities: &vec![flat.opacity; cells],
            depths: &vec![flat.depth; cells],
        };
        let answer = E::fill(*state, &fill, planes, pixels, log);
        *state = answer.state;
        answer
    }

    /// The two pictures, values and mattes.
    pub fn show<E: Engine>(&self) -> (Vec<u16>, Vec<u8>) {
        let mut scratch = vec![0; self.planes.len() / 14 * 3];
        let mut values = vec![0; self.pixels.len()];
        let mut mattes = vec![0; self.pixels.len()];
        let answer = E::show(self.state, &self.planes, &mut scratch, &mut values, &mut mattes);
        assert_eq!(answer.number, 0);
        (values, mattes)
    }

    /// What it adds up to, after making sure that the scratch is left all zero.
    pub fn total<E: Engine>(&self) -> Totals {
        let mut scratch = vec![u64::MAX; self.planes.len() / 14 * 3];
        let totals = E::total(self.state, &self.planes, &mut scratch);
        assert_eq!(totals.answer, Answer { number: 0, marks: 0, state: self.state });
        assert!(scratch.iter().all(|&cell| cell == 0), "{}: scratch of a total", E::NAME);
        totals
    }
}

/// Slope 0 is summed across, so each mark is what its sum has more than the one before.
fn mark_row(planes: &mut [u64], layout: Layout, sums: impl Iterator<Item = u64>) {
    let level = &mut planes[plane_of_slope(0) * layout.cells()..];
    let mut before = 0;
    for (mark, sum) in level[layout.first()..].iter_mut().zip(sums) {
        *mark = sum.wrapping_sub(before);
        before = sum;
    }
}
