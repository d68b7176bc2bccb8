//! The paper's method written by hand: marks, then directional sums.
//!
//! This is what a careful programmer would write without a prover, and it is the
//! baseline of the benchmark. The calls take the same arguments as the C
//! interface, on slices. Put and undo touch the cells of their marks and no others;
//! fill lays each pixel's marks once; show and total go over the rows of light, then over
//! those of matte, and read each plane once, or twice where somebody else wrote to the
//! planes. Nothing costs more at a greater radius, but for the forms of put and undo that
//! mend kept pictures: they visit each cell that changes.

mod check;
mod divide;
mod kept;
mod kernel;
mod layout;
mod show;
mod sums;
mod total;
mod word;

use divide::Half;
use kernel::{Pen, Worths};
use layout::Layout;
use word::Pixel;

pub use kept::{put_kept, undo_kept};
pub use show::{show, show_kept};
pub use total::{Totals, total};

#[derive(Clone, Copy, Debug, Default, PartialEq, Eq)]
pub struct State {
    pub width: usize,
    pub height: usize,
    pub reach: usize,
    pub count: usize,
}

#[derive(Clone, Copy, Debug)]
pub struct Lens {
    pub opening: u32,
    pub focal: u32,
    pub focus: u32,
    pub pitch: u32,
}

#[derive(Clone, Copy, Debug, PartialEq, Eq)]
pub struct Answer {
    pub number: u32,
    pub marks: u32,
    pub state: State,
}

/// The number of a refusal, or what the accepted call goes on with.
type Checked<T> = Result<T, u32>;

/// One pixel exchanged for another.
#[derive(Clone, Copy)]
struct Change {
    layout: Layout,
    place: usize,
    x: usize,
    y: usize,
    old: Pixel,
    new: Pixel,
}

fn refused(number: u32, state: State) -> Answer {
    Answer { number, marks: 0, state }
}

pub fn open(
    width: usize,
    height: usize,
    reach: usize,
    planes: &mut [u64],
    pixels: &mut [u64],
    log: &mut [u64],
) -> Answer {
    let state = State { width, height, reach, count: 0 };
    match check::plate(state, planes, pixels, log) {
        Err(number) => refused(number, State::default()),
        Ok(_) => {
            planes.fill(0);
            pixels.fill(0);
            log.fill(0);
            Answer { number: 0, marks: 0, state }
        }
    }
}

#[expect(clippy::too_many_arguments, reason = "the C interface's arguments")]
pub fn put(
    state: State,
    x: usize,
    y: usize,
    value: u16,
    opacity: u8,
    shape: u8,
    radius: u8,
    planes: &mut [u64],
    pixels: &mut [u64],
    log: &mut [u64],
) -> Answer {
    let new = Pixel { value, opacity, shape, radius };
    match check::put(state, x, y, new, planes, pixels, log) {
        Err(number) => refused(number, state),
        Ok(change) => do_put(state, change, planes, pixels, log),
    }
}

#[inline]
fn do_put(
    state: State,
    change: Change,
    planes: &mut [u64],
    pixels: &mut [u64],
    log: &mut [u64],
) -> Answer {
    let Change { place, new, .. } = change;
    log[state.count] = word::entry(place, pixels[place]);
    pixels[place] = new.word();
    let marks = exchange(planes, change);
    Answer { number: 0, marks, state: State { count: state.count + 1, ..state } }
}

pub fn undo(state: State, planes: &mut [u64], pixels: &mut [u64], log: &mut [u64]) -> Answer {
    match check::undo(state, planes, pixels, log) {
        Err(number) => refused(number, state),
        Ok(change) => do_undo(state, change, planes, pixels, log),
    }
}

#[inline]
fn do_undo(
    state: State,
    change: Change,
    planes: &mut [u64],
    pixels: &mut [u64],
    log: &mut [u64],
) -> Answer {
    let Change { place, new, .. } = change;
    let count = state.count - 1;
    log[count] = 0;
    pixels[place] = new.word();
    let marks = exchange(planes, change);
    Answer { number: 0, marks, state: State { count, ..state } }
}

/// Takes the old pixel's marks off and lays the new one's; the table's marks of both.
fn exchange(planes: &mut [u64], change: Change) -> u32 {
    let Change { layout, x, y, old, new, .. } = change;
    let centre = layout.centre(x, y);
    kernel::lay(planes, layout, centre, old, Worths::of(old).negated());
    kernel::lay(planes, layout, centre, new, Worths::of(new));
    kernel::MARKS[usize::from(old.shape)] + kernel::MARKS[usize::from(new.shape)]
}

#[expect(clippy::too_many_arguments, reason = "the C interface's arguments")]
pub fn fill(
    state: State,
    lens: Lens,
    shape: u8,
    values: &[u16],
    opacities: &[u8],
    depths: &[u32],
    planes: &mut [u64],
    pixels: &mut [u64],
    log: &mut [u64],
) -> Answer {
    match check::fill(state, lens, shape, values, opacities, depths, planes, pixels, log) {
        Err(number) => refused(number, state),
        Ok(layout) => {
            planes.fill(0);
            log.fill(0);
            let all = All { lens, values, opacities, depths };
            let top = kernel::top_under(shape, state.reach) as u64;
            match shape {
                0 => all.lay::<0>(top, layout, planes, pixels),
                1 => all.lay::<1>(top, layout, planes, pixels),
                2 => all.lay::<2>(top, layout, planes, pixels),
                3 => all.lay::<3>(top, layout, planes, pixels),
                4 => all.lay::<4>(top, layout, planes, pixels),
                _ => all.lay::<5>(top, layout, planes, pixels),
            }
            Answer { number: 0, marks: 0, state: State { count: 0, ..state } }
        }
    }
}

/// What fill is given for all pixels.
struct All<'a> {
    lens: Lens,
    values: &'a [u16],
    opacities: &'a [u8],
    depths: &'a [u32],
}

impl All<'_> {
    /// Sets every pixel and lays its marks.
    fn lay<const SHAPE: u8>(
        &self,
        top: u64,
        layout: Layout,
        planes: &mut [u64],
        pixels: &mut [u64],
    ) {
        for y in 0..layout.height {
            for x in 0..layout.width {
                let place = y * layout.width + x;
                let pixel = Pixel {
                    value: self.values[place],
                    opacity: self.opacities[place],
                    shape: SHAPE,
                    radius: radius(self.lens, self.depths[place], top),
                };
                pixels[place] = pixel.word();
                let centre = layout.centre(x, y);
                Pen { planes, layout, centre }.lay::<SHAPE>(pixel.radius, Worths::of(pixel));
            }
        }
    }
}

/// The radius of a lawful lens at a lawful depth. Both products stay below 2^57.
fn radius(lens: Lens, depth: u32, top: u64) -> u8 {
    let [opening, focal, focus, pitch] =
        [lens.opening, lens.focal, lens.focus, lens.pitch].map(u64::from);
    let depth = u64::from(depth);
    let above = 500 * opening * focal;
    let below = pitch * (focus - focal);
    if depth == 0 {
        divide::nearest(above, below, Half::Up, top) as u8
    } else {
        divide::nearest(above * depth.abs_diff(focus), below * depth, Half::Up, top) as u8
    }
}
