//! Put and undo that mend what is kept beside the plate: finished sums and both pictures.
//!
//! A changed pixel changes only cells where the old or the new kernel has a tap. These are,
//! in each row, a run of cells around the pixel's column; so the rows of the larger of the
//! two squares are visited, as far as they are on the image, and in each the wider of the
//! two runs. Where all taps are 1, a run needs no more than two different numbers: one up to
//! the end of the narrower run, one beyond it.

use std::ops::Range;

use crate::kernel::{BOXES, Worth, Worths};
use crate::show::round;
use crate::word::Pixel;
use crate::{Answer, Change, State, check, do_put, do_undo, refused};

#[expect(clippy::too_many_arguments, reason = "the C interface's arguments")]
pub fn put_kept(
    state: State,
    x: usize,
    y: usize,
    value: u16,
    opacity: u8,
    shape: u8,
    radius: u8,
    planes: &mut [u64],
    pixels: &mut [u64],
    log: &mut [u64],
    sums: &mut [u64],
    values: &mut [u16],
    mattes: &mut [u8],
) -> Answer {
    let new = Pixel { value, opacity, shape, radius };
    let checked = check::kept(state, sums.len(), values.len(), mattes.len())
        .and_then(|()| check::put(state, x, y, new, planes, pixels, log));
    match checked {
        Err(number) => refused(number, state),
        Ok(change) => {
            Kept::of(sums, values, mattes).mend(change);
            do_put(state, change, planes, pixels, log)
        }
    }
}

pub fn undo_kept(
    state: State,
    planes: &mut [u64],
    pixels: &mut [u64],
    log: &mut [u64],
    sums: &mut [u64],
    values: &mut [u16],
    mattes: &mut [u8],
) -> Answer {
    let checked = check::kept(state, sums.len(), values.len(), mattes.len())
        .and_then(|()| check::undo(state, planes, pixels, log));
    match checked {
        Err(number) => refused(number, state),
        Ok(change) => {
            Kept::of(sums, values, mattes).mend(change);
            do_undo(state, change, planes, pixels, log)
        }
    }
}

/// The sums of both channels, and the pictures: of all cells, or of some that follow one
/// another.
struct Kept<'a> {
    light: &'a mut [u64],
    matte: &'a mut [u64],
    values: &'a mut [u16],
    mattes: &'a mut [u8],
}

impl<'a> Kept<'a> {
    fn of(sums: &'a mut [u64], values: &'a mut [u16], mattes: &'a mut [u8]) -> Kept<'a> {
        let (light, matte) = sums.split_at_mut(values.len());
        Kept { light, matte, values, mattes }
    }

    fn mend(&mut self, change: Change) {
        let Change { layout, place, x, y, old, new } = change;
        let (off, on) = (Worths::of(old).negated(), Worths::of(new));
        // Before the row of the centre is rounded.
        self.part(place..place + 1).add(off.centre.plus(on.centre));
        let brushes = [Brush::of(old, off.taps), Brush::of(new, on.taps)];
        let reach = brushes[0].reach().max(brushes[1].reach());
        let flat = brushes.iter().all(|brush| brush.is_flat());
        for row in y.saturating_sub(reach)..(y + reach + 1).min(layout.height) {
            let cells = self.part(row * layout.width..(row + 1) * layout.width);
            let dy = row.abs_diff(y);
            if flat {
                cells.mend_flat_row(x, dy, brushes);
            } else {
                cells.mend_stepped_row(x, dy, brushes);
            }
        }
    }

    #[inline]
    fn part(&mut self, cells: Range<usize>) -> Kept<'_> {
        Kept {
            light: &mut self.light[cells.clone()],
            matte: &mut self.matte[cells.clone()],
            values: &mut self.values[cells.clone()],
            mattes: &mut self.mattes[cells],
        }
    }

    /// Every tap is 1.
    #[inline]
    fn mend_flat_row(mut self, x: usize, dy: usize, [old, new]: [Brush; 2]) {
        let runs = [old.run(dy), new.run(dy)];
        let inner = self.columns(x, runs[0].min(runs[1]));
        let outer = self.columns(x, runs[0].max(runs[1]));
        let beyond = if runs[0] > runs[1] { old.worth } else { new.worth };
        self.part(outer.start..inner.start).add(beyond);
        self.part(inner.clone()).add(old.worth.plus(new.worth));
        self.part(inner.end..outer.end).add(beyond);
        self.part(outer).round();
    }

    /// A tent or a triple is among the two.
    fn mend_stepped_row(mut self, x: usize, dy: usize, brushes: [Brush; 2]) {
        let runs = brushes.map(|brush| brush.run(dy));
        for (brush, run) in brushes.into_iter().zip(runs).filter(|&(_, run)| run > 0) {
            let worth = brush.worth.times(brush.axis_tap(dy) as i64);
            let columns = self.columns(x, run);
            let Kept { light, matte, .. } = self.part(columns.clone());
            for ((light, matte), column) in light.iter_mut().zip(matte).zip(columns) {
                let worth = worth.times(brush.axis_tap(column.abs_diff(x)) as i64);
                *light = light.wrapping_add(worth.light);
                *matte = matte.wrapping_add(worth.matte);
            }
        }
        let outer = self.columns(x, runs[0].max(runs[1]));
        self.part(outer).round();
    }

    /// The columns of a run around x that are on the image; x .. x for a run of none.
    #[inline]
    fn columns(&self, x: usize, run: usize) -> Range<usize> {
        (x + usize::from(run > 0)).saturating_sub(run)..(x + run).min(self.light.len())
    }

    #[inline]
    fn add(self, worth: Worth) {
        for (light, matte) in self.light.iter_mut().zip(self.matte) {
            *light = light.wrapping_add(worth.light);
            *matte = matte.wrapping_add(worth.matte);
        }
    }

    #[inline]
    fn round(self) {
        round(self.light, self.matte, self.values, self.mattes);
    }
}

/// The kernel of a pixel, and what each of its taps adds or takes off.
#[derive(Clone, Copy)]
struct Brush {
    shape: u8,
    radius: usize,
    worth: Worth,
}

impl Brush {
    fn of(pixel: Pixel, worth: Worth) -> Brush {
        Brush { shape: pixel.shape, radius: usize::from(pixel.radius), worth }
    }

    fn boxes(self) -> usize {
        BOXES[usize::from(self.shape)]
    }

    fn is_flat(self) -> bool {
        self.boxes() == 1
    }

    fn reach(self) -> usize {
        self.boxes() * self.radius
    }

    /// How many cells from the centre's column outwards have a tap, so many rows away.
    #[inline]
    fn run(self, dy: usize) -> usize {
        let (r, t) = (self.radius, self.radius / 2);
        let (last_row, half_width) = match self.shape {
            3 => (r, r.wrapping_sub(dy)),
            4 => (2 * t, r.wrapping_sub(dy.div_ceil(2))),
            5 => (r, r.min((r + t).wrapping_sub(dy))),
            _ => (self.reach(), self.reach()),
        };
        if dy <= last_row { half_width + 1 } else { 0 }
    }

    /// The tap on one axis, so far from the centre and not past the reach. Two boxes convolved
    /// give 1, 2, 3, .. from the edge inwards; three give the sums of these, less three times
    /// the sums that start a box's width farther in.
    #[inline]
    fn axis_tap(self, away: usize) -> u64 {
        let from_edge = self.reach() + 1 - away;
        match self.shape {
            1 => from_edge as u64,
            2 => {
                let beyond = from_edge.saturating_sub(2 * self.radius + 1);
                (sum_to(from_edge) - 3 * sum_to(beyond)) as u64
            }
            _ => 1,
        }
    }
}

/// 1 + 2 + .. + n.
fn sum_to(n: usize) -> usize {
    n * (n + 1) / 2
}
