//! Show: the finished sums of light whole, then those of matte, then both pictures from them.
//!
//! One channel after the other, so that seven planes are read at once and not fourteen, and
//! with the same accumulators. The finished sums of both are kept meanwhile, at the front of
//! the scratch, or where the second form of the call hands them out.

use crate::divide::{self, Half};
use crate::layout::Layout;
use crate::sums::{PART, Sums};
use crate::{Answer, State, check, refused};

pub fn show(
    state: State,
    planes: &[u64],
    scratch: &mut [u64],
    values: &mut [u16],
    mattes: &mut [u8],
) -> Answer {
    match check::show(state, planes.len(), scratch.len(), values.len(), mattes.len()) {
        Err(number) => refused(number, state),
        Ok(layout) => {
            let (kept, rest) = scratch.split_at_mut(2 * values.len());
            draw(layout, planes, rest, kept, values, mattes);
            scratch.fill(0);
            Answer { number: 0, marks: 0, state }
        }
    }
}

/// Show that hands the finished sums out too, all light ones by place, then all matte ones.
pub fn show_kept(
    state: State,
    planes: &[u64],
    scratch: &mut [u64],
    values: &mut [u16],
    mattes: &mut [u8],
    sums: &mut [u64],
) -> Answer {
    let checked = check::kept(state, sums.len(), values.len(), mattes.len()).and_then(|()| {
        check::show(state, planes.len(), scratch.len(), values.len(), mattes.len())
    });
    match checked {
        Err(number) => refused(number, state),
        Ok(layout) => {
            draw(layout, planes, scratch, sums, values, mattes);
            scratch.fill(0);
            Answer { number: 0, marks: 0, state }
        }
    }
}

/// Writes the image's finished sums, light before matte, and both pictures from them.
fn draw(
    layout: Layout,
    planes: &[u64],
    scratch: &mut [u64],
    kept: &mut [u64],
    values: &mut [u16],
    mattes: &mut [u8],
) {
    let (light_planes, matte_planes) = planes.split_at(planes.len() / 2);
    let (light, matte) = kept.split_at_mut(values.len());
    keep_channel(layout, light_planes, scratch, light);
    keep_channel(layout, matte_planes, scratch, matte);
    round(light, matte, values, mattes);
}

/// Every scratch has room for the kept sums of both channels and the accumulators of one.
fn keep_channel(layout: Layout, planes: &[u64], scratch: &mut [u64], kept: &mut [u64]) {
    let mut sums = Sums::new(layout, layout.to_image_end(), planes, scratch);
    keep_rows(layout, &mut sums, kept);
    sums.leave_rows();
    if sums.missed_totals() {
        sums.start_with_totals();
        keep_rows(layout, &mut sums, kept);
    }
}

/// A run down to the image's last row.
fn keep_rows(layout: Layout, sums: &mut Sums, kept: &mut [u64]) {
    (0..layout.margin).for_each(|row| sums.add_row(row));
    for (row, kept) in (layout.margin..).zip(kept.chunks_exact_mut(layout.width)) {
        sums.add_row(row);
        keep_row(&sums.down[layout.margin..], kept);
    }
}

/// Short copies: a long one may go past the caches, where the kept sums are looked for next.
fn keep_row(finished: &[u64], kept: &mut [u64]) {
    for (kept, finished) in kept.chunks_mut(PART).zip(finished.chunks(PART)) {
        kept.copy_from_slice(finished);
    }
}

/// Both pictures from the finished sums.
pub(crate) fn round(light: &[u64], matte: &[u64], values: &mut [u16], mattes: &mut [u8]) {
    let shown = values.iter_mut().zip(mattes);
    for ((value, shown_matte), (&light, &matte)) in shown.zip(light.iter().zip(matte)) {
        *value = match matte {
            0 => 0,
            _ => divide::nearest(light, matte, Half::Even, 4_095) as u16,
        };
        *shown_matte = ((matte >> 23) + (matte >> 22 & 1)).min(255) as u8;
    }
}
