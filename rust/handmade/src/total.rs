//! Total: the finished sums of all padded cells, added up.
//!
//! The sums are those of show, with the same accumulators, but up to the last column and row
//! of the padded plane: a kernel at the border of the image reaches there.

use crate::layout::Layout;
use crate::sums::Sums;
use crate::{Answer, State, check, refused};

#[derive(Clone, Copy, Debug, PartialEq, Eq)]
pub struct Totals {
    pub answer: Answer,
    pub matte: u64,
    pub light: u64,
}

pub fn total(state: State, planes: &[u64], scratch: &mut [u64]) -> Totals {
    match check::total(state, planes.len(), scratch.len()) {
        Err(number) => Totals { answer: refused(number, state), matte: 0, light: 0 },
        Ok(layout) => {
            let (light, matte) = planes.split_at(planes.len() / 2);
            let light = add_up(layout, light, scratch);
            let matte = add_up(layout, matte, scratch);
            scratch.fill(0);
            Totals { answer: Answer { number: 0, marks: 0, state }, matte, light }
        }
    }
}

/// All finished sums of one channel, wrapped.
fn add_up(layout: Layout, planes: &[u64], scratch: &mut [u64]) -> u64 {
    let mut sums = Sums::new(layout, layout.to_end(), planes, scratch);
    let total = add_rows(layout, &mut sums);
    if !sums.missed_totals() {
        return total;
    }
    sums.start_with_totals();
    add_rows(layout, &mut sums)
}

/// One run over all rows.
fn add_rows(layout: Layout, sums: &mut Sums) -> u64 {
    let mut total = 0u64;
    for row in 0..layout.rows {
        sums.add_row(row);
        total = sums.down.iter().fold(total, |total, sum| total.wrapping_add(*sum));
    }
    total
}
