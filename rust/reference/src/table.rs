//! The table of refused calls, read directly: for any state and anything lent.

use crate::kept::KeptLengths;
use crate::kernel::Shape;
use crate::marks::Layout;
use crate::pixel::{Pixel, from_entry};
use crate::radius::FARTHEST;
use crate::rounding::TOP_VALUE;
use crate::{Fill, Lens, Put, State};

/// A call with what it alone is lent.
#[derive(Clone, Copy, Debug)]
pub enum Call<'a> {
    Open,
    Put(Put),
    Undo,
    Fill(Fill<'a>),
    /// The lengths of scratch and of the two pictures.
    Show {
        scratch: usize,
        values: usize,
        mattes: usize,
    },
    /// The length of scratch.
    Total {
        scratch: usize,
    },
}

/// What calls are lent of the plate: the planes' length, and pixels and log themselves.
/// Show and total are lent no pixels and no log: whatever stands here is not looked at. The
/// second form of a call is told from the first by what it is lent to keep.
#[derive(Clone, Copy, Debug)]
pub struct Plate<'a> {
    pub planes: usize,
    pub pixels: &'a [u64],
    pub log: &'a [u64],
    pub kept: Option<KeptLengths>,
}

/// The longest log.
pub const TOP_LOG: usize = 65_535;

/// The numbers that calls refuse with, in the order in which they are checked: 13 to 16 are
/// the record program's.
pub const NUMBERS: [u32; 13] = [1, 2, 3, 4, 5, 6, 7, 8, 9, 10, 11, 12, 17];

/// The first number that applies, or 0. Open's sizes come as the state.
pub fn expected_refusal(call: Call, state: State, plate: Plate) -> u32 {
    // A number is looked at only when none before it applies, so each condition may
    // rely on those before it.
    NUMBERS.into_iter().find(|&number| applies(number, call, state, plate)).unwrap_or(0)
}

fn applies(number: u32, call: Call, state: State, plate: Plate) -> bool {
    match number {
        1 => sizes_outside(state),
        2 => wrong_length(call, state, plate),
        3 => count_above_log(call, state, plate),
        4 => matches!(call, Call::Put(put) if put.x >= state.width || put.y >= state.height),
        5 => value_above(call),
        6 => shape_of(call).is_some_and(|shape| shape > 5),
        7 => radius_above(call, state),
        8 => matches!(call, Call::Put(_)) && state.count == plate.log.len(),
        9 => matches!(call, Call::Undo) && state.count == 0,
        10 => stored_breaks(call, state, plate),
        11 => matches!(call, Call::Fill(fill) if !fill.lens.is_lawful()),
        12 => some_depth(call, |_, depth| depth > FARTHEST),
        17 => some_depth(call, Lens::is_inside),
        _ => unreachable!("calls know no number {number}"),
    }
}

pub(crate) fn sizes_outside(state: State) -> bool {
    !(1..=4_096).contains(&state.width)
        || !(1..=4_096).contains(&state.height)
        || state.width * state.height > 2_097_152
        || state.reach > 64
}

fn wrong_length(call: Call, state: State, plate: Plate) -> bool {
    let layout = Layout::of(state.width, state.height, state.reach);
    let cells = state.width * state.height;
    let planes = plate.planes != layout.all_planes();
    let kept = plate.kept.is_some_and(|lengths| lengths != KeptLengths::of(cells));
    let pixels = plate.pixels.len() != cells;
    let log = plate.log.len() > TOP_LOG;
    match call {
        Call::Open | Call::Put(_) | Call::Undo => planes || pixels || log || kept,
        Call::Fill(fill) => {
            let inputs = [fill.values.len(), fill.opacities.len(), fill.depths.len()];
            planes || pixels || log || inputs.iter().any(|&length| length != cells)
        }
        Call::Show { scratch, values, mattes } => {
            let scratch = scratch != 3 * layout.cells();
            planes || scratch || values != cells || mattes != cells || kept
        }
        Call::Total { scratch } => planes || scratch != 3 * layout.cells(),
    }
}

/// Open has no count yet, and show and total are not lent the log.
fn count_above_log(call: Call, state: State, plate: Plate) -> bool {
    let has_log = !matches!(call, Call::Open | Call::Show { .. } | Call::Total { .. });
    has_log && state.count > plate.log.len()
}

fn value_above(call: Call) -> bool {
    match call {
        Call::Put(put) => put.value > TOP_VALUE,
        Call::Fill(fill) => fill.values.iter().any(|&value| value > TOP_VALUE),
        _ => false,
    }
}

fn shape_of(call: Call) -> Option<u8> {
    match call {
        Call::Put(put) => Some(put.shape),
        Call::Fill(fill) => Some(fill.shape),
        _ => None,
    }
}

fn radius_above(call: Call, state: State) -> bool {
    let Call::Put(put) = call else {
        return false;
    };
    let shape = Shape::from_number(put.shape).expect("6 does not apply");
    usize::from(put.radius) > shape.top_under(state.reach)
}

fn some_depth(call: Call, such: impl Fn(Lens, u32) -> bool) -> bool {
    matches!(call, Call::Fill(fill) if fill.depths.iter().any(|&depth| such(fill.lens, depth)))
}

/// Put reads the word at its place, undo the last entry and the word at its place.
fn stored_breaks(call: Call, state: State, plate: Plate) -> bool {
    let word_breaks =
        |place: usize| Pixel::from_word(plate.pixels[place], state.reach).is_none();
    match call {
        Call::Put(put) => word_breaks(put.y * state.width + put.x),
        Call::Undo => {
            let places = state.width * state.height;
            match from_entry(plate.log[state.count - 1], places, state.reach) {
                Some((place, _)) => word_breaks(place),
                None => true,
            }
        }
        _ => false,
    }
}
