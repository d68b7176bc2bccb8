//! What each call refuses, in the table's order.

use crate::layout::Layout;
use crate::word::{Pixel, split_entry};
use crate::{Change, Checked, Lens, State, kernel};

const FARTHEST: u32 = 10_000_000;
const TOP_LOG: usize = 65_535;
const TOP_VALUE: u16 = 4_095;

fn require(lawful: bool, number: u32) -> Checked<()> {
    if lawful { Ok(()) } else { Err(number) }
}

fn sizes(state: State) -> Checked<Layout> {
    let lawful = (1..=4_096).contains(&state.width)
        && (1..=4_096).contains(&state.height)
        && state.width * state.height <= 2_097_152
        && state.reach <= 64;
    require(lawful, 1)?;
    Ok(Layout::of(state))
}

/// 1 to 3, for the calls that are lent planes, pixels and log.
pub(crate) fn plate(
    state: State,
    planes: &[u64],
    pixels: &[u64],
    log: &[u64],
) -> Checked<Layout> {
    let layout = sizes(state)?;
    let lengths = planes.len() == 14 * layout.cells
        && pixels.len() == state.width * state.height
        && log.len() <= TOP_LOG;
    require(lengths, 2)?;
    require(state.count <= log.len(), 3)?;
    Ok(layout)
}

/// With the pixel that stands at the place. Inlined, as undo's: handing the change over
/// through memory costs more than the checks.
#[inline]
pub(crate) fn put(
    state: State,
    x: usize,
    y: usize,
    new: Pixel,
    planes: &[u64],
    pixels: &[u64],
    log: &[u64],
) -> Checked<Change> {
    let layout = plate(state, planes, pixels, log)?;
    require(x < state.width && y < state.height, 4)?;
    require(new.value <= TOP_VALUE, 5)?;
    require(kernel::is_shape(new.shape), 6)?;
    require(usize::from(new.radius) <= kernel::top_under(new.shape, state.reach), 7)?;
    require(state.count < log.len(), 8)?;
    let place = y * state.width + x;
    let old = Pixel::from_word(pixels[place], state.reach).ok_or(10u32)?;
    Ok(Change { layout, place, x, y, old, new })
}

/// With the pixel that stands at the last entry's place and the one to restore.
#[inline]
pub(crate) fn undo(
    state: State,
    planes: &[u64],
    pixels: &[u64],
    log: &[u64],
) -> Checked<Change> {
    let layout = plate(state, planes, pixels, log)?;
    require(state.count > 0, 9)?;
    let (place, word) = split_entry(log[state.count - 1]);
    require(place < pixels.len(), 10)?;
    let old = Pixel::from_word(pixels[place], state.reach).ok_or(10u32)?;
    let new = Pixel::from_word(word, state.reach).ok_or(10u32)?;
    let (x, y) = (place % state.width, place / state.width);
    Ok(Change { layout, place, x, y, old, new })
}

/// 1, and 2 for what is kept: for the calls that mend it, before they look at the plate.
pub(crate) fn kept(state: State, sums: usize, values: usize, mattes: usize) -> Checked<()> {
    let layout = sizes(state)?;
    require(fits(layout, values, mattes) && sums == 2 * values, 2)
}

fn fits(layout: Layout, values: usize, mattes: usize) -> bool {
    let cells = layout.width * layout.height;
    values == cells && mattes == cells
}

#[expect(clippy::too_many_arguments, reason = "all that fill is lent")]
pub(crate) fn fill(
    state: State,
    lens: Lens,
    shape: u8,
    values: &[u16],
    opacities: &[u8],
    depths: &[u32],
    planes: &[u64],
    pixels: &[u64],
    log: &[u64],
) -> Checked<Layout> {
    let layout = sizes(state)?;
    let cells = state.width * state.height;
    let inputs = values.len() == cells && opacities.len() == cells && depths.len() == cells;
    require(inputs, 2)?;
    plate(state, planes, pixels, log)?;
    require(values.iter().all(|&value| value <= TOP_VALUE), 5)?;
    require(kernel::is_shape(shape), 6)?;
    let lens_lawful = (1..=4_000).contains(&lens.opening)
        && (1..=4_000).contains(&lens.focal)
        && lens.focus > lens.focal
        && lens.focus <= FARTHEST
        && (1..=1_000).contains(&lens.pitch);
    require(lens_lawful, 11)?;
    require(depths.iter().all(|&depth| depth <= FARTHEST), 12)?;
    require(depths.iter().all(|&depth| depth == 0 || depth > lens.focal), 17)?;
    Ok(layout)
}

pub(crate) fn show(
    state: State,
    planes: usize,
    scratch: usize,
    values: usize,
    mattes: usize,
) -> Checked<Layout> {
    let layout = sizes(state)?;
    require(spans(layout, planes, scratch) && fits(layout, values, mattes), 2)?;
    Ok(layout)
}

pub(crate) fn total(state: State, planes: usize, scratch: usize) -> Checked<Layout> {
    let layout = sizes(state)?;
    require(spans(layout, planes, scratch), 2)?;
    Ok(layout)
}

fn spans(layout: Layout, planes: usize, scratch: usize) -> bool {
    planes == 14 * layout.cells && scratch == 3 * layout.cells
}
