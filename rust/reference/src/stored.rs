//! What each call answers and leaves in the cells it is lent, whatever they held:
//! the section Calls, word by word, on top of the table of refusals.
//!
//! The notebook covers lists of calls on one plate; this covers hostile states,
//! lengths and stored cells, where there is no grid behind the plate.

use crate::kept::{Change, Kept};
use crate::kernel::Shape;
use crate::marks::{Layout, PLANES, finished, finished_padded, lay};
use crate::pixel::{Pixel, entry, from_entry};
use crate::table::{Call, Plate, expected_refusal};
use crate::{Answer, Fill, Put, State, Totals};

fn refused(number: u32, state: State) -> Answer {
    Answer { number, marks: 0, state }
}

pub fn open(sizes: State, planes: &mut [u64], pixels: &mut [u64], log: &mut [u64]) -> Answer {
    let state = State { count: 0, ..sizes };
    let plate = Plate { planes: planes.len(), pixels, log, kept: None };
    match expected_refusal(Call::Open, state, plate) {
        0 => {
            planes.fill(0);
            pixels.fill(0);
            log.fill(0);
            Answer { number: 0, marks: 0, state }
        }
        number => refused(number, State::default()),
    }
}

pub fn put(
    state: State,
    put: Put,
    planes: &mut [u64],
    pixels: &mut [u64],
    log: &mut [u64],
) -> Answer {
    put_and_mend(state, put, planes, pixels, log, None)
}

pub fn put_kept(
    state: State,
    put: Put,
    planes: &mut [u64],
    pixels: &mut [u64],
    log: &mut [u64],
    kept: Kept,
) -> Answer {
    put_and_mend(state, put, planes, pixels, log, Some(kept))
}

fn put_and_mend(
    state: State,
    put: Put,
    planes: &mut [u64],
    pixels: &mut [u64],
    log: &mut [u64],
    kept: Option<Kept>,
) -> Answer {
    let lengths = kept.as_ref().map(Kept::lengths);
    let plate = Plate { planes: planes.len(), pixels, log, kept: lengths };
    match expected_refusal(Call::Put(put), state, plate) {
        0 => {}
        number => return refused(number, state),
    }
    let place = put.y * state.width + put.x;
    let old = pixel_of(pixels[place], state);
    let shape = Shape::from_number(put.shape).expect("not refused");
    let new = Pixel { value: put.value, opacity: put.opacity, shape, radius: put.radius };
    log[state.count] = entry(place, old);
    let marks = change(state, Change { place, old, new }, planes, pixels, kept);
    Answer { number: 0, marks, state: State { count: state.count + 1, ..state } }
}

pub fn undo(state: State, planes: &mut [u64], pixels: &mut [u64], log: &mut [u64]) -> Answer {
    undo_and_mend(state, planes, pixels, log, None)
}

pub fn undo_kept(
    state: State,
    planes: &mut [u64],
    pixels: &mut [u64],
    log: &mut [u64],
    kept: Kept,
) -> Answer {
    undo_and_mend(state, planes, pixels, log, Some(kept))
}

fn undo_and_mend(
    state: State,
    planes: &mut [u64],
    pixels: &mut [u64],
    log: &mut [u64],
    kept: Option<Kept>,
) -> Answer {
    let lengths = kept.as_ref().map(Kept::lengths);
    let plate = Plate { planes: planes.len(), pixels, log, kept: lengths };
    match expected_refusal(Call::Undo, state, plate) {
        0 => {}
        number => return refused(number, state),
    }
    let last = state.count - 1;
    let (place, new) = from_entry(log[last], pixels.len(), state.reach).expect("not refused");
    let old = pixel_of(pixels[place], state);
    log[last] = 0;
    let marks = change(state, Change { place, old, new }, planes, pixels, kept);
    Answer { number: 0, marks, state: State { count: last, ..state } }
}

fn pixel_of(word: u64, state: State) -> Pixel {
    Pixel::from_word(word, state.reach).expect("not refused")
}

/// Takes the old pixel's marks off, sets the new pixel, mends what is kept if the call is lent
/// that, and counts the table's marks of both.
fn change(
    state: State,
    change: Change,
    planes: &mut [u64],
    pixels: &mut [u64],
    kept: Option<Kept>,
) -> u32 {
    let Change { place, old, new } = change;
    let layout = Layout::of(state.width, state.height, state.reach);
    let (x, y) = (place % state.width, place / state.width);
    lay(planes, layout, x, y, old, -1);
    lay(planes, layout, x, y, new, 1);
    pixels[place] = new.word();
    if let Some(mut kept) = kept {
        kept.mend(state.width, change);
    }
    old.shape.marks() + new.shape.marks()
}

pub fn fill(
    state: State,
    fill: &Fill,
    planes: &mut [u64],
    pixels: &mut [u64],
    log: &mut [u64],
) -> Answer {
    let plate = Plate { planes: planes.len(), pixels, log, kept: None };
    match expected_refusal(Call::Fill(*fill), state, plate) {
        0 => {}
        number => return refused(number, state),
    }
    let layout = Layout::of(state.width, state.height, state.reach);
    let shape = Shape::from_number(fill.shape).expect("not refused");
    let top = shape.top_under(state.reach);
    planes.fill(0);
    log.fill(0);
    for (place, word) in pixels.iter_mut().enumerate() {
        let pixel = Pixel {
            value: fill.values[place],
            opacity: fill.opacities[place],
            shape,
            radius: fill.lens.radius(fill.depths[place], top),
        };
        *word = pixel.word();
        lay(planes, layout, place % state.width, place / state.width, pixel, 1);
    }
    Answer { number: 0, marks: 0, state: State { count: 0, ..state } }
}

pub fn show(
    state: State,
    planes: &[u64],
    scratch: &mut [u64],
    values: &mut [u16],
    mattes: &mut [u8],
) -> Answer {
    let lengths =
        Call::Show { scratch: scratch.len(), values: values.len(), mattes: mattes.len() };
    let plate = Plate { planes: planes.len(), pixels: &[], log: &[], kept: None };
    match expected_refusal(lengths, state, plate) {
        0 => {}
        number => return refused(number, state),
    }
    let mut sums = finished_sums(state, planes);
    draw(Kept { sums: &mut sums, values, mattes });
    scratch.fill(0);
    Answer { number: 0, marks: 0, state }
}

pub fn show_kept(state: State, planes: &[u64], scratch: &mut [u64], kept: Kept) -> Answer {
    let lent = kept.lengths();
    let lengths =
        Call::Show { scratch: scratch.len(), values: lent.values, mattes: lent.mattes };
    let plate = Plate { planes: planes.len(), pixels: &[], log: &[], kept: Some(lent) };
    match expected_refusal(lengths, state, plate) {
        0 => {}
        number => return refused(number, state),
    }
    kept.sums.copy_from_slice(&finished_sums(state, planes));
    draw(kept);
    scratch.fill(0);
    Answer { number: 0, marks: 0, state }
}

/// The finished sums of the image cells, all light ones by place, then all matte ones.
fn finished_sums(state: State, planes: &[u64]) -> Vec<u64> {
    let layout = Layout::of(state.width, state.height, state.reach);
    let (light, matte) = planes.split_at(PLANES * layout.cells());
    [finished(light, layout), finished(matte, layout)].concat()
}

pub fn total(state: State, planes: &[u64], scratch: &mut [u64]) -> Totals {
    let length = Call::Total { scratch: scratch.len() };
    let plate = Plate { planes: planes.len(), pixels: &[], log: &[], kept: None };
    match expected_refusal(length, state, plate) {
        0 => {}
        number => return Totals::none(refused(number, state)),
    }
    let layout = Layout::of(state.width, state.height, state.reach);
    let (light, matte) = planes.split_at(PLANES * layout.cells());
    scratch.fill(0);
    Totals {
        answer: Answer { number: 0, marks: 0, state },
        matte: added_up(&finished_padded(matte, layout)),
        light: added_up(&finished_padded(light, layout)),
    }
}

fn added_up(sums: &[u64]) -> u64 {
    sums.iter().fold(0, |total, sum| total.wrapping_add(*sum))
}

/// Both pictures from the sums.
fn draw(mut kept: Kept) {
    for cell in 0..kept.values.len() {
        kept.round(cell);
    }
}
