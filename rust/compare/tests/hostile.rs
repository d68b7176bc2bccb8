//! States, lengths and stored cells that no list of calls makes.
//!
//! Each call is made on the engine and on the reference's reading of the paper
//! (`reference::stored`, whose refusals are a direct reading of the table), with the same
//! arguments and the same cells. Answers and every cell must agree, refused or not.

use compare::engine::{Engine, Handmade, Stored};
use compare::guard::{Guarded, PlateBuffers};
use compare::lent::Lent;
use compare::numbers::Numbers;
use compare::random::Random;
use compare::say;
use compare::step::{Maker, Step};
use reference::State;
use reference::marks::Layout;

const CASES: usize = 72_000;

/// The refusals of a put and of an undo, in either form.
const PUT: &[u32] = &[1, 2, 3, 4, 5, 6, 7, 8, 10];
const UNDO: &[u32] = &[1, 2, 3, 9, 10];

/// The calls, and the refusals of each.
const CALLS: [(&str, &[u32]); 9] = [
    ("open", &[1, 2]),
    ("put", PUT),
    ("undo", UNDO),
    ("fill", &[1, 2, 3, 5, 6, 11, 12, 17]),
    ("show", &[1, 2]),
    ("put with kept pictures", PUT),
    ("undo with kept pictures", UNDO),
    ("show with kept pictures", &[1, 2]),
    ("total", &[1, 2]),
];

/// Every refusal of each call comes up.
fn hostile_calls<E: Engine>() {
    let random = &mut Random::new(21);
    let tally = &mut CALLS.map(|_| Numbers::default());
    for _ in 0..CASES {
        hostile_call::<E>(random, tally);
    }
    for ((call, refusals), numbers) in CALLS.iter().zip(tally) {
        say(&format!("{}, hostile {call}: {} calls, {numbers}", E::NAME, numbers.calls()));
        assert_eq!(numbers.refusals(), *refusals, "{}: hostile {call}", E::NAME);
    }
}

fn hostile_call<E: Engine>(random: &mut Random, tally: &mut [Numbers; CALLS.len()]) {
    let (width, height) = (random.within(1, 4), random.within(1, 4));
    let reach = if random.once_in(50) { random.within(0, 64) } else { random.within(0, 4) };
    let plate = hostile_plate(width, height, reach, random);
    let count = random.below(plate.log.len() + 1);
    let state = hostile_state(State { width, height, reach, count }, random);
    let call = random.below(CALLS.len());
    let step = hostile_step(call, &mut Maker { random, width, height, reach });
    let mut lent = Lent::to(step.as_ref(), plate, random);
    let mut model = lent.clone();
    let answer = lent.call::<E>(state, step.as_ref());
    let expected = model.call::<Stored>(state, step.as_ref());
    assert_eq!(answer, expected, "{}: {step:?} on {state:?}", E::NAME);
    assert!(lent.guards_hold(), "{}: {step:?} wrote beyond its buffers", E::NAME);
    assert!(lent.same_cells(&model), "{}: {step:?} on {state:?}, {answer:?}", E::NAME);
    tally[call].count(answer.answer.number);
}

/// A call of the table above by its place there; an open is no step.
fn hostile_step(call: usize, maker: &mut Maker) -> Option<Step> {
    let [scratch, values, mattes] = maker.show_lengths();
    let kept = maker.kept_lengths();
    match call {
        0 => None,
        1 => Some(Step::Put(maker.put())),
        2 => Some(Step::Undo),
        3 => Some(Step::Fill(maker.inputs())),
        4 => Some(Step::Show { scratch, values, mattes }),
        5 => Some(Step::PutKept(maker.put(), kept)),
        6 => Some(Step::UndoKept(kept)),
        7 => Some(Step::ShowKept { scratch, kept }),
        _ => Some(Step::Total { scratch }),
    }
}

/// Buffers of the right lengths, mostly, with anything in them.
fn hostile_plate(
    width: usize,
    height: usize,
    reach: usize,
    random: &mut Random,
) -> PlateBuffers {
    let room =
        if random.once_in(200) { random.pick(&[65_535, 65_536]) } else { random.below(4) };
    let cells = Layout::of(width, height, reach).all_planes();
    let mut maker = Maker { random, width, height, reach };
    let (planes, pixels) = (maker.length(cells), maker.length(width * height));
    PlateBuffers {
        planes: hostile_planes(planes, random),
        pixels: Guarded::filled(pixels, || hostile_word(reach, random)),
        log: Guarded::filled(room, || hostile_entry(width * height, reach, random)),
    }
}

/// Any bits in every cell, or in some, so that rounding meets all sizes of sums.
fn hostile_planes(length: usize, random: &mut Random) -> Guarded<u64> {
    let one_in = random.pick(&[1, 5, 100]);
    let bits = random.within(1, 64);
    Guarded::filled(length, || {
        if random.once_in(one_in) { random.bits() >> (64 - bits) } else { 0 }
    })
}

/// A word of lawful fields, or nearly so, or any bits.
fn hostile_word(reach: usize, random: &mut Random) -> u64 {
    if random.once_in(20) {
        return random.bits();
    }
    let value = random.below(4_096) as u64;
    let opacity = random.below(256) as u64;
    let shape = if random.once_in(8) { random.below(16) } else { random.below(6) } as u64;
    let radius = random.below(reach + 2) as u64;
    let above = if random.once_in(10) { 1 << random.within(32, 63) } else { 0 };
    value | opacity << 12 | shape << 20 | radius << 24 | above
}

fn hostile_entry(places: usize, reach: usize, random: &mut Random) -> u64 {
    let place = if random.once_in(10) {
        random.pick(&[places, places + 1, 0xFFFF_FFFF]) as u64
    } else {
        random.below(places) as u64
    };
    hostile_word(reach, random) & 0xFFFF_FFFF | place << 32
}

/// The right state, mostly. Exchanged sides fit the lengths, too great numbers would
/// overflow a product that is taken too early.
fn hostile_state(right: State, random: &mut Random) -> State {
    let mut state = right;
    if random.once_in(10) {
        (state.width, state.height) = (right.height, right.width);
    }
    let odd = |right: usize, random: &mut Random| {
        let top = usize::MAX;
        random.pick(&[0, right + 1, right.wrapping_sub(1), 65, 4_096, 4_097, 1 << 32, top])
    };
    if random.once_in(16) {
        state.width = odd(state.width, random);
    }
    if random.once_in(16) {
        state.height = odd(state.height, random);
    }
    if random.once_in(16) {
        state.reach = odd(state.reach, random);
    }
    if random.once_in(12) {
        state.count = odd(state.count, random);
    }
    state
}

#[test]
fn handmade() {
    hostile_calls::<Handmade>();
}

#[cfg(feature = "proved")]
#[test]
fn proved() {
    hostile_calls::<compare::engine::Proved>();
}
