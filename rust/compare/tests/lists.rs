//! Random lists of calls on many plates, against the notebook.

use compare::engine::{Engine, Stored};
use compare::list::{Tally, run};
use compare::random::Random;
use compare::step::{Inputs, Maker, PAPER_LENS, Step};
use compare::{for_each_engine, say};
use reference::{Put, State};

/// Widths and heights: single cells, thin plates, squares.
const SIZES: [(usize, usize); 10] =
    [(1, 1), (1, 2), (1, 17), (17, 1), (2, 2), (3, 5), (9, 9), (40, 3), (4, 33), (24, 24)];

/// All that a list can meet: its plate has lawful sizes and buffers, and the state is the
/// one that the call before left.
const REFUSALS: [u32; 10] = [2, 4, 5, 6, 7, 8, 9, 11, 12, 17];

/// Every one of these refusals comes up.
fn random_lists<E: Engine>(seed: u64, lists: usize) {
    let random = &mut Random::new(seed);
    let tally = &mut Tally::default();
    for reach in 0..=64 {
        for (width, height) in SIZES {
            for _ in 0..lists {
                let sizes = State { width, height, reach, count: 0 };
                random_list::<E>(sizes, random, tally);
            }
        }
    }
    say(&format!("{}, random lists: {tally}", E::NAME));
    assert_eq!(tally.numbers.refusals(), REFUSALS, "{}", E::NAME);
}

/// A show and a total end it.
fn random_list<E: Engine>(sizes: State, random: &mut Random, tally: &mut Tally) {
    let State { width, height, reach, .. } = sizes;
    let last = [Step::show(width, height, reach), Step::total(width, height, reach)];
    random_list_and::<E>(&last, sizes, random, tally);
}

fn random_list_and<E: Engine>(
    last: &[Step],
    sizes: State,
    random: &mut Random,
    tally: &mut Tally,
) {
    let State { width, height, reach, .. } = sizes;
    let room = random.pick(&[0, 1, 2, 5, 20]);
    let calls = random.within(1, 24);
    let mut maker = Maker { random, width, height, reach };
    let mut steps: Vec<Step> = (0..calls).map(|_| maker.step()).collect();
    steps.extend_from_slice(last);
    run::<E>(sizes, room, &steps, random, tally);
}

/// The longest sides, with the greatest reach.
fn long_plates<E: Engine>() {
    let random = &mut Random::new(15);
    let tally = &mut Tally::default();
    for (width, height) in [(4_096, 1), (1, 4_096), (300, 200)] {
        random_list::<E>(State { width, height, reach: 64, count: 0 }, random, tally);
    }
    say(&format!("{}, long plates: {tally}", E::NAME));
}

/// Rows may be summed in parts of 32 or of 64 columns. With reach 0 a show sums 31 to 33, 63 to
/// 65 or 127 to 129 columns of these widths, or a total does; with reach 64 others, more than one
/// part of them.
const PART_WIDTHS: [usize; 17] =
    [25, 26, 27, 28, 29, 30, 57, 58, 59, 60, 61, 62, 122, 123, 124, 125, 126];

/// A show of either form and a total end each list.
fn plates_of_parts<E: Engine>(lists: usize) {
    let random = &mut Random::new(16);
    let tally = &mut Tally::default();
    let sizes =
        [0, 1, 64].into_iter().flat_map(|reach| PART_WIDTHS.map(|width| (width, reach)));
    for (width, reach) in sizes.cycle().take(lists * 3 * PART_WIDTHS.len()) {
        let height = random.within(1, 4);
        let show = Step::show(width, height, reach);
        let kept = show.clone().kept(width * height);
        let last = [kept, show, Step::total(width, height, reach)];
        random_list_and::<E>(&last, State { width, height, reach, count: 0 }, random, tally);
    }
    say(&format!("{}, plates of parts: {tally}", E::NAME));
}

/// A short list on the greatest plate, 4,096 × 512 with reach 64: a fill of small radii
/// with some of 64 in between, puts in the corners, undone again; two of the puts and an undo
/// with kept pictures.
fn greatest_plate<E: Engine>() {
    let random = &mut Random::new(12);
    let sizes = State { width: 4_096, height: 512, reach: 64, count: 0 };
    let (width, height) = (sizes.width, sizes.height);
    let inputs =
        Inputs {
            lens: PAPER_LENS,
            shape: 5,
            values: (0..width * height).map(|_| random.below(4_096) as u16).collect(),
            opacities: (0..width * height).map(|_| random.bits() as u8).collect(),
            depths: (0..width * height)
                .map(|_| {
                    if random.once_in(9_000) { 0 } else { random.within(19_000, 21_000) as u32 }
                })
                .collect(),
        };
    let put =
        |x, y, shape| Step::Put(Put { x, y, value: 4_095, opacity: 255, shape, radius: 64 });
    let cells = width * height;
    let show = || Step::show(width, height, sizes.reach);
    let steps = [
        Step::Fill(inputs),
        show().kept(cells),
        put(0, 0, 4).kept(cells),
        put(width - 1, height - 1, 3).kept(cells),
        put(width, 0, 0).kept(cells),
        put(0, height - 1, 0),
        show(),
        Step::total(width, height, sizes.reach),
        Step::Undo,
        Step::Undo.kept(cells),
    ];
    let tally = &mut Tally::default();
    run::<E>(sizes, 3, &steps, random, tally);
    say(&format!("{}, greatest plate: {tally}", E::NAME));
}

/// The longest log, filled to its end, and undone to its beginning; then both once more by the
/// calls' second forms.
fn longest_log<E: Engine>() {
    let random = &mut Random::new(13);
    let sizes = State { width: 5, height: 4, reach: 6, count: 0 };
    let mut maker = Maker { random, width: 5, height: 4, reach: 6 };
    let puts: Vec<Step> = std::iter::repeat_with(|| Step::Put(maker.put()))
        .filter(|step| matches!(step, Step::Put(put) if is_lawful(*put, sizes)))
        .take(65_536)
        .collect();
    let show = Step::show(5, 4, 6);
    let undos = vec![Step::Undo; 65_536];
    let middle: Vec<Step> = [puts, vec![show.clone()]].concat();
    let whole = [vec![show.clone()], middle.clone(), undos, vec![show]].concat();
    let kept: Vec<Step> = whole.iter().map(|step| step.clone().kept(20)).collect();
    let tally = &mut Tally::default();
    for steps in [middle, whole, kept] {
        run::<E>(sizes, 65_535, &steps, random, tally);
    }
    say(&format!("{}, longest log: {tally}", E::NAME));
}

fn is_lawful(put: Put, sizes: State) -> bool {
    let mut notebook =
        reference::notebook::Notebook::open(sizes.width, sizes.height, sizes.reach, 1);
    notebook.put(put).number == 0
}

for_each_engine! {
    random: random_lists(1, 4),
    long: long_plates(),
    parts: plates_of_parts(4),
    greatest: greatest_plate(),
    log: longest_log(),
}

/// The reference's reading of the calls is held against the notebook like any engine.
#[test]
fn reference() {
    random_lists::<Stored>(2, 1);
}
