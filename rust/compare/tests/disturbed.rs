//! Planes that no list of calls makes, shown in either form and totalled.
//!
//! On planes of lawful calls every rising line adds up to 0, and one run over the rows finishes
//! the sums. Here lines add up to something else: one of them or all, in one channel or in both,
//! anywhere on the padded planes; then an engine may have to go over the rows once more. Each
//! call is made on the engine and on the reference, with leftovers in all that is lent besides
//! the planes. Answers and every cell must agree; the reference leaves a scratch of zeros.

use std::ops::Range;

use compare::engine::{Engine, Stored};
use compare::for_each_engine;
use compare::guard::{Guarded, PlateBuffers};
use compare::lent::Lent;
use compare::plate::Plate;
use compare::random::Random;
use compare::step::Step;
use reference::kernel::SHAPES;
use reference::marks::{Layout, PLANES, plane_of_slope};
use reference::{Put, State};

/// Width, height and reach.
type Sizes = (usize, usize, usize);

/// The smallest plate, flat and narrow ones; then those of which a show sums 31 to 33, 63 to 65
/// or 127 to 129 columns, and those of which a total does.
const SMALL: [Sizes; 23] = [
    (1, 1, 0),
    (2, 1, 0),
    (1, 2, 0),
    (3, 4, 1),
    (1, 70, 0),
    (140, 1, 0),
    (6, 9, 7),
    (28, 2, 0),
    (29, 1, 0),
    (30, 3, 0),
    (60, 1, 0),
    (61, 2, 0),
    (62, 3, 0),
    (124, 2, 0),
    (125, 1, 0),
    (126, 3, 0),
    (25, 1, 0),
    (26, 2, 0),
    (57, 3, 0),
    (58, 1, 0),
    (59, 2, 0),
    (122, 1, 0),
    (123, 2, 0),
];

/// The greatest reach; a show sums 68, then 127, 128 and 129 columns, a total 135, 192 and more.
const WIDE: [Sizes; 6] =
    [(1, 1, 64), (60, 2, 64), (61, 1, 64), (62, 3, 64), (58, 1, 64), (1, 9, 64)];

/// The longest sides.
const LONG: [Sizes; 2] = [(4_096, 1, 0), (1, 4_096, 0)];

/// Planes of 7 × 7 and of 8 × 9 cells.
const TINY: [Sizes; 2] = [(1, 1, 0), (2, 3, 0)];

/// The slopes of rising lines.
const RISING: [i64; 2] = [-2, -1];

/// The planes of a plate, and what a failure tells of them.
struct Planes {
    state: State,
    cells: Guarded<u64>,
    told: String,
}

impl Planes {
    /// Any bits in one cell of so many.
    fn garbage((width, height, reach): Sizes, one_in: usize, random: &mut Random) -> Planes {
        let cells = Guarded::filled(Layout::of(width, height, reach).all_planes(), || {
            if random.once_in(one_in) { random.bits() } else { 0 }
        });
        let state = State { width, height, reach, count: 0 };
        Planes { state, cells, told: format!("garbage in one cell of {one_in}") }
    }

    /// The marks of two kernels of each shape, at any places.
    fn lawful<E: Engine>((width, height, reach): Sizes, random: &mut Random) -> Planes {
        let mut plate = Plate::open::<E>(width, height, reach, 2 * SHAPES.len());
        for shape in [SHAPES, SHAPES].concat() {
            let put = Put {
                x: random.below(width),
                y: random.below(height),
                value: random.within(1, 4_095) as u16,
                opacity: random.within(1, 255) as u8,
                shape: shape.number(),
                radius: random.below(shape.top_under(reach) + 1) as u8,
            };
            assert_eq!(plate.put::<E>(put).number, 0, "{}: {put:?}", E::NAME);
        }
        let cells = Guarded::holding(&plate.planes);
        Planes { state: plate.state, cells, told: "lawful".into() }
    }

    /// Columns left of the image, of it and right of it.
    fn columns(&self) -> [Range<usize>; 3] {
        bands(self.state.width, self.state.reach)
    }

    /// Rows above the image, of it and below it.
    fn rows(&self) -> [Range<usize>; 3] {
        bands(self.state.height, self.state.reach)
    }

    /// With a word added to one cell.
    fn with(&self, plane: usize, (column, row): (usize, usize), word: u64) -> Planes {
        let [columns, rows] = [self.columns(), self.rows()].map(|[.., after]| after.end);
        let mut cells = self.cells.clone();
        let cell = &mut cells[(plane * rows + row) * columns + column];
        *cell = cell.wrapping_add(word);
        let told =
            format!("{}; {word} at column {column}, row {row} of plane {plane}", self.told);
        Planes { state: self.state, cells, told }
    }

    /// A show in either form and a total, each held against the reference's.
    fn compare<E: Engine>(&self, random: &mut Random) {
        let State { width, height, reach, .. } = self.state;
        let show = Step::show(width, height, reach);
        let kept = show.clone().kept(width * height);
        for step in [show, kept, Step::total(width, height, reach)] {
            self.compare_one::<E>(&step, random);
        }
    }

    fn compare_one<E: Engine>(&self, step: &Step, random: &mut Random) {
        let [pixels, log] = [(); 2].map(|()| Guarded::holding(&[]));
        let plate = PlateBuffers { planes: self.cells.clone(), pixels, log };
        let mut lent = Lent::to(Some(step), plate, random);
        let mut model = lent.clone();
        let answer = lent.call::<E>(self.state, Some(step));
        let expected = model.call::<Stored>(self.state, Some(step));
        let told = || format!("{}: {step:?} on {:?}, {}", E::NAME, self.state, self.told);
        assert_eq!(expected.answer.number, 0, "refused: {}", told());
        assert_eq!(answer, expected, "{}", told());
        assert!(lent.guards_hold(), "beyond a buffer: {}", told());
        assert!(lent.same_cells(&model), "{}", told());
    }
}

/// Before the image, on it and behind it.
fn bands(side: usize, reach: usize) -> [Range<usize>; 3] {
    let margin = reach + 3;
    [0..margin, margin..margin + side, margin + side..side + 2 * margin]
}

/// The planes of rising lines of both channels.
fn rising_planes() -> impl Iterator<Item = usize> {
    RISING.into_iter().map(plane_of_slope).flat_map(|plane| [plane, PLANES + plane])
}

/// A word other than 0; negated, 2^63 is itself.
fn any_word(random: &mut Random) -> u64 {
    let any = random.bits() | 1;
    random.pick(&[1, 1 << 63, u64::MAX, any, any])
}

fn any_of(range: &Range<usize>, random: &mut Random) -> usize {
    random.within(range.start, range.end - 1)
}

/// In every cell, in some, in few.
fn garbage<E: Engine>(sizes: &[Sizes], times: usize) {
    let random = &mut Random::new(111);
    for &sizes in sizes {
        for one_in in [1, 5, 100].repeat(times) {
            Planes::garbage(sizes, one_in, random).compare::<E>(random);
        }
    }
}

/// One word on lawful planes: one line of one channel does not add up to 0. It stands in each
/// rising plane left of the image, in its columns and right of it, above it, in its rows and
/// below it.
fn one_cell<E: Engine>(sizes: &[Sizes]) {
    let random = &mut Random::new(112);
    for &sizes in sizes {
        let lawful = Planes::lawful::<E>(sizes, random);
        lawful.compare::<E>(random);
        for plane in rising_planes() {
            one_in_each_band::<E>(&lawful, plane, random);
        }
    }
}

fn one_in_each_band<E: Engine>(lawful: &Planes, plane: usize, random: &mut Random) {
    let rows = lawful.rows();
    let places = rows.iter().flat_map(|rows| lawful.columns().map(|columns| (columns, rows)));
    for (columns, rows) in places {
        let place = (any_of(&columns, random), any_of(rows, random));
        lawful.with(plane, place, any_word(random)).compare::<E>(random);
    }
}

/// The same in every cell of the rising planes.
fn every_cell<E: Engine>() {
    let random = &mut Random::new(113);
    for sizes in TINY {
        let lawful = Planes::lawful::<E>(sizes, random);
        let [columns, rows] = [lawful.columns(), lawful.rows()].map(|[.., after]| after.end);
        let places = (0..columns * rows).map(|cell| (cell % columns, cell / columns));
        for (plane, place) in
            rising_planes().flat_map(|p| places.clone().map(move |at| (p, at)))
        {
            lawful.with(plane, place, any_word(random)).compare::<E>(random);
        }
    }
}

/// Two words on one rising line that cancel: no call lays them, but the line adds up to 0.
fn cancelled<E: Engine>(sizes: &[Sizes], times: usize) {
    let random = &mut Random::new(114);
    for &sizes in sizes {
        let lawful = Planes::lawful::<E>(sizes, random);
        for slope in RISING.repeat(times) {
            cancelled_pair(&lawful, slope, random).compare::<E>(random);
        }
    }
}

/// The second word is some columns to the right, and on a line of this slope so much higher.
fn cancelled_pair(lawful: &Planes, slope: i64, random: &mut Random) -> Planes {
    let [columns, rows] = [lawful.columns(), lawful.rows()].map(|[.., after]| after.end);
    let steep = slope.unsigned_abs() as usize;
    let right = random.within(1, (columns - 1).min((rows - 1) / steep));
    let (column, row) = (random.below(columns - right), random.within(steep * right, rows - 1));
    let plane = plane_of_slope(slope) + random.pick(&[0, PLANES]);
    let word = any_word(random);
    let first = lawful.with(plane, (column, row), word);
    first.with(plane, (column + right, row - steep * right), word.wrapping_neg())
}

for_each_engine! {
    small_garbage: garbage(&SMALL, 5),
    wide_garbage: garbage(&WIDE, 1),
    long_garbage: garbage(&LONG, 1),
    one_cell_of_small_planes: one_cell(&SMALL),
    one_cell_of_wide_planes: one_cell(&WIDE),
    one_cell_anywhere: every_cell(),
    cancelled_on_small_planes: cancelled(&SMALL, 10),
    cancelled_on_wide_planes: cancelled(&WIDE, 3),
}
