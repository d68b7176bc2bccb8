//! Total: light is neither made nor lost. After lists of calls both sums are those of the
//! notebook, wherever kernels reach; of planes of any contents they are the reference's, cell by
//! cell; and a refused call tells nothing and writes nothing.

use compare::engine::{Engine, Stored};
use compare::guard::Guarded;
use compare::list::{Tally, run};
use compare::plate::{Flat, Plate};
use compare::random::Random;
use compare::step::{Maker, PAPER_LENS, Step, depth_of};
use compare::{for_each_engine, say};
use reference::kernel::{SHAPES, Shape, WHOLE};
use reference::marks::{Layout, PLANES, plane_of_slope};
use reference::notebook::Notebook;
use reference::spread::Sum;
use reference::{Answer, Put, State, Totals};

/// Plates of lists: the smallest, thin ones, some smaller than the reach, one greater.
const LISTS: [(usize, usize, usize); 10] = [
    (1, 1, 0),
    (1, 1, 3),
    (2, 1, 0),
    (1, 9, 4),
    (13, 1, 6),
    (7, 5, 1),
    (6, 8, 9),
    (20, 14, 16),
    (33, 12, 2),
    (9, 11, 64),
];

/// Random calls in either form, a total after each.
fn after_every_call<E: Engine>(lists: usize) {
    let random = &mut Random::new(101);
    let tally = &mut Tally::default();
    for (width, height, reach) in LISTS {
        for _ in 0..lists {
            let room = random.pick(&[0, 3, 20]);
            let mut maker = Maker { random, width, height, reach };
            let total = Step::total(width, height, reach);
            let steps: Vec<Step> =
                (0..24).flat_map(|_| [maker.step(), total.clone()]).collect();
            let sizes = State { width, height, reach, count: 0 };
            run::<E>(sizes, room, &steps, random, tally);
        }
    }
    say(&format!("{}, totals: {tally}", E::NAME));
}

/// A plate and the notebook of the same puts.
struct Noted {
    plate: Plate,
    notebook: Notebook,
}

impl Noted {
    fn open<E: Engine>(width: usize, height: usize, reach: usize) -> Noted {
        let room = width * height;
        let plate = Plate::open::<E>(width, height, reach, room);
        Noted { plate, notebook: Notebook::open(width, height, reach, room) }
    }

    fn put<E: Engine>(&mut self, put: Put) {
        assert_eq!(self.notebook.put(put).number, 0);
        assert_eq!(self.plate.put::<E>(put).number, 0, "{}: {put:?}", E::NAME);
        self.compare::<E>();
    }

    fn undo<E: Engine>(&mut self) {
        assert_eq!(self.notebook.undo().number, 0);
        assert_eq!(self.plate.undo::<E>().number, 0, "{}", E::NAME);
        self.compare::<E>();
    }

    fn compare<E: Engine>(&self) {
        let Totals { matte, light, .. } = self.plate.total::<E>();
        let scratch = self.plate.planes.len() / 14 * 3;
        let (_, sum) = self.notebook.total(scratch);
        let state = self.plate.state;
        assert_eq!(Sum { light, matte }, sum, "{}: {state:?}", E::NAME);
    }
}

/// Every shape with every radius.
fn kernels() -> impl Iterator<Item = (Shape, usize)> {
    SHAPES.into_iter().flat_map(|shape| (0..=shape.top()).map(move |radius| (shape, radius)))
}

/// The places of a plate's border, its corners first.
fn border(width: usize, height: usize) -> Vec<(usize, usize)> {
    let (right, bottom) = (width - 1, height - 1);
    let ends = |(x, y): (usize, usize)| (x == 0 || x == right, y == 0 || y == bottom);
    let mut places: Vec<(usize, usize)> = (0..width)
        .flat_map(|x| (0..height).map(move |y| (x, y)))
        .filter(|&place| ends(place).0 || ends(place).1)
        .collect();
    places.sort_by_key(|&place| ends(place) != (true, true));
    places
}

/// Plates of borders; the first are the smallest.
const BORDERS: [(usize, usize); 5] = [(1, 1), (2, 1), (1, 2), (3, 3), (5, 4)];

/// Each kernel at each place of the border, on plates that it just reaches across, one put after
/// the other; then all are taken back.
fn at_borders<E: Engine>() {
    let random = &mut Random::new(102);
    let mut puts = 0;
    for (shape, radius) in kernels() {
        let reach = shape.boxes() * radius;
        for (width, height) in BORDERS {
            let mut noted = Noted::open::<E>(width, height, reach);
            let places = border(width, height);
            for &(x, y) in &places {
                noted.put::<E>(any_put(shape, radius, (x, y), random));
            }
            places.iter().for_each(|_| noted.undo::<E>());
            puts += places.len();
        }
    }
    say(&format!("{}, totals at borders: {puts} puts and as many undos", E::NAME));
}

fn any_put(shape: Shape, radius: usize, (x, y): (usize, usize), random: &mut Random) -> Put {
    let opacity = random.within(1, 255) as u8;
    let value = random.within(1, 4_095) as u16;
    Put { x, y, value, opacity, shape: shape.number(), radius: radius as u8 }
}

/// The greatest sums of all, of the most pixels: they do not wrap.
fn greatest<E: Engine>() {
    let (width, height) = (4_096, 512);
    let mut plate = Plate::open::<E>(width, height, 1, 0);
    let flat = Flat { value: 4_095, opacity: 255, depth: depth_of(1) };
    assert_eq!(plate.fill::<E>(PAPER_LENS, 5, flat).number, 0);
    let Totals { matte, light, .. } = plate.total::<E>();
    let whole = WHOLE * (width * height) as u64;
    assert_eq!((matte, light), (whole * 255, whole * (255 * 4_095)));
}

/// Plates of garbage, the smallest scratch among them.
const GARBAGE: [(usize, usize, usize); 7] =
    [(1, 1, 0), (2, 1, 0), (1, 2, 0), (3, 4, 1), (1, 40, 2), (40, 1, 2), (12, 9, 7)];

/// A total of planes of any contents, on a scratch of any contents.
fn total_of<E: Engine>(state: State, planes: &Guarded<u64>, random: &mut Random) -> Totals {
    let lent = planes.clone();
    let mut scratch = Guarded::garbage(3 * planes.len() / 14, random);
    let totals = E::total(state, &lent, &mut scratch);
    assert_eq!(totals.answer, Answer { number: 0, marks: 0, state }, "{}", E::NAME);
    assert!(lent.guards_hold() && *lent == **planes, "{}: planes, {state:?}", E::NAME);
    assert!(scratch.guards_hold(), "{}: beyond the scratch, {state:?}", E::NAME);
    assert!(scratch.iter().all(|&cell| cell == 0), "{}: scratch, {state:?}", E::NAME);
    totals
}

/// Holds it against the reference's; what is told of the planes is for a failure.
fn compare_with_plain<E: Engine>(
    state: State,
    planes: &Guarded<u64>,
    told: &str,
    random: &mut Random,
) {
    let plain = total_of::<Stored>(state, planes, random);
    let totals = total_of::<E>(state, planes, random);
    assert_eq!(totals, plain, "{}: {told} on {state:?}", E::NAME);
}

/// Any bits in every cell, or in some; the state has any count, since no log is lent.
fn garbage<E: Engine>(times: usize) {
    let random = &mut Random::new(104);
    for (width, height, reach) in GARBAGE {
        let cells = Layout::of(width, height, reach).all_planes();
        for _ in 0..times {
            let state = State { width, height, reach, count: random.bits() as usize };
            let one_in = random.pick(&[1, 5, 100]);
            let mark = || if random.once_in(one_in) { random.bits() } else { 0 };
            let planes = Guarded::filled(cells, mark);
            compare_with_plain::<E>(state, &planes, "garbage", random);
        }
    }
}

/// Whether a cell is on one side of a padded plane of so many columns and rows.
type Side = fn(column: usize, row: usize, columns: usize, rows: usize) -> bool;

const SIDES: [(&str, Side); 5] = [
    ("first column", |column, _, _, _| column == 0),
    ("last column", |column, _, columns, _| column == columns - 1),
    ("first row", |_, row, _, _| row == 0),
    ("last row", |_, row, _, rows| row == rows - 1),
    ("last cell", |column, row, columns, rows| (column, row) == (columns - 1, rows - 1)),
];

/// Garbage on one side of the padded planes only: of every plane, and of one at a time.
fn garbage_on_sides<E: Engine>() {
    let random = &mut Random::new(105);
    for (width, height, reach) in GARBAGE {
        let state = State { width, height, reach, count: 0 };
        for (name, side) in SIDES {
            for only in [None].into_iter().chain((0..2 * PLANES).map(Some)) {
                let planes = marked_on(side, only, state, random);
                let told = format!("{name}, plane {only:?}");
                compare_with_plain::<E>(state, &planes, &told, random);
            }
        }
    }
}

fn marked_on(
    side: Side,
    only: Option<usize>,
    state: State,
    random: &mut Random,
) -> Guarded<u64> {
    let State { width, height, reach, .. } = state;
    let (columns, rows) = (width + 2 * reach + 6, height + 2 * reach + 6);
    let mut places = (0..2 * PLANES).flat_map(|plane| {
        (0..rows).flat_map(move |row| (0..columns).map(move |column| (plane, column, row)))
    });
    Guarded::filled(2 * PLANES * columns * rows, || {
        let (plane, column, row) = places.next().expect("a place for each mark");
        let is_marked =
            only.is_none_or(|only| only == plane) && side(column, row, columns, rows);
        if is_marked { random.bits() } else { 0 }
    })
}

/// One mark in each cell of each plane in turn, on planes of 7 × 7 and of 8 × 9 cells.
fn every_cell<E: Engine>() {
    let random = &mut Random::new(106);
    for (width, height) in [(1, 1), (2, 3)] {
        let state = State { width, height, reach: 0, count: 0 };
        let cells = Layout::of(width, height, 0).all_planes();
        for cell in 0..cells {
            let mut planes = Guarded::filled(cells, || 0);
            planes[cell] = random.bits();
            compare_with_plain::<E>(state, &planes, &format!("cell {cell}"), random);
        }
    }
}

/// Worked out by hand, on planes of 7 × 7 cells.
fn by_hand<E: Engine>() {
    let random = &mut Random::new(107);
    let state = State { width: 1, height: 1, reach: 0, count: 0 };
    let mut total = |plane: usize, column: usize, row: usize, mark: u64| {
        let mut planes = Guarded::filled(14 * 49, || 0);
        planes[plane * 49 + row * 7 + column] = mark;
        let totals = total_of::<E>(state, &planes, random);
        (totals.matte, totals.light)
    };
    let level = plane_of_slope(0);
    // A level mark reaches all cells right of it and below it.
    assert_eq!(total(level, 0, 0, 3), (0, 3 * 49));
    assert_eq!(total(PLANES + level, 5, 4, 3), (3 * 2 * 3, 0));
    assert_eq!(total(level, 6, 6, 3), (0, 3));
    // It wraps: 49 times 2^63 is 2^63, and twice that is nothing.
    assert_eq!(total(level, 0, 0, 1 << 63), (0, 1 << 63));
    assert_eq!(total(level, 5, 6, 1 << 63), (0, 0));
    // One of slope −1 at the foot of the first column: 1, 2, .. 7 cells from its line down.
    assert_eq!(total(PLANES + plane_of_slope(-1), 0, 6, 1), (28, 0));
    // One of slope 2 at the head: 7, 5, 3 and 1 cells.
    assert_eq!(total(plane_of_slope(2), 0, 0, 1), (0, 16));
}

/// What makes a lawful total one that is refused, for sizes and for each length.
const SIZES: [fn(&mut State); 8] = [
    |_| {},
    |state| state.width = 0,
    |state| state.width = 4_097,
    |state| state.height = 0,
    |state| state.height = usize::MAX,
    |state| state.reach = 65,
    |state| (state.width, state.height) = (4_096, 513),
    |state| *state = State { width: 0, height: 0, reach: usize::MAX, count: 7 },
];
const LENGTHS: [fn(usize) -> usize; 5] =
    [|right| right, |right| right - 1, |right| right + 1, |_| 0, |right| 2 * right];

/// Every choice of faults at once: 1 before 2, both sums 0, and the scratch as it was.
fn refused<E: Engine>() {
    let random = &mut Random::new(108);
    let layout = Layout::of(4, 3, 5);
    for (sizes, size_fault) in SIZES.iter().enumerate() {
        for (planes, planes_fault) in LENGTHS.iter().enumerate() {
            for (scratch, scratch_fault) in LENGTHS.iter().enumerate() {
                let number = match (sizes, planes, scratch) {
                    (0, 0, 0) => continue,
                    (0, ..) => 2,
                    _ => 1,
                };
                let mut state = State { width: 4, height: 3, reach: 5, count: 1 };
                size_fault(&mut state);
                let planes = planes_fault(layout.all_planes());
                let scratch = scratch_fault(3 * layout.cells());
                let expected = Totals::none(Answer { number, marks: 0, state });
                refused_one::<E>(expected, planes, scratch, random);
            }
        }
    }
}

fn refused_one<E: Engine>(
    expected: Totals,
    planes: usize,
    scratch: usize,
    random: &mut Random,
) {
    let planes = Guarded::garbage(planes, random);
    let mut scratch = Guarded::garbage(scratch, random);
    let (planes_before, before) = (planes.clone(), scratch.clone());
    let totals = E::total(expected.answer.state, &planes, &mut scratch);
    let told = || format!("{}: {expected:?}, {} and {}", E::NAME, planes.len(), before.len());
    assert_eq!(totals, expected, "{}", told());
    assert!(*planes == *planes_before && *scratch == *before, "wrote, {}", told());
    assert!(planes.guards_hold() && scratch.guards_hold(), "beyond a buffer, {}", told());
}

for_each_engine! {
    of_lists: after_every_call(60),
    of_border_kernels: at_borders(),
    of_the_greatest_plate: greatest(),
    of_garbage: garbage(300),
    of_garbage_on_sides: garbage_on_sides(),
    of_every_cell: every_cell(),
    of_worked_examples: by_hand(),
    of_refused_calls: refused(),
}

/// The reference's reading of total is held to the same like any engine.
#[test]
fn reference() {
    after_every_call::<Stored>(5);
    by_hand::<Stored>();
    refused::<Stored>();
}
