//! The second forms of put, undo and show: strokes whose kept sums and pictures are a show's
//! after every call, and buffers of any contents, cell by cell.

use compare::engine::{Engine, Stored};
use compare::guard::{KeptBuffers, PlateBuffers};
use compare::numbers::Numbers;
use compare::random::Random;
use compare::step::Maker;
use compare::{for_each_engine, say};
use reference::kept::{Change, KeptLengths};
use reference::kernel::{SHAPES, Shape};
use reference::pixel::{Pixel, from_entry};
use reference::{Answer, Put, State};

/// A plate with what is kept beside it.
struct Painting {
    state: State,
    plate: PlateBuffers,
    kept: KeptBuffers,
}

impl Painting {
    fn open<E: Engine>(sizes: State, room: usize, random: &mut Random) -> Painting {
        let State { width, height, reach, .. } = sizes;
        let mut plate = PlateBuffers::garbage(sizes, room, random);
        let PlateBuffers { planes, pixels, log } = &mut plate;
        let answer = E::open(width, height, reach, planes, pixels, log);
        assert_eq!(answer.number, 0);
        let kept = KeptBuffers::garbage(KeptLengths::of(width * height), random);
        Painting { state: answer.state, plate, kept }
    }

    fn put<E: Engine>(&mut self, put: Put) -> Answer {
        let PlateBuffers { planes, pixels, log } = &mut self.plate;
        let answer = E::put_kept(self.state, put, planes, pixels, log, self.kept.lend());
        self.state = answer.state;
        answer
    }

    fn undo<E: Engine>(&mut self) -> Answer {
        let PlateBuffers { planes, pixels, log } = &mut self.plate;
        let answer = E::undo_kept(self.state, planes, pixels, log, self.kept.lend());
        self.state = answer.state;
        answer
    }

    /// A full show into these buffers, whatever they hold.
    fn show_into<E: Engine>(&self, kept: &mut KeptBuffers) {
        let mut scratch = vec![u64::MAX; self.plate.planes.len() / 14 * 3];
        let answer = E::show_kept(self.state, &self.plate.planes, &mut scratch, kept.lend());
        assert_eq!(answer, Answer { number: 0, marks: 0, state: self.state });
        assert!(scratch.iter().all(|&cell| cell == 0), "{}: scratch", E::NAME);
    }

    fn guards_hold(&self) -> bool {
        self.plate.guards_hold() && self.kept.guards_hold()
    }

    fn pixel(&self, place: usize) -> Pixel {
        Pixel::from_word(self.plate.pixels[place], self.state.reach).expect("a lawful word")
    }

    /// Anything, so that a cell that is not written can be told from one that is.
    fn forget(&mut self, random: &mut Random) {
        self.kept = KeptBuffers::garbage(KeptLengths::of(self.kept.values.len()), random);
    }
}

/// Plates of strokes: a single cell, thin ones, some smaller than the reach, one greater.
const STROKES: [(usize, usize, usize); 8] = [
    (1, 1, 3),
    (1, 9, 4),
    (13, 1, 6),
    (2, 3, 0),
    (7, 5, 1),
    (6, 8, 9),
    (20, 14, 16),
    (9, 11, 64),
];

const STROKE: usize = 2_500;

/// Puts and undos at random places, at corners and borders too, with refused ones in between:
/// after each, all that is kept is what a full show of the plate gives.
fn strokes<E: Engine>(length: usize) {
    let random = &mut Random::new(71);
    let numbers = &mut Numbers::default();
    for (width, height, reach) in STROKES {
        let sizes = State { width, height, reach, count: 0 };
        let mut painting = Painting::open::<E>(sizes, 40, random);
        let mut shown = painting.kept.clone();
        painting.show_into::<E>(&mut shown);
        painting.kept = shown.clone();
        for _ in 0..length {
            let answer = dab::<E>(&mut painting, random);
            painting.show_into::<E>(&mut shown);
            let told = || format!("{}: {answer:?}", E::NAME);
            assert!(painting.guards_hold(), "beyond a buffer, {}", told());
            assert!(painting.kept.same_cells(&shown), "not a show's, {}", told());
            numbers.count(answer.number);
        }
    }
    say(&format!("{}, strokes: {} calls, {numbers}", E::NAME, numbers.calls()));
}

/// A put, lawful mostly, or an undo.
fn dab<E: Engine>(painting: &mut Painting, random: &mut Random) -> Answer {
    let State { width, height, reach, .. } = painting.state;
    if random.once_in(3) {
        return painting.undo::<E>();
    }
    let mut put = Maker { random, width, height, reach }.put();
    if random.once_in(3) {
        put.x = random.pick(&[0, width - 1]);
    }
    if random.once_in(3) {
        put.y = random.pick(&[0, height - 1]);
    }
    painting.put::<E>(put)
}

/// Lets a call make a change on buffers of any contents, and holds every cell, in reach or not,
/// against the definition.
fn mend_garbage<E: Engine>(
    painting: &mut Painting,
    change: Change,
    random: &mut Random,
    call: impl FnOnce(&mut Painting) -> Answer,
) {
    painting.forget(random);
    let mut expected = painting.kept.clone();
    expected.lend().mend(painting.state.width, change);
    let answer = call(painting);
    assert_eq!(answer.number, 0, "{}: {change:?}", E::NAME);
    assert!(painting.guards_hold(), "{}: beyond a buffer, {change:?}", E::NAME);
    assert!(painting.kept.same_cells(&expected), "{}: cells after {change:?}", E::NAME);
}

/// Strokes on plates of any pixels, each call on garbage.
fn garbage_strokes<E: Engine>(length: usize) {
    let random = &mut Random::new(72);
    let mut made = 0;
    for (width, height, reach) in STROKES {
        let sizes = State { width, height, reach, count: 0 };
        let mut painting = Painting::open::<E>(sizes, 30, random);
        for _ in 0..length {
            made += usize::from(garbage_dab::<E>(&mut painting, random));
        }
    }
    say(&format!("{}, garbage mended {made} times", E::NAME));
}

/// Whether the call was accepted; a refused one leaves the garbage as it is.
fn garbage_dab<E: Engine>(painting: &mut Painting, random: &mut Random) -> bool {
    let State { width, height, reach, count } = painting.state;
    let put = Maker { random: &mut *random, width, height, reach }.put();
    let lawful = Stored::put(
        painting.state,
        put,
        &mut painting.plate.planes.clone(),
        &mut painting.plate.pixels.clone(),
        &mut painting.plate.log.clone(),
    );
    if lawful.number == 0 {
        let place = put.y * width + put.x;
        let change = Change { place, old: painting.pixel(place), new: pixel_of(put) };
        mend_garbage::<E>(painting, change, random, |painting| painting.put::<E>(put));
    } else if count > 0 && random.once_in(2) {
        let places = width * height;
        let (place, new) =
            from_entry(painting.plate.log[count - 1], places, reach).expect("lawful");
        let change = Change { place, old: painting.pixel(place), new };
        mend_garbage::<E>(painting, change, random, Painting::undo::<E>);
    } else {
        let before = painting.kept.clone();
        assert_eq!(painting.put::<E>(put), lawful, "{}", E::NAME);
        assert!(painting.kept.same_cells(&before), "{}: a refused put wrote", E::NAME);
        return false;
    }
    true
}

fn pixel_of(put: Put) -> Pixel {
    let Put { value, opacity, shape, radius, .. } = put;
    let shape = Shape::from_number(shape).expect("a shape");
    Pixel { value, opacity, shape, radius }
}

/// Every kernel.
fn kernels() -> impl Iterator<Item = (Shape, u8)> + Clone {
    SHAPES.into_iter().flat_map(|shape| (0..=shape.top() as u8).map(move |r| (shape, r)))
}

/// Each kernel over each, put and taken back, the pixel at this place of a plate of this size.
fn every_pair<E: Engine>(width: usize, height: usize, x: usize, y: usize) {
    let random = &mut Random::new(73);
    let sizes = State { width, height, reach: 64, count: 0 };
    let mut painting = Painting::open::<E>(sizes, 2, random);
    let place = y * width + x;
    let mut pairs = 0;
    for first in kernels() {
        let old = any_pixel(first, random);
        assert_eq!(painting.put::<E>(put_of(old, x, y)).number, 0);
        for second in kernels() {
            let new = any_pixel(second, random);
            let change = Change { place, old, new };
            let put = |painting: &mut Painting| painting.put::<E>(put_of(new, x, y));
            mend_garbage::<E>(&mut painting, change, random, put);
            let back = Change { place, old: new, new: old };
            mend_garbage::<E>(&mut painting, back, random, Painting::undo::<E>);
            pairs += 1;
        }
        assert_eq!(painting.undo::<E>().number, 0);
    }
    say(&format!("{}, {width} × {height}: {pairs} pairs of kernels, both ways", E::NAME));
}

/// Each kernel with its whole square on the plate, and a frame around it: put over an empty
/// pixel, once more over itself, and exchanged for any other; then all taken back.
fn every_kernel<E: Engine>() {
    let random = &mut Random::new(75);
    let mut mended = 0;
    for (shape, radius) in kernels() {
        let reach = shape.boxes() * usize::from(radius);
        let (middle, side) = (reach + 1, 2 * reach + 3);
        let sizes = State { width: side, height: side, reach, count: 0 };
        let mut painting = Painting::open::<E>(sizes, 3, random);
        let place = middle * side + middle;
        let pixel = any_pixel((shape, radius), random);
        let other = random.pick(&SHAPES);
        let other_radius = random.below(other.top_under(reach) + 1) as u8;
        let all = [Pixel::EMPTY, pixel, pixel, any_pixel((other, other_radius), random)];
        for (old, new) in all.into_iter().zip(all.into_iter().skip(1)) {
            let put = |painting: &mut Painting| painting.put::<E>(put_of(new, middle, middle));
            mend_garbage::<E>(&mut painting, Change { place, old, new }, random, put);
        }
        for (new, old) in all.into_iter().zip(all.into_iter().skip(1)).rev() {
            let undo = Painting::undo::<E>;
            mend_garbage::<E>(&mut painting, Change { place, old, new }, random, undo);
        }
        mended += 6 * side * side;
    }
    say(&format!("{}, every kernel: {mended} cells looked at", E::NAME));
}

/// A pixel with this kernel; one in some is clear, so that it has cells in reach and gives
/// them nothing.
fn any_pixel((shape, radius): (Shape, u8), random: &mut Random) -> Pixel {
    let opacity = if random.once_in(8) { 0 } else { random.below(256) as u8 };
    Pixel { value: random.below(4_096) as u16, opacity, shape, radius }
}

fn put_of(pixel: Pixel, x: usize, y: usize) -> Put {
    let Pixel { value, opacity, shape, radius } = pixel;
    Put { x, y, value, opacity, shape: shape.number(), radius }
}

/// A sharp pixel over a box of radius 1, and taken back, on sums of 7: the cells that the box
/// does not reach keep what they hold, in the pictures too.
fn by_hand<E: Engine>() {
    let random = &mut Random::new(74);
    let sizes = State { width: 5, height: 1, reach: 1, count: 0 };
    let mut painting = Painting::open::<E>(sizes, 2, random);
    let wide = Put { x: 2, y: 0, value: 100, opacity: 255, shape: 0, radius: 1 };
    assert_eq!(painting.put::<E>(wide).number, 0);
    painting.kept.sums.copy_from_slice(&[7; 10]);
    painting.kept.values.fill(9);
    painting.kept.mattes.fill(9);
    assert_eq!(painting.put::<E>(Put { radius: 0, ..wide }).marks, 16);
    // 255 × 932,067 less beside the centre, and at the centre 255 × 7,456,536 more.
    let beside = 7u64.wrapping_sub(237_677_085);
    assert_eq!(painting.kept.sums[5..], [7, beside, 7 + 1_901_416_680, beside, 7]);
    let light = [7, 7u64.wrapping_sub(23_767_708_500), 190_141_668_007];
    assert_eq!(painting.kept.sums[..3], light);
    assert_eq!(painting.kept.values[..], [9, 1, 100, 1, 9]);
    assert_eq!(painting.kept.mattes[..], [9, 255, 227, 255, 9]);
    assert_eq!(painting.undo::<E>().marks, 16);
    assert_eq!(painting.kept.sums[..], [7; 10]);
    assert_eq!(painting.kept.values[..], [9, 1, 1, 1, 9]);
    assert_eq!(painting.kept.mattes[..], [9, 0, 0, 0, 9]);
}

for_each_engine! {
    of_strokes: strokes(STROKE),
    of_garbage: garbage_strokes(STROKE),
    every_kernel_whole: every_kernel(),
    pairs_in_the_middle: every_pair(9, 7, 4, 3),
    pairs_in_a_corner: every_pair(11, 6, 0, 5),
    pairs_in_a_row: every_pair(135, 2, 67, 0),
    pairs_in_a_column: every_pair(2, 135, 1, 67),
    of_a_worked_example: by_hand(),
}

/// The reference's reading of the calls is held to the same like any engine.
#[test]
fn reference() {
    strokes::<Stored>(100);
    garbage_strokes::<Stored>(200);
    by_hand::<Stored>();
}
