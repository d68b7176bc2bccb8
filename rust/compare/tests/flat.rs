//! A flat layer stays flat to the code value: a cell around which the whole square of the
//! kernel lies on the plate shows the value and the opacity that every pixel has.

use compare::engine::{Engine, Stored};
use compare::plate::{Flat, Plate};
use compare::step::{PAPER_LENS, depth_of};
use compare::{for_each_engine, say};
use reference::Put;
use reference::kernel::{Kernel, SHAPES, Shape, WHOLE};
use reference::marks::{Layout, PLANES, finished};
use reference::rounding::shown_matte;

const VALUES: [u16; 4] = [0, 1, 1_000, 4_095];
const OPACITIES: [u8; 5] = [1, 37, 128, 254, 255];

/// How many cells of a row or a column have the kernel's square on the plate.
const MIDDLE: usize = 3;

/// Put pixel by pixel up to this reach, the plate being 57 × 57: its twenty layers fit the
/// longest log, those of the next plate do not.
const TOP_REACH_OF_PUTS: usize = 27;

/// A kernel, and the smallest plate with such a middle.
#[derive(Clone, Copy, Debug)]
struct Case {
    shape: Shape,
    radius: usize,
    reach: usize,
    side: usize,
}

impl Case {
    fn new(shape: Shape, radius: usize) -> Case {
        let reach = shape.boxes() * radius;
        Case { shape, radius, reach, side: 2 * reach + MIDDLE }
    }

    fn open<E: Engine>(self, room: usize) -> Plate {
        Plate::open::<E>(self.side, self.side, self.reach, room)
    }

    fn fill<E: Engine>(self, plate: &mut Plate, flat: Flat) {
        let answer = plate.fill::<E>(PAPER_LENS, self.shape.number(), flat);
        assert_eq!(answer.number, 0, "{}: {self:?}", E::NAME);
        assert_eq!(plate.pixels[0] >> 24, self.radius as u64, "{}: {self:?}", E::NAME);
    }

    fn put_all<E: Engine>(self, plate: &mut Plate, flat: Flat) {
        for place in 0..plate.pixels.len() {
            let answer = plate.put::<E>(Put {
                x: place % self.side,
                y: place / self.side,
                value: flat.value,
                opacity: flat.opacity,
                shape: self.shape.number(),
                radius: self.radius as u8,
            });
            assert_eq!(answer.number, 0, "{}: {self:?}", E::NAME);
        }
    }

    /// The middle of what goes over the plate row by row.
    fn middle<T: Copy>(self, cells: &[T]) -> Vec<T> {
        let rows = cells.chunks(self.side).skip(self.reach).take(MIDDLE);
        rows.flat_map(|row| &row[self.reach..][..MIDDLE]).copied().collect()
    }

    /// Near the border the matte falls off, and the value stays.
    fn compare_shown<E: Engine>(self, plate: &Plate, flat: Flat) {
        let (values, mattes) = plate.show::<E>();
        let told = || format!("{}: {flat:?} in {self:?}", E::NAME);
        assert_eq!(values, vec![flat.value; values.len()], "{}", told());
        assert_eq!(self.middle(&mattes), [flat.opacity; MIDDLE * MIDDLE], "{}", told());
        assert!(mattes.iter().all(|&matte| matte <= flat.opacity), "{}", told());
    }

    /// The sums of the marks as well, since rounding can hide a loss.
    fn compare_sums<E: Engine>(self, plate: &Plate, flat: Flat) {
        let layout = Layout::of(self.side, self.side, self.reach);
        let (light, matte) = plate.planes.split_at(PLANES * layout.cells());
        let whole = u64::from(flat.opacity) * WHOLE;
        for (planes, sum) in [(light, u64::from(flat.value) * whole), (matte, whole)] {
            let sums = self.middle(&finished(planes, layout));
            assert_eq!(sums, [sum; MIDDLE * MIDDLE], "{}: {flat:?} in {self:?}", E::NAME);
        }
    }
}

/// Each opacity with each value.
fn layers(depth: u32) -> Vec<Flat> {
    let of_opacity = |opacity| VALUES.map(|value| Flat { value, opacity, depth });
    OPACITIES.map(of_opacity).concat()
}

/// Every shape with every radius.
fn by_fill<E: Engine>() {
    let mut shown = 0;
    for radius in 0..=64 {
        let layers = layers(depth_of(radius));
        for shape in SHAPES.into_iter().filter(|shape| radius <= shape.top()) {
            let case = Case::new(shape, radius);
            let mut plate = case.open::<E>(0);
            for &flat in &layers {
                case.fill::<E>(&mut plate, flat);
                case.compare_shown::<E>(&plate, flat);
            }
            case.compare_sums::<E>(&plate, layers[layers.len() - 1]);
            shown += layers.len();
        }
    }
    say(&format!("{}, flat layers by fill: {shown} shown", E::NAME));
}

/// Each layer is put over the one before.
fn by_puts<E: Engine>() {
    let layers = layers(0);
    let (mut shown, mut puts) = (0, 0);
    for shape in SHAPES {
        for radius in 0..=shape.top_under(TOP_REACH_OF_PUTS) {
            let case = Case::new(shape, radius);
            let room = layers.len() * case.side * case.side;
            let mut plate = case.open::<E>(room);
            for &flat in &layers {
                case.put_all::<E>(&mut plate, flat);
                case.compare_shown::<E>(&plate, flat);
            }
            shown += layers.len();
            puts += room;
        }
    }
    say(&format!("{}, flat layers by {puts} puts: {shown} shown", E::NAME));
}

/// Opacity 255 in tent radius 8: shares alone, without what rounding them down loses, would
/// show 254.
fn opaque_tent<E: Engine>() {
    let case = Case::new(Shape::Tent, 8);
    let kernel = Kernel::of(case.shape, case.radius);
    assert_eq!((kernel.share(), kernel.area()), (100, 83_521));
    let taps = (-16..=16).flat_map(|dy| kernel.row(dy));
    let by_shares: u64 = taps.map(|tap| 255 * kernel.share() * tap).sum();
    assert_eq!(shown_matte(by_shares), 254);

    let mut plate = case.open::<E>(0);
    let flat = Flat { value: 1_000, opacity: 255, depth: depth_of(case.radius) };
    case.fill::<E>(&mut plate, flat);
    let (values, mattes) = plate.show::<E>();
    let centre = mattes.len() / 2;
    assert_eq!((values[centre], mattes[centre]), (1_000, 255), "{}", E::NAME);
}

for_each_engine! {
    fill: by_fill(),
    puts: by_puts(),
    tent: opaque_tent(),
}

/// The reference's reading of the calls is held to the same like any engine.
#[test]
fn reference() {
    opaque_tent::<Stored>();
}
