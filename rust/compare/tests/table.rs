//! Every example that the paper gives by calls: the table of refused calls, 1 to 12 and 17,
//! the checked examples that show at a call, and the mark counts. (13 to 16 are the record
//! program's.)

use compare::engine::{Engine, Handmade, Stored};
use compare::plate::{Flat, Plate, Sums};
use compare::step::PAPER_LENS;
use reference::marks::Layout;
use reference::{Answer, Lens, Put, State};

const PUT: Put = Put { x: 0, y: 0, value: 1, opacity: 1, shape: 0, radius: 0 };
const FLAT: Flat = Flat { value: 1, opacity: 255, depth: 0 };

/// The marks of a kernel by shape: the paper's column, and the centre's four.
const MARKS: [u32; 6] = [4 + 4, 9 + 4, 16 + 4, 8 + 4, 12 + 4, 12 + 4];

fn refused_calls<E: Engine>() {
    // 1: W = 0. 4,096 × 512 passes, 4,096 × 513 not.
    let none = Answer { number: 1, marks: 0, state: State::default() };
    assert_eq!(E::open(0, 1, 0, &mut [], &mut [], &mut []), none);
    assert_eq!(E::open(4_096, 513, 0, &mut [], &mut [], &mut []), none);
    assert_eq!(E::open(4_096, 512, 0, &mut [], &mut [], &mut []).number, 2);
    assert_eq!(E::open(1, 1, 65, &mut [], &mut [], &mut []), none);

    // 2: planes of 14 × P − 1; a log above 65,535.
    let cells = Layout::of(3, 2, 1).all_planes();
    let mut planes = vec![7; cells];
    let answer = E::open(3, 2, 1, &mut planes[1..], &mut [7; 6], &mut []);
    assert_eq!(answer, Answer { number: 2, marks: 0, state: State::default() });
    let mut log = vec![7; 65_536];
    assert_eq!(E::open(3, 2, 1, &mut planes, &mut [7; 6], &mut log).number, 2);
    assert_eq!(E::open(3, 2, 1, &mut planes, &mut [7; 6], &mut log[1..]).number, 0);

    // 3: count 1, log 0.
    let mut plate = Plate::open::<E>(3, 2, 3, 0);
    plate.state.count = 1;
    assert_eq!(plate.put::<E>(PUT).number, 3);
    assert_eq!(plate.undo::<E>().number, 3);
    assert_eq!(plate.fill::<E>(PAPER_LENS, 0, FLAT).number, 3);

    // 4 to 7: W = 3, x = 3; v = 4,096; shape 6; tent, R = 3, r = 2.
    let mut plate = Plate::open::<E>(3, 2, 3, 1);
    assert_eq!(plate.put::<E>(Put { x: 3, ..PUT }).number, 4);
    assert_eq!(plate.put::<E>(Put { y: 2, ..PUT }).number, 4);
    assert_eq!(plate.put::<E>(Put { value: 4_096, ..PUT }).number, 5);
    assert_eq!(plate.fill::<E>(PAPER_LENS, 6, Flat { value: 4_096, ..FLAT }).number, 5);
    assert_eq!(plate.put::<E>(Put { shape: 6, ..PUT }).number, 6);
    assert_eq!(plate.fill::<E>(PAPER_LENS, 6, FLAT).number, 6);
    assert_eq!(plate.put::<E>(Put { shape: 1, radius: 2, ..PUT }).number, 7);
    assert_eq!(plate.put::<E>(Put { shape: 1, radius: 1, ..PUT }).number, 0);

    // 8: log 0, a put lawful otherwise.
    assert_eq!(Plate::open::<E>(3, 2, 3, 0).put::<E>(PUT).number, 8);

    // 9: undo after open.
    assert_eq!(Plate::open::<E>(3, 2, 3, 1).undo::<E>().number, 9);

    // 10: word 2^40, at the place of a put, and at the place of the last entry.
    let mut plate = Plate::open::<E>(3, 2, 3, 2);
    plate.put::<E>(PUT);
    plate.pixels[0] = 1 << 40;
    assert_eq!(plate.put::<E>(PUT).number, 10);
    assert_eq!(plate.undo::<E>().number, 10);
    assert_eq!(plate.put::<E>(Put { x: 1, ..PUT }).number, 0);

    // 11, 12 and 17: S = f; 10,000,001; a depth of f.
    let mut plate = Plate::open::<E>(3, 2, 3, 0);
    let lens = Lens { focus: PAPER_LENS.focal, ..PAPER_LENS };
    assert_eq!(plate.fill::<E>(lens, 0, Flat { depth: 10_000_001, ..FLAT }).number, 11);
    assert_eq!(plate.fill::<E>(PAPER_LENS, 0, Flat { depth: 10_000_001, ..FLAT }).number, 12);
    assert_eq!(plate.fill::<E>(PAPER_LENS, 0, Flat { depth: 10_000_000, ..FLAT }).number, 0);
    assert_eq!(plate.fill::<E>(PAPER_LENS, 0, Flat { depth: 500, ..FLAT }).number, 17);
}

fn checked_examples<E: Engine>() {
    // The plate of the section Records.
    let mut plate = Plate::open::<E>(3, 1, 1, 64);
    plate.put::<E>(Put { x: 1, value: 100, opacity: 255, radius: 1, ..PUT });
    let answer = plate.put::<E>(Put { value: 40, opacity: 255, ..PUT });
    assert_eq!(answer.marks, 16);
    assert_eq!(plate.show::<E>(), (vec![46, 100, 100], vec![255, 28, 28]));
    assert_eq!(plate.undo::<E>().marks, 16);
    assert_eq!(plate.show::<E>(), (vec![100; 3], vec![28; 3]));

    // D 250, f 500, S 20,000, p 50: Z 40,000 gives 32, 20,000 gives 0, 0 gives 64.
    let mut plate = Plate::open::<E>(1, 1, 64, 0);
    for (depth, radius) in [(40_000, 32), (20_000, 0), (0, 64)] {
        plate.fill::<E>(PAPER_LENS, 0, Flat { value: 0, depth, ..FLAT });
        assert_eq!(plate.pixels[0] >> 24, radius);
    }
    // D 1, f 1, S 2, p 100, Z 4: 2.5, so 3.
    let lens = Lens { opening: 1, focal: 1, focus: 2, pitch: 100 };
    plate.fill::<E>(lens, 0, Flat { value: 0, depth: 4, ..FLAT });
    assert_eq!(plate.pixels[0] >> 24, 3);

    // Box shares: r = 1 gives 932,067; r = 64 gives 504. The kernel's first mark shows them,
    // and the centre's first mark what 8,388,608 has beyond 9 and 16,641 of them.
    let mut plate = Plate::open::<E>(1, 1, 64, 2);
    let columns = 1 + 2 * 64 + 6;
    for (radius, share, rest) in [(1, 932_067, 5), (64, 504, 1_544)] {
        plate.put::<E>(Put { radius, ..PUT });
        let level_matte = &plate.planes[9 * plate.planes.len() / 14..];
        assert_eq!(level_matte[(67 - usize::from(radius)) * (columns + 1)], share);
        assert_eq!(level_matte[67 * (columns + 1)], rest);
    }
}

/// A put and its undo report the marks of both kernels, also where marks are worth nothing
/// because of radius 0 or opacity 0: 16 to 40 in all.
fn mark_counts<E: Engine>() {
    let mut reported = Vec::new();
    for (old, old_marks) in (0..).zip(MARKS) {
        for (new, new_marks) in (0..).zip(MARKS) {
            for (radius, opacity) in [(0, 255), (1, 255), (1, 0)] {
                let mut plate = Plate::open::<E>(1, 1, 3, 2);
                let put = Put { opacity, radius, ..PUT };
                let first = plate.put::<E>(Put { shape: old, ..put });
                assert_eq!(first.marks, MARKS[0] + old_marks);
                let second = plate.put::<E>(Put { shape: new, ..put });
                assert_eq!(second.marks, old_marks + new_marks);
                assert_eq!(plate.undo::<E>().marks, second.marks);
                reported.push(second.marks);
            }
        }
    }
    assert_eq!((reported.iter().min(), reported.iter().max()), (Some(&16), Some(&40)));
}

/// Light 5, matte 2: value 2; light 7, matte 2: value 4. Matte 4,194,303 shows 0; 4,194,304
/// shows 1.
fn rounding<E: Engine>() {
    let sums = [(5, 2), (7, 2), (0, 4_194_303), (0, 4_194_304), (9, 0)]
        .map(|(light, matte)| Sums { light, matte });
    let shown = Plate::with_sums::<E>(&sums).show::<E>();
    assert_eq!(shown, (vec![2, 4, 0, 0, 0], vec![0, 0, 0, 1, 0]));
}

fn all<E: Engine>() {
    refused_calls::<E>();
    checked_examples::<E>();
    mark_counts::<E>();
    rounding::<E>();
}

#[test]
fn handmade() {
    all::<Handmade>();
}

#[cfg(feature = "proved")]
#[test]
fn proved() {
    all::<compare::engine::Proved>();
}

#[test]
fn reference() {
    all::<Stored>();
}
