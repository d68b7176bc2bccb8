//! What calls need of the stack does not grow with the plate: on the widest and on the highest
//! plate a show in either form, a total, and a put and an undo that mend, run in a thread whose
//! whole stack is shorter than one row, or one column, of sums. All that they are lent is made
//! outside the thread.
#![cfg(feature = "proved")]

use compare::engine::{Engine, Proved};
use compare::guard::KeptBuffers;
use compare::plate::{Flat, Plate};
use compare::random::Random;
use compare::step::{PAPER_LENS, depth_of};
use reference::kept::KeptLengths;
use reference::kernel::Shape;
use reference::marks::Layout;
use reference::pixel::Pixel;
use reference::spread::{Grid, Sum, pictures, total};
use reference::{Answer, Put, Totals};
use std::thread;

const STACK: usize = 16 * 1024;
const SIDE_TOP: usize = 4_096;
const REACH: usize = 64;

/// A row of sums on the widest plate, and a column on the highest, would not fit.
const _: () = assert!(STACK < (SIDE_TOP + 2 * REACH + 6) * size_of::<u64>());

const PLATES: [(usize, usize); 2] = [(SIDE_TOP, 1), (1, SIDE_TOP)];

/// What every pixel is filled with, and what is put over one of them.
const UNDER: Pixel =
    Pixel { value: 1_000, opacity: 255, shape: Shape::Octagon, radius: REACH as u8 };
const OVER: Pixel = Pixel { value: 4_000, opacity: 100, shape: Shape::Box, ..UNDER };

/// A plate that is filled, and the reference's grid of the same pixels.
fn filled(width: usize, height: usize) -> (Plate, Grid) {
    let mut plate = Plate::open::<Proved>(width, height, REACH, 1);
    let Pixel { value, opacity, shape, .. } = UNDER;
    let flat = Flat { value, opacity, depth: depth_of(REACH) };
    assert_eq!(plate.fill::<Proved>(PAPER_LENS, shape.number(), flat).number, 0);
    (plate, Grid { width, height, pixels: vec![UNDER; width * height] })
}

fn scratch_of(grid: &Grid) -> Vec<u64> {
    vec![u64::MAX; 3 * Layout::of(grid.width, grid.height, REACH).cells()]
}

fn accepted_in_a_small_thread(call: impl FnOnce() -> Answer + Send) {
    let answer = thread::scope(|scope| {
        let small = thread::Builder::new().stack_size(STACK).spawn_scoped(scope, call);
        small.expect("a thread").join().expect("a call that ends")
    });
    assert_eq!(answer.number, 0);
}

#[test]
fn a_show_in_a_small_thread() {
    for (width, height) in PLATES {
        let (Plate { state, planes, .. }, grid) = filled(width, height);
        let mut scratch = scratch_of(&grid);
        let (mut values, mut mattes) = (vec![0; width * height], vec![0; width * height]);
        accepted_in_a_small_thread(|| {
            Proved::show(state, &planes, &mut scratch, &mut values, &mut mattes)
        });
        let shown = pictures(&grid);
        assert!(values == shown.values && mattes == shown.mattes, "{width} x {height}");
    }
}

#[test]
fn a_total_in_a_small_thread() {
    for (width, height) in PLATES {
        let (Plate { state, planes, .. }, grid) = filled(width, height);
        let mut scratch = scratch_of(&grid);
        let mut sum = Sum::default();
        accepted_in_a_small_thread(|| {
            let Totals { answer, matte, light } = Proved::total(state, &planes, &mut scratch);
            sum = Sum { light, matte };
            answer
        });
        assert_eq!(sum, total(&grid), "{width} x {height}");
    }
}

#[test]
fn second_forms_in_a_small_thread() {
    for (width, height) in PLATES {
        let (mut plate, mut grid) = filled(width, height);
        let mut scratch = scratch_of(&grid);
        let mut kept =
            KeptBuffers::garbage(KeptLengths::of(width * height), &mut Random::new(91));
        accepted_in_a_small_thread(|| {
            Proved::show_kept(plate.state, &plate.planes, &mut scratch, kept.lend())
        });
        compare(&kept, &plate, &grid);

        let (x, y) = (width / 2, height / 2);
        let Pixel { value, opacity, shape, radius } = OVER;
        let put = Put { x, y, value, opacity, shape: shape.number(), radius };
        accepted_in_a_small_thread(|| plate.put_kept::<Proved>(put, kept.lend()));
        grid.pixels[y * width + x] = OVER;
        compare(&kept, &plate, &grid);

        accepted_in_a_small_thread(|| plate.undo_kept::<Proved>(kept.lend()));
        grid.pixels[y * width + x] = UNDER;
        compare(&kept, &plate, &grid);
    }
}

/// What is kept is the reference's, and the pictures are a show's.
fn compare(kept: &KeptBuffers, plate: &Plate, grid: &Grid) {
    let told = || format!("{} x {}", grid.width, grid.height);
    assert!(kept.guards_hold(), "beyond a buffer, {}", told());
    assert!(kept.are_of(grid), "not the reference's, {}", told());
    let (values, mattes) = plate.show::<Proved>();
    assert!(kept.values[..] == values && kept.mattes[..] == mattes, "not shown, {}", told());
}
