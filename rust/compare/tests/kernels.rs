//! Every shape with every radius: one pixel in the middle and one in a corner.

use compare::engine::{Engine, Handmade};
use compare::list::{Tally, run};
use compare::random::Random;
use compare::say;
use compare::step::Step;
use reference::kernel::{SHAPES, Shape};
use reference::{Put, State};

fn every_kernel<E: Engine>() {
    let random = &mut Random::new(31);
    let tally = &mut Tally::default();
    for shape in SHAPES {
        for radius in 0..=shape.top() {
            kernel::<E>(shape, radius, shape.boxes() * radius, random, tally);
        }
        for radius in [0, 1, 2, 3, 8, 63] {
            if radius <= shape.top() {
                kernel::<E>(shape, radius, 64, random, tally);
            }
        }
    }
    say(&format!("{}, every kernel: {tally}", E::NAME));
}

fn kernel<E: Engine>(
    shape: Shape,
    radius: usize,
    reach: usize,
    random: &mut Random,
    tally: &mut Tally,
) {
    // The whole kernel is inside the image, with a frame that it does not touch.
    let middle = shape.boxes() * radius + 1;
    let side = 2 * middle + 1;
    let mut put = |x: usize, y: usize| {
        Step::Put(Put {
            x,
            y,
            value: random.within(1, 4_095) as u16,
            opacity: random.within(1, 255) as u8,
            shape: shape.number(),
            radius: radius as u8,
        })
    };
    let show = Step::show(side, side, reach);
    let puts = [put(middle, middle), show.clone(), put(side - 1, 0), show.clone()];
    let undos = [Step::Undo, Step::Undo, show];
    let sizes = State { width: side, height: side, reach, count: 0 };
    run::<E>(sizes, 2, &puts, random, tally);
    run::<E>(sizes, 2, &[puts.to_vec(), undos.to_vec()].concat(), random, tally);
}

#[test]
fn handmade() {
    every_kernel::<Handmade>();
}

#[cfg(feature = "proved")]
#[test]
fn proved() {
    every_kernel::<compare::engine::Proved>();
}
