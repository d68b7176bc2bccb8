//! The radius from depth, where it is hardest: next to halves, and at exact ones.

use compare::engine::{Engine, Handmade};
use compare::random::Random;
use compare::say;
use compare::step::{Maker, PAPER_LENS};
use reference::kernel::Shape;
use reference::marks::Layout;
use reference::radius::FARTHEST;
use reference::{Fill, Lens, State};

const WIDTH: usize = 64;
const HEIGHT: usize = 12;
const FILLS: usize = 400;

fn radii<E: Engine>() {
    let random = &mut Random::new(41);
    let mut exact_halves = 0;
    for _ in 0..FILLS {
        let reach = random.pick(&[64, 64, 20, 3]);
        let shape = Shape::from_number(random.below(6) as u8).expect("six shapes");
        let lens = lawful_lens(random);
        let depths = depths_near_halves(lens, random);
        exact_halves += depths.iter().filter(|&&depth| is_half(lens, depth)).count();
        let words = fill::<E>(lens, shape, reach, &depths);
        let top = shape.top_under(reach);
        for (word, depth) in words.into_iter().zip(depths) {
            let radius = u64::from(lens.radius(depth, top));
            assert_eq!(word >> 24, radius, "{}: {lens:?}, {shape:?} at {depth}", E::NAME);
        }
    }
    let depths = FILLS * WIDTH * HEIGHT;
    say(&format!("{}, radius from {depths} depths, {exact_halves} exact halves", E::NAME));
    assert!(exact_halves > 0);
}

/// The pixel words after a fill.
fn fill<E: Engine>(lens: Lens, shape: Shape, reach: usize, depths: &[u32]) -> Vec<u64> {
    let mut planes = vec![0; Layout::of(WIDTH, HEIGHT, reach).all_planes()];
    let mut pixels = vec![0; WIDTH * HEIGHT];
    let state = State { width: WIDTH, height: HEIGHT, reach, count: 0 };
    let fill = Fill {
        lens,
        shape: shape.number(),
        values: &[1; WIDTH * HEIGHT],
        opacities: &[1; WIDTH * HEIGHT],
        depths,
    };
    let answer = E::fill(state, &fill, &mut planes, &mut pixels, &mut []);
    assert_eq!(answer.number, 0);
    pixels
}

fn lawful_lens(random: &mut Random) -> Lens {
    if random.once_in(8) {
        return PAPER_LENS;
    }
    let mut maker = Maker { random, width: WIDTH, height: HEIGHT, reach: 64 };
    std::iter::repeat_with(|| maker.lens()).find(|lens| lens.is_lawful()).expect("endless")
}

/// Depths around those where the radius is k + 1/2, nearer and farther than the focus.
fn depths_near_halves(lens: Lens, random: &mut Random) -> Vec<u32> {
    let [opening, focal, focus, pitch] =
        [lens.opening, lens.focal, lens.focus, lens.pitch].map(i128::from);
    let at_infinity = 2 * 500 * opening * focal;
    let step = pitch * (focus - focal);
    let depth = || {
        // The radius is k / 2 where at_infinity × abs(Z − S) = k × step × Z.
        let odd = 2 * random.below(66) as i128 + 1;
        let below =
            if random.once_in(2) { at_infinity + odd * step } else { at_infinity - odd * step };
        let depth = if below == 0 { 0 } else { at_infinity * focus / below };
        let near = depth + random.below(3) as i128 - 1;
        if near == 0 || (focal + 1..=i128::from(FARTHEST)).contains(&near) {
            near as u32
        } else {
            random.within(lens.focal as usize + 1, FARTHEST as usize) as u32
        }
    };
    std::iter::repeat_with(depth).take(WIDTH * HEIGHT).collect()
}

/// Whether the formula's quotient is a whole number and a half.
fn is_half(lens: Lens, depth: u32) -> bool {
    let [d, f, s, p, z] =
        [lens.opening, lens.focal, lens.focus, lens.pitch, depth].map(u128::from);
    let (above, below) = if z == 0 {
        (500 * d * f, p * (s - f))
    } else {
        (500 * d * f * z.abs_diff(s), p * z * (s - f))
    };
    2 * above % below == 0 && 2 * above / below % 2 == 1
}

#[test]
fn handmade() {
    radii::<Handmade>();
}

#[cfg(feature = "proved")]
#[test]
fn proved() {
    radii::<compare::engine::Proved>();
}
