//! The shown value at halves and next to them: to the even value, whatever the sums.

use std::ops::Range;

use compare::engine::Engine;
use compare::plate::{Plate, Sums};
use compare::random::Random;
use compare::{for_each_engine, say};
use reference::Put;
use reference::rounding::{TOP_VALUE, shown_value};

/// The values below a half, to past the top: 4,095.5 and 4,096.5 are shown as 4,095.
const LOWER: Range<u64> = 0..4_097;

const OPACITIES: [u8; 4] = [1, 37, 128, 255];

/// Sums at the half above `lower` and next to it, a matte of each length in bits for which
/// light fits.
fn around_half(lower: u64, random: &mut Random) -> Vec<Sums> {
    let mattes = (1..64).map(|bits| (1 << bits | random.bits() >> (64 - bits)) & !1);
    let halves = mattes.filter_map(|matte| {
        let light = (matte / 2).checked_mul(2 * lower + 1)?;
        Some(Sums { light, matte })
    });
    let near = |half: Sums| {
        [-1, 0, 1].map(|by| Sums { light: half.light.saturating_add_signed(by), ..half })
    };
    halves.flat_map(near).collect()
}

fn is_half(sums: Sums) -> bool {
    2 * u128::from(sums.light % sums.matte) == u128::from(sums.matte)
}

/// Without a division: value times matte is within half a matte of light, and value is even
/// where it is exactly half; from 4,095.5 mattes on it is the top.
fn keeps_to_the_law(sums: Sums, value: u16) -> bool {
    let [light, matte] = [sums.light, sums.matte].map(u128::from);
    if 2 * light >= (2 * u128::from(TOP_VALUE) + 1) * matte {
        return value == TOP_VALUE;
    }
    let off = 2 * (u128::from(value) * matte).abs_diff(light);
    off < matte || off == matte && value.is_multiple_of(2)
}

fn any_sums<E: Engine>() {
    let random = &mut Random::new(5);
    let (mut shown, mut halves) = (0, 0);
    for lower in LOWER {
        let row = around_half(lower, random);
        let (values, _) = Plate::with_sums::<E>(&row).show::<E>();
        for (&sums, value) in row.iter().zip(values) {
            assert_eq!(value, shown_value(sums.light, sums.matte), "{}: {sums:?}", E::NAME);
            assert!(keeps_to_the_law(sums, value), "{}: {sums:?} shows {value}", E::NAME);
        }
        shown += row.len();
        halves += row.iter().filter(|&&sums| is_half(sums)).count();
    }
    say(&format!("{}, values of {shown} sums, {halves} exact halves", E::NAME));
    assert_eq!(halves, shown / 3);
}

/// Two boxes side by side, one value apart: below them, where both add as much, is a half.
fn between_two_pixels<E: Engine>() {
    for opacity in OPACITIES {
        for value in 0..TOP_VALUE {
            let mut plate = Plate::open::<E>(2, 2, 1, 2);
            for (x, value) in [(0, value), (1, value + 1)] {
                let put = Put { x, y: 0, value, opacity, shape: 0, radius: 1 };
                assert_eq!(plate.put::<E>(put).number, 0);
            }
            let even = value + value % 2;
            let (values, _) = plate.show::<E>();
            assert_eq!(values[2..], [even, even], "{}: {value}, {opacity}", E::NAME);
        }
    }
}

for_each_engine! {
    of_any_sums: any_sums(),
    of_two_pixels: between_two_pixels(),
}
