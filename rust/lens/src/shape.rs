//! The kernels that pixels are spread by.

use crate::refusal::Refusal;

/// The kernel that a pixel is spread by.
///
/// Its radius r is 0 to [`Shape::top_radius`] of the plate's reach. A tap is a pixel at dx, dy
/// from the kernel's middle, and t is r / 2 rounded down. A kernel covers r pixels to each
/// side, a tent 2 r, a triple 3 r; one of radius 0 is its middle alone.
///
/// Every kernel adds up to the whole exactly, so a flat layer, one pixel everywhere, keeps its
/// value and its opacity to the code value where the opacity is not 0; with opacity 0 both
/// pictures are 0. Only nearer to the border than its kernel covers does the matte fall off.
#[derive(Clone, Copy, Debug, PartialEq, Eq, Hash)]
#[repr(u8)]
pub enum Shape {
    /// A square: |dx| ≤ r and |dy| ≤ r, all taps alike.
    Box,
    /// Two boxes convolved: a pyramid of |dx| ≤ 2 r and |dy| ≤ 2 r.
    Tent,
    /// Three boxes convolved: a round hill of |dx| ≤ 3 r and |dy| ≤ 3 r.
    Triple,
    /// A square on its corner: |dx| + |dy| ≤ r, all taps alike.
    Diamond,
    /// |dx| ≤ r and |dy| ≤ the lesser of 2 t and 2 (r − |dx|), all taps alike.
    Hexagon,
    /// A box without its corners: |dx| ≤ r, |dy| ≤ r and |dx| + |dy| ≤ r + t, all taps alike.
    Octagon,
}

impl Shape {
    /// All shapes in the order of their numbers, from 0.
    pub const ALL: [Shape; 6] = [
        Shape::Box,
        Shape::Tent,
        Shape::Triple,
        Shape::Diamond,
        Shape::Hexagon,
        Shape::Octagon,
    ];

    /// The shape's number, 0 to 5, as the C interface has it; [`Shape::try_from`] goes the
    /// other way.
    pub const fn number(self) -> u8 {
        self as u8
    }

    /// The greatest radius on a plate of this reach: 64, of a tent 8, of a triple 3, or less
    /// where the kernel would cover more than the reach.
    ///
    /// ```
    /// use lens::{Plate, Shape};
    ///
    /// assert_eq!(Shape::Tent.top_radius(Plate::MAX_REACH), 8);
    /// assert_eq!(Shape::Tent.top_radius(7), 3);
    /// ```
    pub const fn top_radius(self, reach: usize) -> u8 {
        let (top, boxes) = match self {
            Shape::Tent => (8, 2),
            Shape::Triple => (3, 3),
            Shape::Box | Shape::Diamond | Shape::Hexagon | Shape::Octagon => (64, 1),
        };
        let covered = reach / boxes;
        if covered < top { covered as u8 } else { top as u8 }
    }
}

impl TryFrom<u8> for Shape {
    type Error = Refusal;

    /// The shape of a number; [`Refusal::Shape`] for one above 5.
    ///
    /// ```
    /// use lens::{Refusal, Shape};
    ///
    /// assert_eq!(Shape::try_from(3), Ok(Shape::Diamond));
    /// assert_eq!(Shape::try_from(6), Err(Refusal::Shape));
    /// ```
    fn try_from(number: u8) -> Result<Shape, Refusal> {
        Shape::ALL.get(usize::from(number)).copied().ok_or(Refusal::Shape)
    }
}

#[cfg(test)]
mod tests {
    use super::*;
    use crate::{Pixel, Plate};

    #[test]
    fn numbers_go_both_ways() {
        for (number, shape) in (0..).zip(Shape::ALL) {
            assert_eq!(shape.number(), number);
            assert_eq!(Shape::try_from(number), Ok(shape));
        }
        for number in 6..=255 {
            assert_eq!(Shape::try_from(number), Err(Refusal::Shape));
        }
    }

    #[test]
    fn the_top_radius_is_the_engines() {
        for reach in [0, 1, 2, 3, 7, 8, 9, 15, 16, 17, 63, 64] {
            let mut plate = Plate::builder(1, 1).reach(reach).undo_steps(6).open().unwrap();
            for shape in Shape::ALL {
                let radius = shape.top_radius(reach);
                let pixel = Pixel { value: 1, opacity: 1, shape, radius };
                assert!(plate.put(0, 0, pixel).is_ok(), "{shape:?} {radius} reach {reach}");
                let refused = plate.put(0, 0, Pixel { radius: radius + 1, ..pixel });
                assert_eq!(refused, Err(Refusal::Radius), "{shape:?} {radius} reach {reach}");
            }
        }
    }

    #[test]
    fn no_reach_lifts_the_top_radius() {
        for reach in [Plate::MAX_REACH, 65, 256, usize::MAX] {
            let tops = Shape::ALL.map(|shape| shape.top_radius(reach));
            assert_eq!(tops, [64, 8, 3, 64, 64, 64]);
        }
    }

    /// Whether a shape of this radius has a tap at dx, dy, by what is said above.
    fn has_tap(shape: Shape, r: i64, dx: i64, dy: i64) -> bool {
        let (dx, dy, t) = (dx.abs(), dy.abs(), r / 2);
        match shape {
            Shape::Box => dx <= r && dy <= r,
            Shape::Tent => dx <= 2 * r && dy <= 2 * r,
            Shape::Triple => dx <= 3 * r && dy <= 3 * r,
            Shape::Diamond => dx + dy <= r,
            Shape::Hexagon => dx <= r && dy <= (2 * t).min(2 * (r - dx)),
            Shape::Octagon => dx <= r && dy <= r && dx + dy <= r + t,
        }
    }

    /// A value is seen wherever there is a tap, and nowhere else.
    #[test]
    fn taps_are_where_the_documentation_says() {
        const MIDDLE: i64 = 10;
        for shape in Shape::ALL {
            for radius in 0..=shape.top_radius(9) {
                let mut plate = Plate::builder(21, 21).reach(9).undo_steps(1).open().unwrap();
                let pixel = Pixel { value: 7, opacity: 255, shape, radius };
                plate.put(10, 10, pixel).unwrap();
                let shown = plate.show().unwrap();
                for (place, &value) in (0..).zip(&shown.values) {
                    let (dx, dy) = (place % 21 - MIDDLE, place / 21 - MIDDLE);
                    let seen = has_tap(shape, radius.into(), dx, dy);
                    assert_eq!(value == 7, seen, "{shape:?} {radius} at {dx}, {dy}");
                }
            }
        }
    }
}
