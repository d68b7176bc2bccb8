//! The six kernels, tap by tap.

use std::sync::OnceLock;

/// What the weights of a kernel add up to: 2^23.
pub const WHOLE: u64 = 8_388_608;

/// The marks of a kernel's centre, which gets what rounding the share down loses.
pub const CENTRE_MARKS: u32 = 4;

/// The greatest radius of any shape.
pub const TOP: usize = 64;

#[derive(Clone, Copy, Debug, PartialEq, Eq)]
pub enum Shape {
    Box,
    Tent,
    Triple,
    Diamond,
    Hexagon,
    Octagon,
}

/// The shapes in the order of their numbers.
pub const SHAPES: [Shape; 6] =
    [Shape::Box, Shape::Tent, Shape::Triple, Shape::Diamond, Shape::Hexagon, Shape::Octagon];

impl Shape {
    pub fn from_number(number: u8) -> Option<Shape> {
        SHAPES.get(usize::from(number)).copied()
    }

    pub fn number(self) -> u8 {
        self as u8
    }

    /// How many boxes are convolved, the paper's n; 1 for shapes 3 to 5.
    pub fn boxes(self) -> usize {
        match self {
            Shape::Tent => 2,
            Shape::Triple => 3,
            _ => 1,
        }
    }

    /// The paper's column "top r".
    pub fn top(self) -> usize {
        match self {
            Shape::Tent => 8,
            Shape::Triple => 3,
            _ => TOP,
        }
    }

    /// The paper's column "marks": those of the taps.
    pub fn tap_marks(self) -> u32 {
        match self {
            Shape::Box => 4,
            Shape::Tent => 9,
            Shape::Triple => 16,
            Shape::Diamond => 8,
            Shape::Hexagon | Shape::Octagon => 12,
        }
    }

    /// All marks of a kernel, also where those of its centre are worth nothing.
    pub fn marks(self) -> u32 {
        self.tap_marks() + CENTRE_MARKS
    }

    /// The greatest radius on a plate of this reach.
    pub fn top_under(self, reach: usize) -> usize {
        self.top().min(reach / self.boxes())
    }
}

/// A kernel written out: its taps from -reach to reach on both axes, row by row.
pub struct Kernel {
    reach: i64,
    taps: Vec<u64>,
    /// A, the sum of all taps.
    area: u64,
}

impl Kernel {
    /// The kernel of a shape and a radius up to the shape's top. Each is built once.
    pub fn of(shape: Shape, radius: usize) -> &'static Kernel {
        static KERNELS: [[OnceLock<Kernel>; TOP + 1]; SHAPES.len()] =
            [const { [const { OnceLock::new() }; TOP + 1] }; SHAPES.len()];
        assert!(radius <= shape.top());
        KERNELS[usize::from(shape.number())][radius]
            .get_or_init(|| Kernel::build(shape, radius as i64))
    }

    fn build(shape: Shape, r: i64) -> Kernel {
        let t = r / 2;
        let one_box = || Kernel::filled(r, |dx, dy| dx.abs() <= r && dy.abs() <= r);
        match shape {
            Shape::Box => one_box(),
            Shape::Tent => one_box().convolved(&one_box()),
            Shape::Triple => one_box().convolved(&one_box()).convolved(&one_box()),
            Shape::Diamond => Kernel::filled(r, |dx, dy| dx.abs() + dy.abs() <= r),
            Shape::Hexagon => Kernel::filled(r, |dx, dy| {
                dx.abs() <= r && dy.abs() <= (2 * t).min(2 * (r - dx.abs()))
            }),
            Shape::Octagon => Kernel::filled(r, |dx, dy| {
                dx.abs() <= r && dy.abs() <= r && dx.abs() + dy.abs() <= r + t
            }),
        }
    }

    /// Taps of 1 where the test holds.
    fn filled(reach: i64, test: impl Fn(i64, i64) -> bool) -> Kernel {
        Kernel::from_taps(reach, |dx, dy| u64::from(test(dx, dy)))
    }

    fn from_taps(reach: i64, tap: impl Fn(i64, i64) -> u64) -> Kernel {
        let mut taps = Vec::new();
        for dy in -reach..=reach {
            for dx in -reach..=reach {
                taps.push(tap(dx, dy));
            }
        }
        let area = taps.iter().sum();
        Kernel { reach, taps, area }
    }

    fn convolved(&self, other: &Kernel) -> Kernel {
        Kernel::from_taps(self.reach + other.reach, |dx, dy| {
            let mut sum = 0;
            for ey in -other.reach..=other.reach {
                for ex in -other.reach..=other.reach {
                    sum += self.tap(dx - ex, dy - ey) * other.tap(ex, ey);
                }
            }
            sum
        })
    }

    /// How far the kernel reaches on both axes.
    pub fn reach(&self) -> i64 {
        self.reach
    }

    /// The taps of one row, dy within the reach, from dx = -reach on.
    pub fn row(&self, dy: i64) -> &[u64] {
        let side = 2 * self.reach + 1;
        &self.taps[((dy + self.reach) * side) as usize..][..side as usize]
    }

    /// The tap at (dx, dy), 0 beyond the reach.
    pub fn tap(&self, dx: i64, dy: i64) -> u64 {
        if dx.abs() > self.reach || dy.abs() > self.reach {
            return 0;
        }
        self.row(dy)[(dx + self.reach) as usize]
    }

    /// A, the sum of all taps.
    pub fn area(&self) -> u64 {
        self.area
    }

    /// The share s.
    pub fn share(&self) -> u64 {
        WHOLE / self.area
    }

    /// What rounding the share down loses.
    pub fn rest(&self) -> u64 {
        WHOLE - self.share() * self.area
    }

    /// The weight at (dx, dy): the share for each tap, and the rest at the centre.
    pub fn weight(&self, dx: i64, dy: i64) -> u64 {
        let centre = if dx == 0 && dy == 0 { self.rest() } else { 0 };
        self.share() * self.tap(dx, dy) + centre
    }
}

#[cfg(test)]
mod tests {
    use super::*;

    fn area(shape: Shape, radius: usize) -> u64 {
        Kernel::of(shape, radius).area()
    }

    #[test]
    fn checked_examples() {
        // The first row of taps is the row of one axis, its edge being 1.
        assert_eq!(Kernel::of(Shape::Tent, 1).row(-2), [1, 2, 3, 2, 1]);
        assert_eq!(area(Shape::Tent, 1), 81);
        assert_eq!(Kernel::of(Shape::Triple, 1).row(-3), [1, 3, 6, 7, 6, 3, 1]);
        assert_eq!(area(Shape::Triple, 1), 729);
        assert_eq!(area(Shape::Diamond, 2), 13);
        assert_eq!([1, 2].map(|r| area(Shape::Hexagon, r)), [3, 17]);
        assert_eq!([1, 2].map(|r| area(Shape::Octagon, r)), [5, 21]);
        assert_eq!(Kernel::of(Shape::Box, 1).share(), 932_067);
        assert_eq!(Kernel::of(Shape::Box, 64).share(), 504);
        assert_eq!(area(Shape::Tent, 8), 83_521);
        assert_eq!(Kernel::of(Shape::Tent, 8).share(), 100);
    }

    #[test]
    fn marks_of_the_table() {
        assert_eq!(SHAPES.map(Shape::tap_marks), [4, 9, 16, 8, 12, 12]);
        assert_eq!(SHAPES.map(Shape::marks), [8, 13, 20, 12, 16, 16]);
    }

    #[test]
    fn rests() {
        let rest = |shape, radius| Kernel::of(shape, radius).rest();
        assert_eq!([0, 1, 64].map(|r| rest(Shape::Box, r)), [0, 5, 1_544]);
        assert_eq!(rest(Shape::Tent, 8), 36_508);
    }

    #[test]
    fn weights_sum_to_the_whole() {
        for shape in SHAPES {
            for radius in 0..=shape.top() {
                let kernel = Kernel::of(shape, radius);
                let axis = || -kernel.reach()..=kernel.reach();
                let row = |dy: i64| axis().map(|dx| kernel.weight(dx, dy)).sum::<u64>();
                assert_eq!(axis().map(row).sum::<u64>(), WHOLE, "{shape:?} {radius}");
            }
        }
    }
}
