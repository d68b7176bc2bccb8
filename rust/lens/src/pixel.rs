//! A pixel of the sharp layer.

use crate::shape::Shape;

/// A pixel of the layer.
#[derive(Clone, Copy, Debug, PartialEq, Eq)]
pub struct Pixel {
    /// How bright it is, 0 to 4,095 ([`Pixel::MAX_VALUE`]), not multiplied by the opacity.
    pub value: u16,
    /// How much of it there is, 0 none to 255 all.
    pub opacity: u8,
    /// The kernel that it is spread by.
    pub shape: Shape,
    /// The kernel's radius in pixels, 0 to [`Shape::top_radius`] of the plate's reach.
    pub radius: u8,
}

impl Pixel {
    /// The greatest value, of 12 bits.
    pub const MAX_VALUE: u16 = 4_095;

    /// The pixel that stands everywhere on a plate just opened: it adds nothing to the
    /// pictures.
    pub const EMPTY: Pixel = Pixel { value: 0, opacity: 0, shape: Shape::Box, radius: 0 };

    /// The pixel of a stored word; none for a word that no pixel has on a plate of this reach.
    /// The value is in bits 0 to 11, the opacity in 12 to 19, the shape in 20 to 23, the
    /// radius in 24 to 31, and the rest is 0.
    pub(crate) fn from_word(word: u64, reach: usize) -> Option<Pixel> {
        let value = word as u16 & Pixel::MAX_VALUE;
        let opacity = (word >> 12) as u8;
        let shape = Shape::try_from((word >> 20) as u8 % 16).ok()?;
        let radius = u8::try_from(word >> 24).ok()?;
        let lawful = radius <= shape.top_radius(reach);
        lawful.then_some(Pixel { value, opacity, shape, radius })
    }
}

impl Default for Pixel {
    /// [`Pixel::EMPTY`].
    fn default() -> Pixel {
        Pixel::EMPTY
    }
}

#[cfg(test)]
mod tests {
    use super::*;

    fn word(value: u64, opacity: u64, shape: u64, radius: u64) -> u64 {
        value | opacity << 12 | shape << 20 | radius << 24
    }

    #[test]
    fn words_are_read_part_by_part() {
        let pixel = Pixel { value: 2_748, opacity: 254, shape: Shape::Octagon, radius: 3 };
        let stored = word(2_748, 254, 5, 3);
        assert_eq!(Pixel::from_word(stored, 3), Some(pixel));
        assert_eq!(Pixel::from_word(stored, 2), None);
        let full = Pixel { value: 4_095, opacity: 255, shape: Shape::Diamond, radius: 64 };
        assert_eq!(Pixel::from_word(word(4_095, 255, 3, 64), 64), Some(full));
        assert_eq!(Pixel::from_word(0, 0), Some(Pixel::EMPTY));
        assert_eq!(Pixel::default(), Pixel::EMPTY);
    }

    #[test]
    fn words_that_no_pixel_has() {
        // A seventh shape and a sixteenth; radii above the tops; bits above the radius.
        let wrong = [
            word(1, 1, 6, 0),
            word(1, 1, 15, 0),
            word(1, 1, 0, 65),
            word(1, 1, 1, 9),
            word(1, 1, 2, 4),
            word(1, 1, 0, 256),
            1 << 63,
        ];
        for word in wrong {
            assert_eq!(Pixel::from_word(word, 64), None, "{word:#x}");
        }
    }
}
