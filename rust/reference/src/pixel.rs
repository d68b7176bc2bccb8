//! A pixel, its word, and the entry of the undo log.

use crate::kernel::Shape;

#[derive(Clone, Copy, Debug, PartialEq, Eq)]
pub struct Pixel {
    pub value: u16,
    pub opacity: u8,
    pub shape: Shape,
    pub radius: u8,
}

impl Pixel {
    /// The empty pixel, word 0.
    pub const EMPTY: Pixel = Pixel { value: 0, opacity: 0, shape: Shape::Box, radius: 0 };

    /// Value in bits 0 to 11, opacity in 12 to 19, shape in 20 to 23, radius in 24 to 31.
    pub fn word(self) -> u64 {
        u64::from(self.value)
            + u64::from(self.opacity) * (1 << 12)
            + u64::from(self.shape.number()) * (1 << 20)
            + u64::from(self.radius) * (1 << 24)
    }

    /// The pixel of a word; none if the word breaks 6, 7 or the zero bits.
    pub fn from_word(word: u64, reach: usize) -> Option<Pixel> {
        if word >= 1 << 32 {
            return None;
        }
        let shape = Shape::from_number((word / (1 << 20) % 16) as u8)?;
        let radius = word / (1 << 24);
        if radius > shape.top_under(reach) as u64 {
            return None;
        }
        Some(Pixel {
            value: (word % (1 << 12)) as u16,
            opacity: (word / (1 << 12) % 256) as u8,
            shape,
            radius: radius as u8,
        })
    }
}

/// The log's entry for a pixel that stood at a place, y × W + x.
pub fn entry(place: usize, pixel: Pixel) -> u64 {
    pixel.word() + (1 << 32) * place as u64
}

/// An entry's place and pixel; none if the entry breaks 4, 6 or 7.
pub fn from_entry(entry: u64, places: usize, reach: usize) -> Option<(usize, Pixel)> {
    let place = (entry >> 32) as usize;
    let pixel = Pixel::from_word(entry % (1 << 32), reach)?;
    (place < places).then_some((place, pixel))
}
