//! The pixel word and the log entry.

use crate::kernel;

#[derive(Clone, Copy)]
pub(crate) struct Pixel {
    pub value: u16,
    pub opacity: u8,
    pub shape: u8,
    pub radius: u8,
}

impl Pixel {
    pub fn word(self) -> u64 {
        u64::from(self.value)
            | u64::from(self.opacity) << 12
            | u64::from(self.shape) << 20
            | u64::from(self.radius) << 24
    }

    /// The pixel of a stored word, if the word is lawful on a plate of this reach.
    pub fn from_word(word: u64, reach: usize) -> Option<Pixel> {
        let pixel = Pixel {
            value: (word & 0xFFF) as u16,
            opacity: (word >> 12) as u8,
            shape: (word >> 20 & 0xF) as u8,
            radius: (word >> 24) as u8,
        };
        let lawful = word >> 32 == 0
            && kernel::is_shape(pixel.shape)
            && usize::from(pixel.radius) <= kernel::top_under(pixel.shape, reach);
        lawful.then_some(pixel)
    }
}

pub(crate) fn entry(place: usize, word: u64) -> u64 {
    word | (place as u64) << 32
}

/// An entry's place and word.
pub(crate) fn split_entry(entry: u64) -> (usize, u64) {
    ((entry >> 32) as usize, entry & 0xFFFF_FFFF)
}
