//! From finished sums to what is shown.

use std::cmp::Ordering;

use crate::kernel::WHOLE;

/// The greatest value of a pixel.
pub const TOP_VALUE: u16 = 4_095;

/// 0 where matte is 0, else light / matte to the nearest, a half to even, at most 4,095.
pub fn shown_value(light: u64, matte: u64) -> u16 {
    if matte == 0 {
        return 0;
    }
    nearest_even(light, matte).min(u128::from(TOP_VALUE)) as u16
}

/// matte / 8,388,608 to the nearest, a half upwards, at most 255.
pub fn shown_matte(matte: u64) -> u8 {
    nearest(matte, WHOLE).min(255) as u8
}

fn nearest(above: u64, below: u64) -> u128 {
    let (above, below) = (u128::from(above), u128::from(below));
    (2 * above + below) / (2 * below)
}

fn nearest_even(above: u64, below: u64) -> u128 {
    let (above, below) = (u128::from(above), u128::from(below));
    let lower = above / below;
    match (2 * (above % below)).cmp(&below) {
        Ordering::Less => lower,
        Ordering::Equal if lower.is_multiple_of(2) => lower,
        Ordering::Equal | Ordering::Greater => lower + 1,
    }
}

#[cfg(test)]
mod tests {
    use super::*;

    #[test]
    fn checked_examples() {
        assert_eq!(shown_value(5, 2), 2);
        assert_eq!(shown_value(7, 2), 4);
        assert_eq!(shown_matte(4_194_303), 0);
        assert_eq!(shown_matte(4_194_304), 1);
    }

    /// 4,094.5 goes down to the even value, 4,095.5 up to one that is above the top.
    #[test]
    fn halves_at_the_top() {
        assert_eq!(shown_value(8_189, 2), 4_094);
        assert_eq!(shown_value(8_190, 2), 4_095);
        assert_eq!(shown_value(8_191, 2), 4_095);
    }
}
