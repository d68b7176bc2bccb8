//! Division to the nearest, for short quotients.

/// Where a quotient goes that is half way between two whole numbers.
#[derive(Clone, Copy)]
pub(crate) enum Half {
    Up,
    Even,
}

/// above / below to the nearest, at most `most`, which is at most 4,095.
///
/// A 64-bit division takes some forty cycles on many processors, one of floats four. The
/// quotient wanted is short, so the float finds it, or misses it by one where it is very
/// near to a half; the whole-number product tells which.
#[inline]
pub(crate) fn nearest(above: u64, below: u64, half: Half, most: u64) -> u64 {
    if above >> 12 >= below {
        return most;
    }
    if below >> 50 != 0 {
        return nearest_wide(above, below, half).min(most);
    }
    // Above is less than 4,096 times below, so below 2^62: neither the casts nor twice the
    // rest overflows.
    let (above, below) = (above as i64, below as i64);
    let quotient = above as f64 / below as f64;
    // Safety: the quotient is finite and from 0 to 4,096.
    let guess: i64 = unsafe { (quotient + 0.5).to_int_unchecked() };
    let rest = 2 * (above - guess * below);
    // 1 where a quotient half above the guess goes up, and where one half below it goes down.
    let (up, down) = match half {
        Half::Up => (1, 0),
        Half::Even => (guess & 1, guess & 1),
    };
    let exact = guess + i64::from(rest + up > below) - i64::from(rest - down < -below);
    (exact as u64).min(most)
}

#[cold]
fn nearest_wide(above: u64, below: u64, half: Half) -> u64 {
    let (lower, rest) = (above / below, above % below);
    let goes_up = match half {
        Half::Up => true,
        Half::Even => lower & 1 == 1,
    };
    lower + u64::from(rest > below - rest || rest == below - rest && goes_up)
}

#[cfg(test)]
mod tests {
    use super::{Half, nearest};

    /// By the definition, in numbers so wide that nothing overflows.
    fn defined(above: u64, below: u64, half: Half) -> u128 {
        let (above, below) = (u128::from(above), u128::from(below));
        let up = (2 * above + below) / (2 * below);
        let is_half = 2 * above % below == 0 && 2 * above / below % 2 == 1;
        match half {
            Half::Even if is_half => up - up % 2,
            Half::Even | Half::Up => up,
        }
    }

    #[test]
    fn agrees_with_wide_division() {
        let near = |n: u64| [n.wrapping_sub(1), n, n.wrapping_add(1)];
        let powers = (0..64).map(|bit| 1u64 << bit);
        for below in powers.flat_map(near).flat_map(|n| [n, n.wrapping_mul(3)]) {
            if below == 0 {
                continue;
            }
            for halves in (0..64).chain(8_150..8_200) {
                let quotient_near_half = below.wrapping_mul(halves) / 2;
                for above in near(quotient_near_half) {
                    for half in [Half::Up, Half::Even] {
                        let wide = defined(above, below, half).min(4_095);
                        assert_eq!(u128::from(nearest(above, below, half, 4_095)), wide);
                    }
                }
            }
        }
    }
}
