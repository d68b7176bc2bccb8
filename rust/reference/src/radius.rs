//! The radius from depth: the thin lens formula in whole numbers.

/// The greatest focus and depth, in 0.1 mm.
pub const FARTHEST: u32 = 10_000_000;

/// Opening D, focal length f and focus S in 0.1 mm, pitch p in 0.1 µm.
#[derive(Clone, Copy, Debug, PartialEq, Eq)]
pub struct Lens {
    pub opening: u32,
    pub focal: u32,
    pub focus: u32,
    pub pitch: u32,
}

impl Lens {
    pub fn is_lawful(self) -> bool {
        (1..=4_000).contains(&self.opening)
            && (1..=4_000).contains(&self.focal)
            && self.focus > self.focal
            && self.focus <= FARTHEST
            && (1..=1_000).contains(&self.pitch)
    }

    /// Whether a depth lies inside the lens: not 0, which is infinity, and at most f.
    pub fn is_inside(self, depth: u32) -> bool {
        depth != 0 && depth <= self.focal
    }

    /// The radius of a lawful lens at a lawful depth, at most `top`.
    pub fn radius(self, depth: u32, top: usize) -> u8 {
        let [d, f, s, p] = [self.opening, self.focal, self.focus, self.pitch].map(u128::from);
        let z = u128::from(depth);
        let (above, below) = if z == 0 {
            (500 * d * f, p * (s - f))
        } else {
            (500 * d * f * z.abs_diff(s), p * z * (s - f))
        };
        let nearest = (2 * above + below) / (2 * below);
        nearest.min(top as u128) as u8
    }
}

#[cfg(test)]
mod tests {
    use super::*;

    #[test]
    fn checked_examples() {
        let lens = Lens { opening: 250, focal: 500, focus: 20_000, pitch: 50 };
        assert_eq!([40_000, 20_000, 0].map(|z| lens.radius(z, 64)), [32, 0, 64]);
        let lens = Lens { opening: 1, focal: 1, focus: 2, pitch: 100 };
        assert_eq!(lens.radius(4, 64), 3);
    }
}
