//! What README.md says of a layer that is larger than a plate: split into parts, each with the
//! reach around what is kept of it, it shows what the whole layer would.
#![cfg(feature = "proved")]

use std::fs;
use std::ops::Range;

use compare::random::Random;
use compare::repository;
use lens::{Layer, Lens, Pictures, Plate, Refusal, Shape};

const LENS: Lens = Lens { opening: 80, focal: 500, focus: 20_000, pitch: 90 };

/// A layer that owns what it holds.
struct Sharp {
    width: usize,
    height: usize,
    values: Vec<u16>,
    opacities: Vec<u8>,
    depths: Vec<u32>,
}

/// The columns and the rows that a layer is cut into; a part is what one of each have in common.
struct Cut {
    columns: Vec<Range<usize>>,
    rows: Vec<Range<usize>>,
}

/// What is kept of a part, and what its plate holds.
struct Part {
    kept: (Range<usize>, Range<usize>),
    held: (Range<usize>, Range<usize>),
}

impl Cut {
    /// Into parts of the same size, as far as the layer's sizes allow.
    fn equal(width: usize, height: usize, across: usize, down: usize) -> Cut {
        let ranges = |length: usize, count: usize| {
            (0..count).map(|at| length * at / count..length * (at + 1) / count).collect()
        };
        Cut { columns: ranges(width, across), rows: ranges(height, down) }
    }

    /// The parts of a layer of this size, each with the reach around it as far as the layer goes.
    fn parts(&self, width: usize, height: usize, reach: usize) -> Vec<Part> {
        let around = |kept: &Range<usize>, length: usize| {
            kept.start.saturating_sub(reach)..(kept.end + reach).min(length)
        };
        let part = |columns: &Range<usize>, rows: &Range<usize>| Part {
            kept: (columns.clone(), rows.clone()),
            held: (around(columns, width), around(rows, height)),
        };
        let row = |rows| self.columns.iter().map(move |columns| part(columns, rows));
        self.rows.iter().flat_map(row).collect()
    }
}

impl Sharp {
    fn random(width: usize, height: usize) -> Sharp {
        let random = &mut Random::new(18);
        let cells = width * height;
        Sharp {
            width,
            height,
            values: (0..cells).map(|_| random.below(4_096) as u16).collect(),
            opacities: (0..cells).map(|_| random.pick(&[0, 255, 99])).collect(),
            depths: (0..cells).map(|_| random.within(10_000, 60_000) as u32).collect(),
        }
    }

    fn part(&self, columns: &Range<usize>, rows: &Range<usize>) -> Sharp {
        fn cut<T: Copy>(
            cells: &[T],
            width: usize,
            columns: &Range<usize>,
            rows: &Range<usize>,
        ) -> Vec<T> {
            let rows = cells.chunks_exact(width).skip(rows.start).take(rows.len());
            rows.flat_map(|row| &row[columns.clone()]).copied().collect()
        }
        Sharp {
            width: columns.len(),
            height: rows.len(),
            values: cut(&self.values, self.width, columns, rows),
            opacities: cut(&self.opacities, self.width, columns, rows),
            depths: cut(&self.depths, self.width, columns, rows),
        }
    }

    fn shown(&self, reach: usize, shape: Shape) -> Result<Pictures, Refusal> {
        let Sharp { width, height, values, opacities, depths } = self;
        let mut plate = Plate::builder(*width, *height).reach(reach).undo_steps(0).open()?;
        plate.fill(LENS, shape, Layer { values, opacities, depths })?;
        plate.show()
    }

    /// Shown part by part, and put together.
    fn shown_cut(&self, cut: &Cut, reach: usize, shape: Shape) -> Result<Pictures, Refusal> {
        let cells = self.width * self.height;
        let mut whole = Pictures { values: vec![0; cells], mattes: vec![0; cells] };
        for Part { kept, held } in cut.parts(self.width, self.height, reach) {
            let shown = self.part(&held.0, &held.1).shown(reach, shape)?;
            for y in kept.1 {
                let from = (y - held.1.start) * held.0.len() + kept.0.start - held.0.start;
                let (from, to) = (from..from + kept.0.len(), y * self.width + kept.0.start);
                let to = to..to + kept.0.len();
                whole.values[to.clone()].copy_from_slice(&shown.values[from.clone()]);
                whole.mattes[to].copy_from_slice(&shown.mattes[from]);
            }
        }
        Ok(whole)
    }
}

#[test]
fn parts_show_what_the_whole_layer_does() -> Result<(), Refusal> {
    const WIDTH: usize = 61;
    const HEIGHT: usize = 37;
    let sharp = Sharp::random(WIDTH, HEIGHT);
    let uneven = Cut { columns: vec![0..20, 20..27, 27..WIDTH], rows: vec![0..18, 18..HEIGHT] };
    let strips_across = Cut::equal(WIDTH, HEIGHT, 5, 1);
    let strips_down = Cut::equal(WIDTH, HEIGHT, 1, 4);
    for shape in Shape::ALL {
        let whole = sharp.shown(9, shape)?;
        for cut in [&uneven, &strips_across, &strips_down] {
            assert!(sharp.shown_cut(cut, 9, shape)? == whole, "{shape:?}");
        }
    }
    Ok(())
}

/// The sizes of the plates of a cut, those of a greatest one first.
fn plates(width: usize, height: usize, cut: &Cut) -> Vec<(usize, usize)> {
    let parts = cut.parts(width, height, Plate::MAX_REACH);
    let mut sizes: Vec<_> =
        parts.iter().map(|part| (part.held.0.len(), part.held.1.len())).collect();
    sizes.sort_by_key(|(width, height)| std::cmp::Reverse(width * height));
    sizes
}

/// The splits that README.md names fit plates of the greatest reach, and the largest plate is
/// the one it names.
#[test]
fn the_splits_of_the_readme_fit() {
    let readme = fs::read_to_string(repository().join("README.md")).expect("README.md");
    for (width, height, across, down) in
        [(2_048, 1_080, 2, 1), (3_840, 2_160, 5, 1), (3_840, 2_160, 3, 2)]
    {
        let plates = plates(width, height, &Cut::equal(width, height, across, down));
        for &(width, height) in &plates {
            assert_ne!(Plate::builder(width, height).bytes(), 0, "{width} × {height}");
        }
        let (width, height) = plates[0];
        assert!(readme.contains(&format!("{width} × {height}")), "{width} × {height}");
    }
}

/// Each a frame that no plate holds, in plates of the greatest reach.
#[test]
fn a_large_frame_in_strips_is_what_it_is_in_tiles() -> Result<(), Refusal> {
    const WIDTH: usize = 3_840;
    const HEIGHT: usize = 2_160;
    let sharp = Sharp::random(WIDTH, HEIGHT);
    let strips =
        sharp.shown_cut(&Cut::equal(WIDTH, HEIGHT, 5, 1), Plate::MAX_REACH, Shape::Octagon)?;
    let tiles =
        sharp.shown_cut(&Cut::equal(WIDTH, HEIGHT, 3, 2), Plate::MAX_REACH, Shape::Octagon)?;
    assert!(strips == tiles);
    Ok(())
}
