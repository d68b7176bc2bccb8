//! What README.md says of an opaque layer whose radius varies: where kernels of different radii
//! meet, matte sums lie below and above the whole. The numbers of its table are measured here,
//! and the sums are those of spreading tap by tap.
#![cfg(feature = "proved")]

use std::fs;

use compare::repository;
use compare::step::{PAPER_LENS, depth_of};
use lens::{Canvas, Layer, Lens, Plate, Refusal, Shape, Totals};
use reference::kernel;
use reference::pixel::Pixel;
use reference::spread::{Grid, sums};

const VALUE: u16 = 1_000;
const LENS: Lens = Lens {
    opening: PAPER_LENS.opening,
    focal: PAPER_LENS.focal,
    focus: PAPER_LENS.focus,
    pitch: PAPER_LENS.pitch,
};

/// A row of the table: what it says of the radii, the shape, and the radius of each column.
struct Case {
    radii: &'static str,
    shape: Shape,
    columns: Vec<usize>,
}

impl Case {
    /// From `first` to `last`, one more every eight columns, after and before columns enough
    /// for the greatest kernel.
    fn ramp(radii: &'static str, shape: Shape, first: usize, last: usize) -> Case {
        let steps = (first..=last).flat_map(|radius| [radius; 8]);
        Case::between(radii, shape, first, steps.collect(), last)
    }

    fn edge(radii: &'static str, shape: Shape, left: usize, right: usize) -> Case {
        Case::between(radii, shape, left, Vec::new(), right)
    }

    fn between(
        radii: &'static str,
        shape: Shape,
        left: usize,
        middle: Vec<usize>,
        right: usize,
    ) -> Case {
        let beside = 2 * left.max(right) + 1;
        let columns = [vec![left; beside], middle, vec![right; beside]].concat();
        Case { radii, shape, columns }
    }

    /// How far from the border every kernel that reaches a cell is on the plate.
    fn reach(&self) -> usize {
        *self.columns.iter().max().expect("a column")
    }

    fn height(&self) -> usize {
        2 * self.reach() + 3
    }

    /// What is one for each column, for each pixel.
    fn rows<T: Copy>(&self, of: impl Fn(usize) -> T) -> Vec<T> {
        let row: Vec<T> = self.columns.iter().map(|&radius| of(radius)).collect();
        row.repeat(self.height())
    }

    fn canvas(&self) -> Result<Canvas, Refusal> {
        let (width, height) = (self.columns.len(), self.height());
        let plate = Plate::builder(width, height).reach(self.reach()).undo_steps(0).open()?;
        let mut canvas = plate.paint()?;
        let (values, opacities) = (self.rows(|_| VALUE), self.rows(|_| 255));
        let depth_by_radius: Vec<u32> = (0..=self.reach()).map(depth_of).collect();
        let depths = self.rows(|radius| depth_by_radius[radius]);
        let layer = Layer { values: &values, opacities: &opacities, depths: &depths };
        canvas.fill(LENS, self.shape, layer)?;
        Ok(canvas)
    }

    fn grid(&self) -> Grid {
        let shape = kernel::Shape::from_number(self.shape.number()).expect("a shape");
        let pixel = |radius| Pixel { value: VALUE, opacity: 255, shape, radius: radius as u8 };
        let (width, height) = (self.columns.len(), self.height());
        Grid { width, height, pixels: self.rows(pixel) }
    }

    /// Of what goes over the plate row by row, what no kernel from outside would reach.
    fn inside<T: Copy>(&self, cells: &[T]) -> Vec<T> {
        let (width, reach) = (self.columns.len(), self.reach());
        let rows = cells.chunks_exact(width).skip(reach).take(self.height() - 2 * reach);
        rows.flat_map(|row| &row[reach..width - reach]).copied().collect()
    }

    /// The table's row, as it was measured.
    fn row(&self, canvas: &Canvas) -> String {
        let whole = (255 * Totals::WHOLE) as f64;
        let sums = self.inside(canvas.matte_sums());
        let mattes = self.inside(&canvas.pictures().mattes);
        let (least, greatest) = (sums.iter().min().expect("a cell"), sums.iter().max());
        let greatest = greatest.expect("a cell");
        format!(
            "| {} | {:.3} | {:.3} | {} to {} |",
            self.radii,
            *least as f64 / whole,
            *greatest as f64 / whole,
            mattes.iter().min().expect("a cell"),
            mattes.iter().max().expect("a cell"),
        )
    }
}

#[test]
fn the_readme_says_how_far_mattes_are_from_the_whole() -> Result<(), Refusal> {
    let readme = fs::read_to_string(repository().join("README.md")).expect("README.md");
    let octagon = Shape::Octagon;
    let cases = [
        Case::edge("the same everywhere", octagon, 8, 8),
        Case::ramp("0 to 16, one more every 8 columns", octagon, 0, 16),
        Case::ramp("the same, of boxes", Shape::Box, 0, 16),
        Case::ramp("8 to 16, one more every 8 columns", octagon, 8, 16),
        Case::edge("0 beside 8", octagon, 0, 8),
        Case::edge("0 beside 64", octagon, 0, 64),
    ];
    let mut missing = Vec::new();
    for case in cases {
        let canvas = case.canvas()?;
        assert_eq!([canvas.light_sums(), canvas.matte_sums()].concat(), sums(&case.grid()));
        assert!(canvas.pictures().values.iter().all(|&value| value == VALUE), "{}", case.radii);
        let row = case.row(&canvas);
        if !readme.contains(&row) {
            missing.push(row);
        }
    }
    assert!(missing.is_empty(), "README.md does not have {missing:#?}");
    Ok(())
}
