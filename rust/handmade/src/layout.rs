//! Where things lie in the padded planes.

use crate::State;

#[derive(Clone, Copy)]
pub(crate) struct Layout {
    pub width: usize,
    pub height: usize,
    /// The image's first column and row.
    pub margin: usize,
    /// Columns of a padded plane: the step from a cell to the one below it.
    pub stride: usize,
    pub rows: usize,
    /// Cells of a padded plane, the paper's P.
    pub cells: usize,
}

/// Columns and rows of a padded plane, counted from its first ones.
#[derive(Clone, Copy)]
pub(crate) struct Extent {
    pub columns: usize,
    pub rows: usize,
}

impl Layout {
    /// The layout of lawful sizes.
    pub fn of(state: State) -> Layout {
        let margin = state.reach + 3;
        let stride = state.width + 2 * margin;
        let rows = state.height + 2 * margin;
        Layout {
            width: state.width,
            height: state.height,
            margin,
            stride,
            rows,
            cells: stride * rows,
        }
    }

    /// Up to the image's last column and row.
    pub fn to_image_end(self) -> Extent {
        Extent { columns: self.margin + self.width, rows: self.margin + self.height }
    }

    /// All of the padded plane.
    pub fn to_end(self) -> Extent {
        Extent { columns: self.stride, rows: self.rows }
    }

    /// The cell of image pixel (x, y) in a plane.
    pub fn centre(self, x: usize, y: usize) -> usize {
        (y + self.margin) * self.stride + x + self.margin
    }
}
