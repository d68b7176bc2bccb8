//! The finished sums of one channel, light or matte, row by row, with one accumulator for
//! each line.
//!
//! A slope sum adds up the cells of a line from its left end. Rows are read downwards,
//! each plane once. A falling line (slope 1 or 2) is met at its left end, and its
//! accumulator holds the sum so far. A rising line (slope −1 or −2) is met at its right
//! end: there its accumulator has to start with the line's total, and gives up each cell
//! once it was used. A kernel's marks on a rising line cancel, so the total is 0 unless
//! somebody else wrote to the planes. What is left in the accumulators after the last
//! row tells; if it is not 0, it tells the totals too, and a second run over the rows starts
//! with them.
//!
//! A row is summed in parts of some columns, each in three loops: one for the boxes and the
//! level slope, one for falling lines, one for rising ones. From loop to loop a part's sums
//! stay in the nearest cache, and all planes of the row are read side by side. One loop for
//! all would need more registers than there are; three over the whole row would each fetch
//! the sums again, and read two or three planes at a time.

use crate::layout::{Extent, Layout};

/// Columns of a part.
pub(crate) const PART: usize = 64;

/// The accumulators of a channel, and its seven planes.
pub(crate) struct Sums<'a> {
    layout: Layout,
    /// As far as sums are wanted.
    extent: Extent,
    planes: &'a [u64],
    /// Over all columns and rows, so that what is left tells the totals.
    rising: Lines<'a>,
    /// They matter only as far as sums are wanted.
    falling: Lines<'a>,
    /// The third and the second box summed across and down, up to the last row read.
    third: &'a mut [u64],
    second: &'a mut [u64],
    /// The finished sums of the last row read.
    pub down: &'a mut [u64],
}

/// Lines that rise, or that fall: by one row a column; by two, on even rows and on odd rows.
struct Lines<'a> {
    one: &'a mut [u64],
    two: [&'a mut [u64]; 2],
}

impl<'a> Sums<'a> {
    /// Takes its accumulators from the front of the scratch, and starts them with 0.
    pub fn new(
        layout: Layout,
        extent: Extent,
        planes: &'a [u64],
        mut scratch: &'a mut [u64],
    ) -> Sums<'a> {
        let mut take = |length: usize| {
            let part = scratch.split_off_mut(..length).expect("the scratch has room");
            part.fill(0);
            part
        };
        let mut take_lines = |Extent { columns, rows }| Lines {
            one: take(columns + rows - 1),
            two: [(); 2].map(|()| take(columns + (rows - 1) / 2)),
        };
        let (rising, falling) = (take_lines(layout.to_end()), take_lines(extent));
        let [third, second, down] = [(); 3].map(|()| take(extent.columns));
        Sums { layout, extent, planes, rising, falling, third, second, down }
    }

    /// The cells of a row in each of the seven planes.
    fn cells(&self, row: usize) -> [&'a [u64]; 7] {
        std::array::from_fn(|plane| {
            let first = plane * self.layout.cells + row * self.layout.stride;
            &self.planes[first..][..self.layout.stride]
        })
    }

    /// Goes on to a row that the sums need.
    pub fn add_row(&mut self, row: usize) {
        let [rise_two, rise_one, level, fall_one, fall_two, second, third] = self.cells(row);
        let Extent { columns, rows } = self.extent;
        let last = rows - 1;
        let falling_one = &mut self.falling.one[last - row..];
        let falling_two = &mut self.falling.two[row % 2][last / 2 - row / 2..];
        let rising_one = &mut self.rising.one[row..];
        let rising_two = &mut self.rising.two[row % 2][row / 2..];
        let mut across = Across::default();
        for first in (0..columns).step_by(PART) {
            let part = first..columns.min(first + PART);
            let cut = |cells: &'a [u64]| &cells[part.clone()];
            let down = &mut self.down[part.clone()];
            across.add_boxes(
                [third, second, level].map(cut),
                &mut self.third[part.clone()],
                &mut self.second[part.clone()],
                down,
            );
            add_falling(
                [fall_one, fall_two].map(cut),
                &mut falling_one[part.clone()],
                &mut falling_two[part.clone()],
                down,
            );
            add_rising(
                [rise_one, rise_two].map(cut),
                &mut rising_one[part.clone()],
                &mut rising_two[part.clone()],
                down,
            );
        }
        take_off(&mut rising_one[columns..], &rise_one[columns..]);
        take_off(&mut rising_two[columns..], &rise_two[columns..]);
    }

    /// Goes on over the rows below them, of which only rising lines are wanted.
    pub fn leave_rows(&mut self) {
        for row in self.extent.rows..self.layout.rows {
            let [rise_two, rise_one, ..] = self.cells(row);
            take_off(&mut self.rising.one[row..], rise_one);
            take_off(&mut self.rising.two[row % 2][row / 2..], rise_two);
        }
    }

    /// After a run that started from 0: whether a rising line has a total other than 0.
    pub fn missed_totals(&self) -> bool {
        let Lines { one, two: [even, odd] } = &self.rising;
        [one, even, odd].iter().any(|lines| lines.iter().any(|&line| line != 0))
    }

    /// After a run that started from 0: makes ready for one that starts from the totals.
    pub fn start_with_totals(&mut self) {
        let Lines { one, two: [even, odd] } = &mut self.rising;
        for line in [&mut **one, even, odd].into_iter().flatten() {
            *line = line.wrapping_neg();
        }
        let Lines { one, two: [even, odd] } = &mut self.falling;
        let others = [&mut **one, even, odd, self.third, self.second, self.down];
        others.into_iter().for_each(|sums| sums.fill(0));
    }
}

/// Sums across a row, up to the last column added.
#[derive(Clone, Copy, Default)]
struct Across {
    third: u64,
    second: u64,
    level: u64,
}

impl Across {
    /// Third box summed across and down into the second, that into the level slope, that across.
    fn add_boxes(
        &mut self,
        [third, second, level]: [&[u64]; 3],
        third_sums: &mut [u64],
        second_sums: &mut [u64],
        down: &mut [u64],
    ) {
        let n = down.len();
        let [third, second, level] = [&third[..n], &second[..n], &level[..n]];
        let (third_sums, second_sums) = (&mut third_sums[..n], &mut second_sums[..n]);
        let mut across = *self;
        for x in 0..n {
            across.third = across.third.wrapping_add(third[x]);
            third_sums[x] = third_sums[x].wrapping_add(across.third);
            across.second = across.second.wrapping_add(second[x]).wrapping_add(third_sums[x]);
            second_sums[x] = second_sums[x].wrapping_add(across.second);
            across.level = across.level.wrapping_add(level[x]).wrapping_add(second_sums[x]);
            down[x] = down[x].wrapping_add(across.level);
        }
        *self = across;
    }
}

/// Adds a row's cells to the falling lines that it meets, then uses them.
fn add_falling(cells: [&[u64]; 2], one: &mut [u64], two: &mut [u64], down: &mut [u64]) {
    let n = down.len();
    let [cells_one, cells_two] = cells.map(|cells| &cells[..n]);
    let (one, two) = (&mut one[..n], &mut two[..n]);
    for x in 0..n {
        one[x] = one[x].wrapping_add(cells_one[x]);
        two[x] = two[x].wrapping_add(cells_two[x]);
        down[x] = down[x].wrapping_add(one[x]).wrapping_add(two[x]);
    }
}

/// Uses the rising lines that a row meets, then takes the row's cells off them.
fn add_rising(cells: [&[u64]; 2], one: &mut [u64], two: &mut [u64], down: &mut [u64]) {
    let n = down.len();
    let [cells_one, cells_two] = cells.map(|cells| &cells[..n]);
    let (one, two) = (&mut one[..n], &mut two[..n]);
    for x in 0..n {
        down[x] = down[x].wrapping_add(one[x]).wrapping_add(two[x]);
        one[x] = one[x].wrapping_sub(cells_one[x]);
        two[x] = two[x].wrapping_sub(cells_two[x]);
    }
}

fn take_off(lines: &mut [u64], cells: &[u64]) {
    for (line, cell) in lines.iter_mut().zip(cells) {
        *line = line.wrapping_sub(*cell);
    }
}

#[cfg(test)]
mod tests {
    use super::Sums;
    use crate::kernel::{is_shape, top_under};
    use crate::layout::{Extent, Layout};
    use crate::{State, open, put};

    const SIZES: State = State { width: 5, height: 3, reach: 9, count: 0 };
    const CORNERS: [(usize, usize); 4] = [(0, 0), (4, 0), (0, 2), (4, 2)];

    /// Every shape with every radius.
    fn kernels() -> impl Iterator<Item = (u8, u8)> {
        let shapes = (0..=u8::MAX).filter(|&shape| is_shape(shape));
        shapes.flat_map(|shape| {
            (0..=top_under(shape, SIZES.reach) as u8).map(move |radius| (shape, radius))
        })
    }

    /// The planes of a plate with a kernel in each corner: marks lie on all sides of the image.
    fn lawful(shape: u8, radius: u8) -> Vec<u64> {
        let State { width, height, reach, .. } = SIZES;
        let mut planes = vec![0; 14 * Layout::of(SIZES).cells];
        let (mut pixels, mut log) = (vec![0; width * height], [0; CORNERS.len()]);
        let mut answer = open(width, height, reach, &mut planes, &mut pixels, &mut log);
        for (x, y) in CORNERS {
            let state = answer.state;
            answer =
                put(state, x, y, 9, 255, shape, radius, &mut planes, &mut pixels, &mut log);
            assert_eq!(answer.number, 0, "shape {shape}, radius {radius}");
        }
        planes
    }

    /// Whether a first run over a channel's planes asks for a second: in a show, in a total.
    fn asks_for_another(planes: &[u64]) -> [bool; 2] {
        let layout = Layout::of(SIZES);
        let mut scratch = vec![0; 3 * layout.cells];
        [layout.to_image_end(), layout.to_end()].map(|extent: Extent| {
            let mut sums = Sums::new(layout, extent, planes, &mut scratch);
            (0..extent.rows).for_each(|row| sums.add_row(row));
            sums.leave_rows();
            sums.missed_totals()
        })
    }

    #[test]
    fn lawful_planes_take_one_run() {
        for (shape, radius) in kernels() {
            let planes = lawful(shape, radius);
            for channel in planes.chunks(planes.len() / 2) {
                assert!(channel.iter().any(|&mark| mark != 0));
                let told = format!("shape {shape}, radius {radius}");
                assert_eq!(asks_for_another(channel), [false; 2], "{told}");
            }
        }
    }

    /// The first two planes of a channel are those of rising lines.
    #[test]
    fn a_word_on_a_rising_line_takes_two() {
        let cells = Layout::of(SIZES).cells;
        for cell in 0..2 * cells {
            let mut planes = vec![0; 7 * cells];
            planes[cell] = 1;
            assert_eq!(asks_for_another(&planes), [true; 2], "cell {cell}");
        }
    }
}
