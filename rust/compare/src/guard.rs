//! Buffers between guard cells, which no call may change.

use std::ops::{Deref, DerefMut};

use reference::State;
use reference::kept::{Kept, KeptLengths};
use reference::marks::Layout;
use reference::spread::{Grid, pictures, sums};

use crate::random::Random;

/// Cells on each side of a buffer.
const GUARDS: usize = 16;

/// A cell of a lent buffer.
pub trait Cell: Copy + PartialEq {
    const GUARD: Self;
    fn from_bits(bits: u64) -> Self;
}

macro_rules! cell {
    ($($number:ty),*) => {$(
        impl Cell for $number {
            const GUARD: $number = 0xA5C3_96F0_5A3C_690F_u64 as $number;

            fn from_bits(bits: u64) -> $number {
                bits as $number
            }
        }
    )*};
}

cell!(u8, u16, u32, u64);

/// A buffer to lend; it reads and writes as the slice between the guards.
#[derive(Clone)]
pub struct Guarded<T> {
    cells: Vec<T>,
}

impl<T: Cell> Guarded<T> {
    pub fn filled(length: usize, cell: impl FnMut() -> T) -> Guarded<T> {
        let mut cells = vec![T::GUARD; GUARDS];
        cells.extend(std::iter::repeat_with(cell).take(length));
        cells.extend([T::GUARD; GUARDS]);
        Guarded { cells }
    }

    /// A buffer that holds these cells.
    pub fn holding(cells: &[T]) -> Guarded<T> {
        let mut held = cells.iter().copied();
        Guarded::filled(cells.len(), || held.next().expect("a cell for each"))
    }

    /// A buffer of leftovers, as an engine may be lent where it only writes.
    pub fn garbage(length: usize, random: &mut Random) -> Guarded<T> {
        Guarded::filled(length, || T::from_bits(random.bits()))
    }

    pub fn guards_hold(&self) -> bool {
        let (before, rest) = self.cells.split_at(GUARDS);
        let after = &rest[rest.len() - GUARDS..];
        before.iter().chain(after).all(|&cell| cell == T::GUARD)
    }
}

impl<T> Deref for Guarded<T> {
    type Target = [T];

    fn deref(&self) -> &[T] {
        &self.cells[GUARDS..self.cells.len() - GUARDS]
    }
}

impl<T> DerefMut for Guarded<T> {
    fn deref_mut(&mut self) -> &mut [T] {
        let end = self.cells.len() - GUARDS;
        &mut self.cells[GUARDS..end]
    }
}

/// The three buffers of a plate.
#[derive(Clone)]
pub struct PlateBuffers {
    pub planes: Guarded<u64>,
    pub pixels: Guarded<u64>,
    pub log: Guarded<u64>,
}

impl PlateBuffers {
    /// Of the right lengths for these sizes, with a log of this room.
    pub fn garbage(sizes: State, room: usize, random: &mut Random) -> PlateBuffers {
        let State { width, height, reach, .. } = sizes;
        PlateBuffers {
            planes: Guarded::garbage(Layout::of(width, height, reach).all_planes(), random),
            pixels: Guarded::garbage(width * height, random),
            log: Guarded::garbage(room, random),
        }
    }

    pub fn guards_hold(&self) -> bool {
        self.planes.guards_hold() && self.pixels.guards_hold() && self.log.guards_hold()
    }

    pub fn same_cells(&self, other: &PlateBuffers) -> bool {
        *self.planes == *other.planes
            && *self.pixels == *other.pixels
            && *self.log == *other.log
    }
}

/// What show is lent besides the planes.
#[derive(Clone)]
pub struct ShowBuffers {
    pub scratch: Guarded<u64>,
    pub values: Guarded<u16>,
    pub mattes: Guarded<u8>,
}

impl ShowBuffers {
    pub fn garbage(
        scratch: usize,
        values: usize,
        mattes: usize,
        random: &mut Random,
    ) -> ShowBuffers {
        ShowBuffers {
            scratch: Guarded::garbage(scratch, random),
            values: Guarded::garbage(values, random),
            mattes: Guarded::garbage(mattes, random),
        }
    }

    pub fn guards_hold(&self) -> bool {
        self.scratch.guards_hold() && self.values.guards_hold() && self.mattes.guards_hold()
    }

    pub fn same_cells(&self, other: &ShowBuffers) -> bool {
        *self.scratch == *other.scratch
            && *self.values == *other.values
            && *self.mattes == *other.mattes
    }
}

/// What the second forms of calls are lent: sums and pictures, kept beside the plate.
#[derive(Clone)]
pub struct KeptBuffers {
    pub sums: Guarded<u64>,
    pub values: Guarded<u16>,
    pub mattes: Guarded<u8>,
}

impl KeptBuffers {
    /// The sums are of some length in bits, so that rounding meets all sizes of them.
    pub fn garbage(lengths: KeptLengths, random: &mut Random) -> KeptBuffers {
        let bits = random.within(1, 64);
        KeptBuffers {
            sums: Guarded::filled(lengths.sums, || random.bits() >> (64 - bits)),
            values: Guarded::garbage(lengths.values, random),
            mattes: Guarded::garbage(lengths.mattes, random),
        }
    }

    pub fn lend(&mut self) -> Kept<'_> {
        let KeptBuffers { sums, values, mattes } = self;
        Kept { sums, values, mattes }
    }

    /// Whether they hold the plain sums of this grid, and its plain pictures.
    pub fn are_of(&self, grid: &Grid) -> bool {
        let shown = pictures(grid);
        self.sums[..] == sums(grid)
            && self.values[..] == shown.values
            && self.mattes[..] == shown.mattes
    }

    pub fn guards_hold(&self) -> bool {
        self.sums.guards_hold() && self.values.guards_hold() && self.mattes.guards_hold()
    }

    pub fn same_cells(&self, other: &KeptBuffers) -> bool {
        *self.sums == *other.sums
            && *self.values == *other.values
            && *self.mattes == *other.mattes
    }
}
