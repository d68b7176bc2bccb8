//! The paper in plain Rust, for engines to be compared with: *Lens plates by sparse marks*, and
//! where the requests after it, *After the base: what customers want*, say otherwise, those.
//!
//! Each module follows one section of the paper in its own words and takes the
//! slow, obvious way. Pictures are made tap by tap: [`spread`] and [`notebook`]
//! know nothing of marks. The marks of a grid stand apart in [`marks`], because
//! an engine's stored planes are compared with them, cell by cell.
//!
//! | module | section of the paper |
//! |---|---|
//! | [`kernel`] | Kernels |
//! | [`radius`] | Radius from depth |
//! | [`rounding`] | Rounding |
//! | [`pixel`] | the pixel word and the log entry |
//! | [`spread`] | the plain pictures of a grid, and what its pixels give in all |
//! | [`notebook`] | Calls: the notebook |
//! | [`marks`] | Marks |
//! | [`table`] | Refused calls |
//! | [`stored`] | Calls: what each call leaves, whatever it was lent |
//! | [`kept`] | Refresh under the brush: sums and pictures that a change mends |
//! | [`records`] | Records |

pub mod kept;
pub mod kernel;
pub mod marks;
pub mod notebook;
pub mod pixel;
pub mod radius;
pub mod records;
pub mod rounding;
pub mod spread;
pub mod stored;
pub mod table;

pub use radius::Lens;

/// The state that calls are given and hand back.
#[derive(Clone, Copy, Debug, Default, PartialEq, Eq)]
pub struct State {
    pub width: usize,
    pub height: usize,
    pub reach: usize,
    /// The log count.
    pub count: usize,
}

/// What a call answers.
#[derive(Clone, Copy, Debug, PartialEq, Eq)]
pub struct Answer {
    /// 0, or the number of the refusal.
    pub number: u32,
    /// The mark count.
    pub marks: u32,
    pub state: State,
}

/// What total answers: the sums of finished matte and of finished light over all padded cells,
/// wrapped.
#[derive(Clone, Copy, Debug, PartialEq, Eq)]
pub struct Totals {
    pub answer: Answer,
    pub matte: u64,
    pub light: u64,
}

impl Totals {
    /// An answer that comes without sums: they are 0.
    pub fn none(answer: Answer) -> Totals {
        Totals { answer, matte: 0, light: 0 }
    }
}

/// The arguments of put, lawful or not.
#[derive(Clone, Copy, Debug)]
pub struct Put {
    pub x: usize,
    pub y: usize,
    pub value: u16,
    pub opacity: u8,
    pub shape: u8,
    pub radius: u8,
}

/// The arguments of fill, lawful or not.
#[derive(Clone, Copy, Debug)]
pub struct Fill<'a> {
    pub lens: Lens,
    pub shape: u8,
    pub values: &'a [u16],
    pub opacities: &'a [u8],
    pub depths: &'a [u32],
}
