//! The C interface (`include/lens.h`), and the same calls on slices.
//!
//! Nothing is checked on this side: the engine takes any state and any lengths, and
//! refuses what does not fit. It allocates nothing and keeps nothing: the caller lends every
//! buffer, and carries the state from one call to the next.
//!
//! Of a plate with width W, height H and reach R, with
//! P = (W + 2 (R + [`MARGIN`])) × (H + 2 (R + [`MARGIN`])), these lengths are wanted:
//!
//! | buffer | cells |
//! |---|---|
//! | planes | [`PLANES`] × P |
//! | scratch | [`SCRATCH_PLANES`] × P, any contents; left all zero by an accepted call |
//! | pixels | W × H |
//! | log | 0 to [`Plate::MAX_UNDO_STEPS`](crate::Plate::MAX_UNDO_STEPS) |
//! | values, opacities, depths, mattes | W × H |
//! | sums | 2 × W × H, all light by place, then all matte |
//!
//! The number in an answer is 0, accepted, or that of a [`Refusal`](crate::Refusal), which
//! [`Refusal::from_number`](crate::Refusal::from_number) gives; those that a call can give are
//! listed with it.
//!
//! # Safety of the C functions
//!
//! Each `lens_` function is safe to call if every pointer is aligned and points to as many
//! elements as the length that follows it says, which may be read, and written where the
//! pointer is a `*mut`, and no two of these stretches overlap. With length 0 a pointer may be
//! null. All else may be anything.

use std::hint::black_box;

/// How many planes of P cells a plate has.
pub const PLANES: usize = 14;

/// How many planes of P cells show and total are lent as scratch.
pub const SCRATCH_PLANES: usize = 3;

/// How many cells a padded plane has beyond the reach, on each side of the image.
pub const MARGIN: usize = 3;

/// The sizes of a plate, and how many entries its undo log holds.
#[repr(C)]
#[derive(Clone, Copy, Debug, Default, PartialEq, Eq)]
pub struct State {
    /// W.
    pub width: usize,
    /// H.
    pub height: usize,
    /// R, how far a kernel may reach.
    pub reach: usize,
    /// The entries of the log that are taken, so many can be undone.
    pub count: usize,
}

/// A thin lens, and the pitch of the pixels behind it.
///
/// A fill gives the pixel at a depth, in 0.1 mm, the radius
///
/// ```text
///          500 × opening × focal × |depth − focus|
/// radius = ---------------------------------------
///              pitch × depth × (focus − focal)
/// ```
///
/// and at depth 0, infinity,
///
/// ```text
///           500 × opening × focal
/// radius = -----------------------
///          pitch × (focus − focal)
/// ```
///
/// to the nearest, a half upwards, and then at most
/// [`Shape::top_radius`](crate::Shape::top_radius) of the plate's reach.
///
/// ```
/// use lens::{Layer, Lens, Plate, Refusal, Shape};
///
/// // 25 mm of opening and 50 mm of focal length, in focus at 2 m; pixels of 5 µm.
/// let lens = Lens { opening: 250, focal: 500, focus: 20_000, pitch: 50 };
/// let mut plate = Plate::builder(3, 1).open()?;
///
/// // In focus; at 4 m, 500 × 250 × 500 × 20,000 / (50 × 40,000 × 19,500) = 32.05; at
/// // infinity, 500 × 250 × 500 / (50 × 19,500) = 64.1.
/// let depths = [20_000, 40_000, 0];
/// let layer = Layer { values: &[7; 3], opacities: &[255; 3], depths: &depths };
/// plate.fill(lens, Shape::Octagon, layer)?;
/// assert_eq!(plate.pixel(0, 0)?.radius, 0);
/// assert_eq!(plate.pixel(1, 0)?.radius, 32);
/// assert_eq!(plate.pixel(2, 0)?.radius, 64);
///
/// // A tent has radii up to 8.
/// plate.fill(lens, Shape::Tent, layer)?;
/// assert_eq!(plate.pixel(1, 0)?.radius, 8);
///
/// // A half: 500 × 1 × 1 × 2 / (100 × 4 × 1) = 2.5.
/// let lens = Lens { opening: 1, focal: 1, focus: 2, pitch: 100 };
/// plate.fill(lens, Shape::Octagon, Layer { depths: &[4; 3], ..layer })?;
/// assert_eq!(plate.pixel(0, 0)?.radius, 3);
/// # Ok::<(), Refusal>(())
/// ```
#[repr(C)]
#[derive(Clone, Copy, Debug, PartialEq, Eq)]
pub struct Lens {
    /// The width of the opening in 0.1 mm, 1 to 4,000 ([`Lens::MAX_OPENING`]).
    pub opening: u32,
    /// The focal length in 0.1 mm, 1 to 4,000 ([`Lens::MAX_FOCAL`]).
    pub focal: u32,
    /// The depth that is in focus, in 0.1 mm, above the focal length and at most 10,000,000
    /// ([`Lens::MAX_FOCUS`]).
    pub focus: u32,
    /// From one pixel to the next, in 0.1 µm, 1 to 1,000 ([`Lens::MAX_PITCH`]).
    pub pitch: u32,
}

impl Lens {
    /// The greatest opening, in 0.1 mm.
    pub const MAX_OPENING: u32 = 4_000;

    /// The greatest focal length, in 0.1 mm.
    pub const MAX_FOCAL: u32 = 4_000;

    /// The greatest focus, in 0.1 mm: a kilometre.
    pub const MAX_FOCUS: u32 = 10_000_000;

    /// The greatest pitch, in 0.1 µm.
    pub const MAX_PITCH: u32 = 1_000;
}

/// What every call answers.
#[repr(C)]
#[derive(Clone, Copy, Debug, PartialEq, Eq)]
pub struct Answer {
    /// 0, or the number of the refusal.
    pub number: u32,
    /// The marks that put or undo moved, 16 to 40; 0 from other calls and refused ones.
    pub marks: u32,
    /// The state for the next call; unchanged by a refused one, all zero from a refused open.
    pub state: State,
}

/// What total answers.
#[repr(C)]
#[derive(Clone, Copy, Debug, PartialEq, Eq)]
pub struct Totals {
    /// As of every call.
    pub answer: Answer,
    /// The sum of finished matte over all padded cells, wrapped; 0 from a refused call.
    pub matte: u64,
    /// The sum of finished light over all padded cells, wrapped; 0 from a refused call.
    pub light: u64,
}

unsafe extern "C" {
    /// The C form of [`open`]. Refuses 1 and 2.
    ///
    /// # Safety
    /// As the [module](self) says.
    pub fn lens_open(
        width: usize,
        height: usize,
        reach: usize,
        planes: *mut u64,
        planes_len: usize,
        pixels: *mut u64,
        pixels_len: usize,
        log: *mut u64,
        log_len: usize,
    ) -> Answer;

    /// The C form of [`put`]. Refuses 1 to 8 and 10.
    ///
    /// # Safety
    /// As the [module](self) says.
    pub fn lens_put(
        state: State,
        x: usize,
        y: usize,
        value: u16,
        opacity: u8,
        shape: u8,
        radius: u8,
        planes: *mut u64,
        planes_len: usize,
        pixels: *mut u64,
        pixels_len: usize,
        log: *mut u64,
        log_len: usize,
    ) -> Answer;

    /// The C form of [`undo`]. Refuses 1 to 3, 9 and 10.
    ///
    /// # Safety
    /// As the [module](self) says.
    pub fn lens_undo(
        state: State,
        planes: *mut u64,
        planes_len: usize,
        pixels: *mut u64,
        pixels_len: usize,
        log: *mut u64,
        log_len: usize,
    ) -> Answer;

    /// The C form of [`fill`]. Refuses 1 to 3, 5, 6, 11, 12 and 17.
    ///
    /// # Safety
    /// As the [module](self) says.
    pub fn lens_fill(
        state: State,
        lens: Lens,
        shape: u8,
        values: *const u16,
        values_len: usize,
        opacities: *const u8,
        opacities_len: usize,
        depths: *const u32,
        depths_len: usize,
        planes: *mut u64,
        planes_len: usize,
        pixels: *mut u64,
        pixels_len: usize,
        log: *mut u64,
        log_len: usize,
    ) -> Answer;

    /// The C form of [`show`]. Refuses 1 and 2.
    ///
    /// # Safety
    /// As the [module](self) says.
    pub fn lens_show(
        state: State,
        planes: *const u64,
        planes_len: usize,
        scratch: *mut u64,
        scratch_len: usize,
        values: *mut u16,
        values_len: usize,
        mattes: *mut u8,
        mattes_len: usize,
    ) -> Answer;

    /// The C form of [`total`]. Refuses 1 and 2.
    ///
    /// # Safety
    /// As the [module](self) says.
    pub fn lens_total(
        state: State,
        planes: *const u64,
        planes_len: usize,
        scratch: *mut u64,
        scratch_len: usize,
    ) -> Totals;

    /// The C form of [`show_kept`]. Refuses 1 and 2.
    ///
    /// # Safety
    /// As the [module](self) says.
    pub fn lens_show_kept(
        state: State,
        planes: *const u64,
        planes_len: usize,
        scratch: *mut u64,
        scratch_len: usize,
        values: *mut u16,
        values_len: usize,
        mattes: *mut u8,
        mattes_len: usize,
        sums: *mut u64,
        sums_len: usize,
    ) -> Answer;

    /// The C form of [`put_kept`]. Refuses 1 to 8 and 10.
    ///
    /// # Safety
    /// As the [module](self) says.
    pub fn lens_put_kept(
        state: State,
        x: usize,
        y: usize,
        value: u16,
        opacity: u8,
        shape: u8,
        radius: u8,
        planes: *mut u64,
        planes_len: usize,
        pixels: *mut u64,
        pixels_len: usize,
        log: *mut u64,
        log_len: usize,
        sums: *mut u64,
        sums_len: usize,
        values: *mut u16,
        values_len: usize,
        mattes: *mut u8,
        mattes_len: usize,
    ) -> Answer;

    /// The C form of [`undo_kept`]. Refuses 1 to 3, 9 and 10.
    ///
    /// # Safety
    /// As the [module](self) says.
    pub fn lens_undo_kept(
        state: State,
        planes: *mut u64,
        planes_len: usize,
        pixels: *mut u64,
        pixels_len: usize,
        log: *mut u64,
        log_len: usize,
        sums: *mut u64,
        sums_len: usize,
        values: *mut u16,
        values_len: usize,
        mattes: *mut u8,
        mattes_len: usize,
    ) -> Answer;
}

/// The answer of a put or an undo, its state taken number by number, as the engine wrote
/// it. Taken in wider pieces it would wait until all marks before it are stored, and so
/// would the next call.
#[inline]
fn taken(answer: Answer) -> Answer {
    let State { width, height, reach, count } = answer.state;
    let [width, height, reach, count] = [width, height, reach, count].map(black_box);
    Answer { state: State { width, height, reach, count }, ..answer }
}

/// Makes every pixel empty, and clears planes, pixels and log. Refuses 1 and 2.
#[inline]
pub fn open(
    width: usize,
    height: usize,
    reach: usize,
    planes: &mut [u64],
    pixels: &mut [u64],
    log: &mut [u64],
) -> Answer {
    // Safety, here and below: each pointer comes with its slice's length, and the engine
    // is proved to touch nothing else, whatever the other arguments are.
    unsafe {
        lens_open(
            width,
            height,
            reach,
            planes.as_mut_ptr(),
            planes.len(),
            pixels.as_mut_ptr(),
            pixels.len(),
            log.as_mut_ptr(),
            log.len(),
        )
    }
}

/// Sets the pixel at x, y, and logs the old one. Refuses 1 to 8 and 10.
#[inline]
#[expect(clippy::too_many_arguments, reason = "those of the C interface")]
pub fn put(
    state: State,
    x: usize,
    y: usize,
    value: u16,
    opacity: u8,
    shape: u8,
    radius: u8,
    planes: &mut [u64],
    pixels: &mut [u64],
    log: &mut [u64],
) -> Answer {
    taken(unsafe {
        lens_put(
            state,
            x,
            y,
            value,
            opacity,
            shape,
            radius,
            planes.as_mut_ptr(),
            planes.len(),
            pixels.as_mut_ptr(),
            pixels.len(),
            log.as_mut_ptr(),
            log.len(),
        )
    })
}

/// Takes the last put that is in the log back. Refuses 1 to 3, 9 and 10.
#[inline]
pub fn undo(state: State, planes: &mut [u64], pixels: &mut [u64], log: &mut [u64]) -> Answer {
    taken(unsafe {
        lens_undo(
            state,
            planes.as_mut_ptr(),
            planes.len(),
            pixels.as_mut_ptr(),
            pixels.len(),
            log.as_mut_ptr(),
            log.len(),
        )
    })
}

/// Replaces every pixel, each radius by the lens from its depth, and empties the log. Refuses
/// 1 to 3, 5, 6, 11, 12 and 17.
#[inline]
#[expect(clippy::too_many_arguments, reason = "those of the C interface")]
pub fn fill(
    state: State,
    lens: Lens,
    shape: u8,
    values: &[u16],
    opacities: &[u8],
    depths: &[u32],
    planes: &mut [u64],
    pixels: &mut [u64],
    log: &mut [u64],
) -> Answer {
    unsafe {
        lens_fill(
            state,
            lens,
            shape,
            values.as_ptr(),
            values.len(),
            opacities.as_ptr(),
            opacities.len(),
            depths.as_ptr(),
            depths.len(),
            planes.as_mut_ptr(),
            planes.len(),
            pixels.as_mut_ptr(),
            pixels.len(),
            log.as_mut_ptr(),
            log.len(),
        )
    }
}

/// Writes the two pictures of the pixels that stand there now. Refuses 1 and 2.
#[inline]
pub fn show(
    state: State,
    planes: &[u64],
    scratch: &mut [u64],
    values: &mut [u16],
    mattes: &mut [u8],
) -> Answer {
    unsafe {
        lens_show(
            state,
            planes.as_ptr(),
            planes.len(),
            scratch.as_mut_ptr(),
            scratch.len(),
            values.as_mut_ptr(),
            values.len(),
            mattes.as_mut_ptr(),
            mattes.len(),
        )
    }
}

/// Adds up finished matte and finished light over all padded cells. Refuses 1 and 2.
#[inline]
pub fn total(state: State, planes: &[u64], scratch: &mut [u64]) -> Totals {
    unsafe {
        lens_total(state, planes.as_ptr(), planes.len(), scratch.as_mut_ptr(), scratch.len())
    }
}

/// [`show`] that writes the finished sums, too, which the pictures are rounded from. Refuses
/// 1 and 2.
#[inline]
pub fn show_kept(
    state: State,
    planes: &[u64],
    scratch: &mut [u64],
    values: &mut [u16],
    mattes: &mut [u8],
    sums: &mut [u64],
) -> Answer {
    unsafe {
        lens_show_kept(
            state,
            planes.as_ptr(),
            planes.len(),
            scratch.as_mut_ptr(),
            scratch.len(),
            values.as_mut_ptr(),
            values.len(),
            mattes.as_mut_ptr(),
            mattes.len(),
            sums.as_mut_ptr(),
            sums.len(),
        )
    }
}

/// [`put`] that mends sums and pictures in the cells that the old or the new kernel covers.
/// Refuses 1 to 8 and 10.
#[inline]
#[expect(clippy::too_many_arguments, reason = "those of the C interface")]
pub fn put_kept(
    state: State,
    x: usize,
    y: usize,
    value: u16,
    opacity: u8,
    shape: u8,
    radius: u8,
    planes: &mut [u64],
    pixels: &mut [u64],
    log: &mut [u64],
    sums: &mut [u64],
    values: &mut [u16],
    mattes: &mut [u8],
) -> Answer {
    taken(unsafe {
        lens_put_kept(
            state,
            x,
            y,
            value,
            opacity,
            shape,
            radius,
            planes.as_mut_ptr(),
            planes.len(),
            pixels.as_mut_ptr(),
            pixels.len(),
            log.as_mut_ptr(),
            log.len(),
            sums.as_mut_ptr(),
            sums.len(),
            values.as_mut_ptr(),
            values.len(),
            mattes.as_mut_ptr(),
            mattes.len(),
        )
    })
}

/// [`undo`] that mends sums and pictures, as [`put_kept`] does. Refuses 1 to 3, 9 and 10.
#[inline]
pub fn undo_kept(
    state: State,
    planes: &mut [u64],
    pixels: &mut [u64],
    log: &mut [u64],
    sums: &mut [u64],
    values: &mut [u16],
    mattes: &mut [u8],
) -> Answer {
    taken(unsafe {
        lens_undo_kept(
            state,
            planes.as_mut_ptr(),
            planes.len(),
            pixels.as_mut_ptr(),
            pixels.len(),
            log.as_mut_ptr(),
            log.len(),
            sums.as_mut_ptr(),
            sums.len(),
            values.as_mut_ptr(),
            values.len(),
            mattes.as_mut_ptr(),
            mattes.len(),
        )
    })
}
