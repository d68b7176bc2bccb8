//! A sharp layer seen through a lens: each pixel spread into the shape of the lens opening.
//!
//! The engine behind this crate is written and proved in Rattle; `rt lib` in crates/lens_c
//! builds it. A [`Plate`] owns the buffers that the engine works on, and [`Plate::builder`]
//! opens it. Pixels are set one by one ([`Plate::put`]) and stepped back ([`Plate::undo`]), or
//! all at once by depth ([`Plate::fill`]). [`Plate::pixel`] reads one, [`Plate::show`] gives
//! the two pictures, value and matte, of the pixels that stand there now, and [`Plate::total`]
//! what they add up to. A painter, who looks at the pictures after every put, keeps them with
//! the plate in a [`Canvas`] ([`Plate::paint`]): there a put mends what it changes.
//!
//! A plate has one channel. Plates are [`Send`] and [`Sync`], and calls on different plates
//! may run at once: a picture of three channels is three plates.
//!
//! ```
//! use lens::{Pixel, Plate, Refusal, Shape};
//!
//! // Three pixels wide, one high; kernels reach one pixel; two steps can be undone.
//! let mut plate = Plate::builder(3, 1).reach(1).undo_steps(2).open()?;
//! plate.put(1, 0, Pixel { value: 100, opacity: 255, shape: Shape::Box, radius: 1 })?;
//! plate.put(0, 0, Pixel { value: 40, opacity: 255, shape: Shape::Box, radius: 0 })?;
//! let shown = plate.show()?;
//! assert_eq!(shown.values, [46, 100, 100]);
//! assert_eq!(shown.mattes, [255, 28, 28]);
//!
//! // The log is full now. A refused call changes nothing.
//! let refused = plate.put(2, 0, Pixel { value: 1, opacity: 1, shape: Shape::Box, radius: 0 });
//! assert_eq!(refused, Err(Refusal::LogFull));
//! assert_eq!(Refusal::LogFull.to_string(), "refused (8): the undo log is full");
//!
//! plate.undo()?;
//! assert_eq!(plate.show()?.values, [100, 100, 100]);
//! # Ok::<(), Refusal>(())
//! ```

#![deny(missing_docs)]

mod builder;
mod canvas;
mod pixel;
mod plate;
pub mod raw;
mod refusal;
mod shape;

pub use builder::PlateBuilder;
pub use canvas::Canvas;
pub use pixel::Pixel;
pub use plate::{Layer, Pictures, Plate, Totals};
pub use raw::Lens;
pub use refusal::Refusal;
pub use shape::Shape;
