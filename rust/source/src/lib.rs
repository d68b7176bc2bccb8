//! The Rattle sources, read as far as one question wants it: which functions does a call run
//! through, in all crates, and has any of them an array of its own?
//!
//! Two readings are held against each other. The texts have each array where it is written, with
//! its line; modules and `use` lines are resolved as the language does. The compiler's own form
//! has each function's calls by their full paths: those of a method, of which a text has the name
//! alone, those that no word of a text names, and those of the toolchain's functions. What either
//! has is followed. No text of `std` is read: what it has is followed by the compiler's form, and
//! of its types and constants those may be named that are listed as ones without an array. Nothing
//! is passed over: a form of text that is not known, a file that is missing, a name that is not
//! found, be it a text's or the compiler's, and a function of C are faults.

pub mod form;
pub mod item;
mod load;
pub mod mention;
pub mod program;
pub mod sources;
pub mod token;
pub mod walk;
