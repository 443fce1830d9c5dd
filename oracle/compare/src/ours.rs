//! Our doors, through the Rust crate over the static library. It has them all, or is not built.
pub use sroviemat::ffi::{audit, measure, read, reread};

/// The classes of a character: 1 identifier start, 2 identifier continuation, 4 emoji presentation, added.
pub fn class(c: char) -> u32 {
    sroviemat::ffi::class(c as u32)
}
