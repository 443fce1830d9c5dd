//! The number of the doors' interface. The build script reads this file too.

/// The number of the interface that this crate is written for. The build script refuses an archive that answers
/// another one to [`version`](crate::ffi::version): what it means by its numbers may differ. Since 5, a record has its
/// line.
pub const VERSION: u32 = 5;
