//! The doors of the static library as they are: numbers in, numbers out, and no unsafe code left to the caller.
//!
//! A row holds [`STRIDE`] numbers a record (kind, start, end, line). An answer is [`ANSWER`] numbers: code, count, place and
//! detail, which is the fault for code 3 ([`Utf8Fault::number`](crate::Utf8Fault::number)), the character's number for
//! code 26, else 0. Every call takes any numbers whatever: what it cannot use it refuses by its code, and then it leaves
//! the row as it was.
//! The rest of the crate gives these numbers types; use this module to compare, to measure time, or to keep rows of
//! your own.
//!
//! ```
//! let mut row = [7; 11];
//! assert_eq!(sroviemat::ffi::read(b"\nx", 0, 0, &mut row), [0, 2, 2, 0]);
//! assert_eq!(row, [3, 1, 2, 1, 0, 2, 2, 1, 7, 7, 7]); // a Name, an empty Newline, and what is left over
//! assert_eq!(sroviemat::ffi::read(b"x\xff", 0, 0, &mut row), [3, 0, 1, 2]); // a byte that no character has
//! ```
#![allow(unsafe_code)]
use std::alloc::{alloc_zeroed, Layout};

#[cfg(not(target_pointer_width = "64"))]
compile_error!("the static library's lengths are 64 bits wide");

/// Numbers that are no answer, so that a door which left them would show.
const UNSAID: [u32; ANSWER] = [0xeeee_eeee; ANSWER];

pub use crate::{
    version::VERSION,
    words::{ANSWER, STRIDE},
};

// A slice is a pointer and a length, an array a pointer.
extern "C" {
    fn srv_read(
        text: *const u8,
        text_length: usize,
        mode: u32,
        start: u32,
        row: *mut u32,
        row_length: usize,
        answer: *mut [u32; ANSWER],
    );
    fn srv_measure(text: *const u8, text_length: usize, mode: u32, start: u32, answer: *mut [u32; ANSWER]);
    fn srv_reread(
        text: *const u8,
        text_length: usize,
        mode: u32,
        row: *mut u32,
        row_length: usize,
        old: u32,
        a: u32,
        answer: *mut [u32; ANSWER],
    );
    fn srv_audit(row: *const u32, row_length: usize, old: u32, answer: *mut [u32; ANSWER]);
    fn srv_version() -> u32;
    fn srv_class(c: u32) -> u32;
}

/// Reads a text in a mode into a row; `start` is added to every place, and to no line.
pub fn read(text: &[u8], mode: u32, start: u32, row: &mut [u32]) -> [u32; ANSWER] {
    let mut answer = UNSAID;
    // SAFETY: the door is proved safe for every text, mode, start and row. It reads the bytes of `text`, writes only
    // numbers of `row` and of `answer`, and keeps no pointer; the three are borrowed for the call and do not overlap.
    unsafe { srv_read(text.as_ptr(), text.len(), mode, start, row.as_mut_ptr(), row.len(), &mut answer) };
    answer
}

/// What [`read`] answers into a row with room enough; writes no record, and never answers code 4.
pub fn measure(text: &[u8], mode: u32, start: u32) -> [u32; ANSWER] {
    let mut answer = UNSAID;
    // SAFETY: as in `read`, without a row.
    unsafe { srv_measure(text.as_ptr(), text.len(), mode, start, &mut answer) };
    answer
}

/// Reads again after an edit: the row's first `old` records are of an old text that has its first `a` bytes in common
/// with this one. Those up to the last Newline that ends below `a` stay, with the lines that they have; the text is read
/// from there on. Of that Newline the line must be right.
///
/// ```
/// let mut row = [3, 0, 1, 0, 0, 1, 2, 0, 9, 9, 9, 9, 9, 9, 9, 9]; // a Name and a Newline, and room for two records
/// assert_eq!(sroviemat::ffi::reread(b"a\nb", 0, &mut row, 2, 3), [0, 4, 3, 0]);
/// assert_eq!(row, [3, 0, 1, 0, 0, 1, 2, 0, 3, 2, 3, 1, 0, 3, 3, 1]);
/// row[7] = 1;
/// assert_eq!(sroviemat::ffi::reread(b"a\nb", 0, &mut row, 2, 3), [6, 0, 0, 0]);
/// ```
pub fn reread(text: &[u8], mode: u32, row: &mut [u32], old: u32, a: u32) -> [u32; ANSWER] {
    let mut answer = UNSAID;
    // SAFETY: as in `read`. The row's records are numbers like others to the door: it tests them before it follows
    // them, so a row that no reading wrote is refused or kept, and no byte outside the text is read.
    unsafe { srv_reread(text.as_ptr(), text.len(), mode, row.as_mut_ptr(), row.len(), old, a, &mut answer) };
    answer
}

/// Audits the brackets among a row's first `old` records. A closer is right if it closes the latest opener that is still
/// open, of its own kind; up to 200 may be open. The place is the index of the first wrong closer, with code 0, or of the
/// opener of a 201st, with code 34, whichever comes first; or else `old`, with code 0.
///
/// ```
/// let row = [57, 0, 1, 0, 59, 1, 2, 0, 58, 2, 3, 0]; // `([)`
/// assert_eq!(sroviemat::ffi::audit(&row, 3), [0, 0, 2, 0]);
/// assert_eq!(sroviemat::ffi::audit(&row, 2), [0, 0, 2, 0]); // no closer among them, so `old`
/// assert_eq!(sroviemat::ffi::audit(&[57; 804], 201), [34, 0, 200, 0]);
/// ```
pub fn audit(row: &[u32], old: u32) -> [u32; ANSWER] {
    let mut answer = UNSAID;
    // SAFETY: the door is proved safe for every row and count. It reads numbers of `row` and writes only `answer`,
    // which do not overlap, and keeps no pointer.
    unsafe { srv_audit(row.as_ptr(), row.len(), old, &mut answer) };
    answer
}

/// The number of the interface that the linked library has: [`VERSION`], as the build script has made sure.
pub fn version() -> u32 {
    // SAFETY: the door takes nothing and gives a number.
    unsafe { srv_version() }
}

/// A character's classes by its number: 1 starts identifiers, 2 continues them, 4 has emoji presentation, added up.
///
/// ```
/// assert_eq!(sroviemat::ffi::class('a' as u32), 3);
/// assert_eq!(sroviemat::ffi::class('1' as u32), 2);
/// ```
pub fn class(c: u32) -> u32 {
    // SAFETY: the door is proved safe for every number.
    unsafe { srv_class(c) }
}

/// So many zeros, if the memory can be had. The system gives it where it is first written, so a row may be much longer
/// than what is read into it.
pub(crate) fn zeros(numbers: usize) -> Option<Vec<u32>> {
    let layout = Layout::array::<u32>(numbers).ok()?;
    if layout.size() == 0 {
        return Some(Vec::new());
    }
    // SAFETY: the layout's size is not zero.
    let start = unsafe { alloc_zeroed(layout) }.cast::<u32>();
    if start.is_null() {
        return None;
    }
    // SAFETY: `start` is the global allocator's, with the layout of a Vec of this capacity; all its numbers are
    // written, as zeros; no one else has it.
    Some(unsafe { Vec::from_raw_parts(start, numbers, numbers) })
}

#[cfg(test)]
mod tests {
    use super::zeros;

    #[test]
    fn zeros_or_none() {
        assert_eq!(zeros(0), Some(vec![]));
        assert_eq!(zeros(5), Some(vec![0; 5]));
        // More than there are addresses, and a length in bytes that is no number.
        assert_eq!((zeros(1 << 60), zeros(usize::MAX)), (None, None));
    }
}
