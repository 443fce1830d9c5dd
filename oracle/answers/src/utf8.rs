//! What is wrong with bytes that are not UTF-8 (document 02 item 2), said from RFC 3629, section 4, apart from our
//! crates.
//!
//! The RFC lists the well-formed sequences as rows of byte ranges. Bytes that a row begins with may still become a
//! character. The least number of bytes that no row begins with ends in the byte that shows the fault, and what these
//! bytes are is the fault's name.
use std::ops::RangeInclusive;

type Range = RangeInclusive<u8>;

/// The RFC's UTF8-tail: a continuation byte.
const TAIL: Range = 0x80..=0xbf;

/// The RFC's UTF8-1 to UTF8-4, a range for each byte of a character.
const WELL_FORMED: [&[Range]; 9] = [
    &[0x00..=0x7f],
    &[0xc2..=0xdf, TAIL],
    &[0xe0..=0xe0, 0xa0..=0xbf, TAIL],
    &[0xe1..=0xec, TAIL, TAIL],
    &[0xed..=0xed, 0x80..=0x9f, TAIL],
    &[0xee..=0xef, TAIL, TAIL],
    &[0xf0..=0xf0, 0x90..=0xbf, TAIL, TAIL],
    &[0xf1..=0xf3, TAIL, TAIL, TAIL],
    &[0xf4..=0xf4, 0x80..=0x8f, TAIL, TAIL],
];

/// The faults by document 02's numbers.
#[derive(Clone, Copy, Debug, PartialEq, Eq)]
pub enum Fault {
    /// A continuation byte where a character should begin.
    Stray = 1,
    /// A byte that no character has: C0, C1 and F5 to FF.
    Unused = 2,
    /// A sequence cut by the end of the text.
    CutByEnd = 3,
    /// A sequence cut by a byte that is no continuation byte.
    CutByByte = 4,
    Overlong = 5,
    Surrogate = 6,
    /// Above 10FFFF.
    TooLarge = 7,
}

/// The numbers of all faults.
pub const FAULTS: RangeInclusive<u32> = 1..=7;

/// The text; or where its first ill-formed sequence starts, as Rust's own reader of UTF-8 says it, and the fault.
pub fn text(bytes: &[u8]) -> Result<&str, (u32, Fault)> {
    std::str::from_utf8(bytes).map_err(|error| (error.valid_up_to() as u32, fault(&bytes[error.valid_up_to()..])))
}

/// Where the first ill-formed sequence starts, and its fault, by the rows alone.
pub fn first_fault(bytes: &[u8]) -> Option<(u32, Fault)> {
    let mut at = 0;
    while at < bytes.len() {
        match character(&bytes[at..]) {
            Some(length) => at += length,
            None => return Some((at as u32, fault(&bytes[at..]))),
        }
    }
    None
}

/// The length of the character that bytes begin with.
fn character(bytes: &[u8]) -> Option<usize> {
    let mut rows = WELL_FORMED.iter().filter(|row| row.len() <= bytes.len());
    rows.find(|row| fit(row, bytes)).map(|row| row.len())
}

/// The fault of bytes that begin with no character.
fn fault(bytes: &[u8]) -> Fault {
    let mut parts = (1..=bytes.len()).map(|length| &bytes[..length]);
    parts.find(|part| !begins_a_character(part)).map_or(Fault::CutByEnd, shown_by)
}

/// The fault that the last of these bytes shows: no row begins with them, and one does with those before it.
fn shown_by(part: &[u8]) -> Fault {
    match part {
        [0x80..=0xbf] => Fault::Stray,
        [_] => Fault::Unused,
        [0xe0 | 0xf0, 0x80..=0xbf] => Fault::Overlong,
        [0xed, 0x80..=0xbf] => Fault::Surrogate,
        [0xf4, 0x80..=0xbf] => Fault::TooLarge,
        _ => Fault::CutByByte,
    }
}

/// Whether some character begins with these bytes, or is them.
fn begins_a_character(bytes: &[u8]) -> bool {
    WELL_FORMED.iter().any(|row| bytes.len() <= row.len() && fit(row, bytes))
}

/// Whether each byte is in the range at its place, as far as both go.
fn fit(row: &[Range], bytes: &[u8]) -> bool {
    row.iter().zip(bytes).all(|(range, byte)| range.contains(byte))
}
