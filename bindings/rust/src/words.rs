//! Codes and faults in words. Written by tools/make-words from bindings/words.txt.

/// How many numbers a record has in a row: kind, start, end, line.
pub const STRIDE: usize = 4;

/// Where the numbers of a record stand in it.
pub(crate) const KIND: usize = 0;
pub(crate) const START: usize = 1;
pub(crate) const END: usize = 2;
pub(crate) const LINE: usize = 3;

/// How many numbers an answer has: code, count, place, detail.
pub const ANSWER: usize = 4;

/// What each code says.
pub(crate) const CODES: &[(u32, &str)] = &[
    (0, "read to the end"),
    (1, "the text is too long"),
    (2, "there is no such mode"),
    (3, "ill-formed UTF-8"),
    (4, "no room for the records"),
    (5, "a bad edit"),
    (6, "an unsound list"),
    (20, "a string is not closed"),
    (21, "the text ends too early"),
    (22, "a bracket closes that was not opened"),
    (23, "the blanks match no open block"),
    (24, "tabs and spaces cannot be compared"),
    (25, "a tab after a space"),
    (26, "unrecognised character"),
    (27, "a backslash that ends no line"),
    (28, "a line ends in a string"),
    (29, "invalid syntax in a number"),
    (30, "invalid decimal literal"),
    (31, "a number starts with 0"),
    (32, "no digit after the base"),
    (33, "more than 100 levels"),
    (34, "more than 200 open brackets"),
];

/// What is wrong: code, what a person has to mend, the words.
#[rustfmt::skip]
pub(crate) const FAULTS: &[(u32, &str, &str)] = &[
    (20, "string", "The string that begins at {at} is not closed on its line."),
    (21, "tripled", "The triple-quoted string that begins at {at} is never closed."),
    (21, "bracket", "{text} at {at} is never closed."),
    (21, "backslash", "The text ends behind the backslash at {at}."),
    (22, "closer", "{text} at {at} closes no bracket."),
    (23, "blanks", "The indentation of line {line} fits no open block."),
    (24, "blanks", "The indentation of line {line} mixes tabs and spaces, so it cannot be compared with the lines above."),
    (25, "blanks", "The indentation of line {line} has a tab behind a space."),
    (26, "character", "{text} at {at} cannot stand there: nothing in Python begins with it."),
    (27, "backslash", "The backslash at {at} does not end its line."),
    (28, "string", "The string that begins at {at} is not closed on its line."),
    (29, "number", "The number that begins at {at} has an underscore where a digit must stand."),
    (30, "number", "The number that begins at {at} has no digits in its exponent."),
    (31, "number", "The number that begins at {at} starts with 0."),
    (32, "number", "The number that begins at {at} has no digits behind its base."),
    (33, "blanks", "Line {line} opens a 101st level of indentation; 100 are the most."),
];

/// What is wrong with bytes that are not UTF-8: the detail of code 3, its name, the words.
#[rustfmt::skip]
pub(crate) const BYTES: &[(u32, &str, &str)] = &[
    (1, "stray", "Byte {byte} at {at} is not UTF-8: it continues a character, and none is open there."),
    (2, "unused", "Byte {byte} at {at} is not UTF-8: no character has this byte."),
    (3, "cut-by-end", "Byte {byte} at {at} is not UTF-8: it begins a character that the end of the text cuts off."),
    (4, "cut-by-byte", "Byte {byte} at {at} is not UTF-8: it begins a character that byte {next} cuts off."),
    (5, "overlong", "Bytes {byte} {next} at {at} are not UTF-8: they begin a character in more bytes than it takes."),
    (6, "surrogate", "Bytes {byte} {next} at {at} are not UTF-8: they begin a surrogate, which is no character."),
    (7, "too-large", "Bytes {byte} {next} at {at} are not UTF-8: they begin a number above 10FFFF, the last character's."),
];

/// What is said of utf16, which the bytes may be in.
pub(crate) const UTF16: &str = "A text in UTF-16 begins so: is the file in that encoding?";

/// What is said of latin1, which the bytes may be in.
pub(crate) const LATIN1: &str = "Byte {byte} alone is {text} in Latin-1: is the file in that encoding?";

/// What is said of what the bracket audit finds: unopened.
#[rustfmt::skip]
pub(crate) const UNOPENED: &str = "{text} at {at} closes no bracket.";

/// What is said of what the bracket audit finds: mismatched.
#[rustfmt::skip]
pub(crate) const MISMATCHED: &str = "{text} at {at} does not close {opener} at {opened}, the latest bracket that is open.";

/// What is said of what the bracket audit finds: too-many.
#[rustfmt::skip]
pub(crate) const TOO_MANY: &str = "{text} at {at} is the 201st bracket that is open; 200 are the most.";

/// The first and the last of characters that are shown as they are.
pub(crate) const SHOWN: &[(u32, u32)] = &[
    (0x21, 0x5f),
    (0x61, 0x7e),
    (0xa1, 0xac),
    (0xae, 0xff),
    (0x100, 0x17f),
    (0x370, 0x377),
    (0x391, 0x3a1),
    (0x3a3, 0x3ff),
    (0x400, 0x45f),
    (0x2010, 0x2027),
    (0x2030, 0x205e),
    (0x20a0, 0x20c0),
    (0x2100, 0x23ff),
    (0x2500, 0x2bff),
    (0x3001, 0x3003),
    (0x3008, 0x3020),
    (0xff01, 0xff60),
];
