//! Python's tokens, from a reader that is proved to say what a short written definition says.
//!
//! The reader is Sroviemat's static library: a translation of the lexer and the soft keyword pass of
//! rustpython-parser 0.4.0, with its answers. This crate gives its numbers types.
//!
//! ```
//! use sroviemat::{tokenize, Kind, Mode, Operator};
//!
//! let text = "total += price\n";
//! let tokens = tokenize(text, Mode::Module)?;
//! assert_eq!(tokens[1].kind, Kind::Operator(Operator::PlusEqual));
//! assert_eq!(tokens[2].text(text), Some("price"));
//! # Ok::<(), sroviemat::Error>(())
//! ```
//!
//! | to | use |
//! |---|---|
//! | have all tokens, or what is wrong | [`tokenize`] |
//! | have the tokens before a fault too, or see them one by one | [`read`], [`Reading`] |
//! | read a cell or an example within a longer text | [`read_part`] |
//! | read without asking for memory | [`read_into`], [`measure`] |
//! | keep up with an editor | [`Document`], [`Change`] |
//! | say what a person has to mend, and where | [`Reading::explain`], [`Document::explain`], [`Explanation`] |
//! | say what is wrong with bytes that are not UTF-8 | [`Refusal::explain`], [`Utf8Fault`] |
//! | have the line of a token | [`Token::line`] |
//! | have lines and columns, in bytes, characters or UTF-16 | [`Position`]; [`Lines`] for many of them |
//! | print where an error is, as `file:line:column` | [`Error::position`], [`Position::in_file`] |
//! | find the token at a byte | [`Row::token_at`] |
//! | have the comments in the list too | [`Mode::with_comments`] |
//! | know which lines fold | [`folding_ranges`] |
//! | find a bracket that does not close the latest one that is open | [`audit`], [`WrongBracket`] |
//! | say so to a person, and where | [`Reading::explain_brackets`], [`Document::explain_brackets`], [`BracketExplanation`] |
//! | have the numbers as they are | [`ffi`] |
//!
//! No input makes a call panic: what cannot be read has a [`Fault`], or a [`Utf8Fault`] where its bytes are not UTF-8, and
//! an [`Explanation`]; what cannot be asked has a [`Refusal`] or an [`EditError`]. Places are in bytes. A text has at most
//! [`MOST_BYTES`].
//!
//! Types that later versions may add to are `#[non_exhaustive]`. Those whose cases are all there are not, so that a
//! `match` over them is complete: [`Kind`] and its parts, [`Ending`], [`Utf8Fault`] and [`WrongBracket`].
#![deny(unsafe_code)]
#![warn(missing_docs)]

mod brackets;
mod change;
mod document;
mod ending;
mod explanation;
pub mod ffi;
mod folding;
mod kind;
mod lines;
mod mode;
mod reading;
mod row;
mod utf8;
mod version;
mod words;

pub use brackets::{audit, BracketExplanation, WrongBracket};
pub use change::Change;
pub use document::{Document, EditError};
pub use ending::{Cause, Ending, Error, Fault, Refusal};
pub use explanation::{explain, Explanation, Subject};
pub use folding::{folding_ranges, FoldingKind, FoldingRange};
pub use kind::{Keyword, Kind, Operator, Prefix, Soft, UnknownKind};
pub use lines::{InFile, Lines, Position};
pub use mode::{Mode, ParseModeError, UnknownMode};
pub use reading::{measure, read, read_into, read_part, tokenize, Reading, MOST_BYTES};
pub use row::{Row, Token, Tokens};
pub use utf8::Utf8Fault;

/// The README's example, run as a test.
#[cfg(doctest)]
#[doc = include_str!("../README.md")]
struct Readme;
