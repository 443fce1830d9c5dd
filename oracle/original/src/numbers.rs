//! Document 01's numbers of the original's tokens and errors.
use crate::{
    lexer::LexicalErrorType,
    token::{StringKind, Tok},
};

/// The kind of a record.
pub fn kind(token: &Tok) -> u32 {
    use Tok::*;
    match token {
        Newline => 0,
        Indent => 1,
        Dedent => 2,
        Name { .. } => 3,
        Int { .. } => 4,
        Float { .. } => 5,
        Complex { .. } => 6,
        #[cfg(feature = "full-lexer")]
        Comment(_) => 7,
        #[cfg(feature = "full-lexer")]
        NonLogicalNewline => 8,
        String { kind, triple_quoted, .. } => prefix(*kind) + if *triple_quoted { 7 } else { 0 },
        _ => operator(token).or_else(|| keyword(token)).unwrap_or_else(|| panic!("{token:?} has no record")),
    }
}

/// A string's kind, not triple-quoted.
fn prefix(kind: StringKind) -> u32 {
    match kind {
        StringKind::String => 10,
        StringKind::FString => 11,
        StringKind::Bytes => 12,
        StringKind::RawString => 13,
        StringKind::RawFString => 14,
        StringKind::RawBytes => 15,
        StringKind::Unicode => 16,
    }
}

/// An operator's kind, in document 01's order.
#[rustfmt::skip]
fn operator(token: &Tok) -> Option<u32> {
    use Tok::*;
    Some(match token {
        Equal => 30, EqEqual => 31, Plus => 32, PlusEqual => 33, Star => 34, StarEqual => 35, DoubleStar => 36,
        DoubleStarEqual => 37, Slash => 38, SlashEqual => 39, DoubleSlash => 40, DoubleSlashEqual => 41, Percent => 42,
        PercentEqual => 43, Vbar => 44, VbarEqual => 45, CircumFlex => 46, CircumflexEqual => 47, Amper => 48,
        AmperEqual => 49, Minus => 50, MinusEqual => 51, Rarrow => 52, At => 53, AtEqual => 54, NotEqual => 55,
        Tilde => 56, Lpar => 57, Rpar => 58, Lsqb => 59, Rsqb => 60, Lbrace => 61, Rbrace => 62, Colon => 63,
        ColonEqual => 64, Semi => 65, Less => 66, LeftShift => 67, LeftShiftEqual => 68, LessEqual => 69,
        Greater => 70, RightShift => 71, RightShiftEqual => 72, GreaterEqual => 73, Comma => 74, Dot => 75,
        Ellipsis => 76,
        _ => return Option::None,
    })
}

/// A keyword's kind, in ASCII order, the soft ones last.
#[rustfmt::skip]
fn keyword(token: &Tok) -> Option<u32> {
    use Tok::*;
    Some(match token {
        False => 100, None => 101, True => 102, And => 103, As => 104, Assert => 105, Async => 106, Await => 107,
        Break => 108, Class => 109, Continue => 110, Def => 111, Del => 112, Elif => 113, Else => 114, Except => 115,
        Finally => 116, For => 117, From => 118, Global => 119, If => 120, Import => 121, In => 122, Is => 123,
        Lambda => 124, Nonlocal => 125, Not => 126, Or => 127, Pass => 128, Raise => 129, Return => 130, Try => 131,
        While => 132, With => 133, Yield => 134,
        Match => 140, Case => 141, Type => 142,
        _ => return Option::None,
    })
}

/// The text by which reading.rs marks the opening of a 101st level, which the original lets pass.
pub const TOO_DEEP: &str = "a 101st level";

/// The code of an error, and its detail.
pub fn code(error: &LexicalErrorType) -> (u32, u32) {
    use LexicalErrorType::*;
    match error {
        StringError => (20, 0),
        Eof => (21, 0),
        NestingError => (22, 0),
        IndentationError => (23, 0),
        TabError => (24, 0),
        TabsAfterSpaces => (25, 0),
        UnrecognizedToken { tok } => (26, *tok as u32),
        LineContinuationError => (27, 0),
        OtherError(text) => (other(text), 0),
        _ => panic!("the lexer does not make {error:?}"),
    }
}

fn other(text: &str) -> u32 {
    match text {
        "EOL while scanning string literal" => 28,
        "Invalid Syntax" => 29,
        "Invalid decimal literal" => 30,
        "Invalid Token" => 31,
        TOO_DEEP => 33,
        // The big integers' own words for a radix literal without digits.
        _ if text.starts_with("ParseBigIntError") => 32,
        _ => panic!("the lexer does not make the error {text:?}"),
    }
}
