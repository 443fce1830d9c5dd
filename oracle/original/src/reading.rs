//! A whole reading by the original, with document 01's limit of 100 levels put between its two passes.
use crate::{
    lexer::{lex, LexResult, Lexer, LexicalError, LexicalErrorType},
    numbers::{code, kind, TOO_DEEP},
    soft_keywords::SoftKeywordTransformer,
    text_size::TextSize,
    token::Tok,
    Mode,
};

const MOST_LEVELS: usize = 100;

/// How a reading ends.
#[derive(Clone, Copy, Debug, PartialEq, Eq)]
pub struct Ending {
    pub code: u32,
    pub place: u32,
    pub detail: u32,
}

/// Reads a text as mode 0, 1 or 2 does, with the feature full-lexer as 3, 4 or 5, and hands out each token: its kind,
/// where it starts and where it ends.
pub fn read(text: &str, mode: u32, start: u32, mut out: impl FnMut(u32, u32, u32)) -> Ending {
    let raw = raw_tokens(text, start);
    for token in SoftKeywordTransformer::new(raw.into_iter(), mode_of(mode)) {
        match token {
            Ok((token, range)) => out(kind(&token), range.start().into(), range.end().into()),
            Err(error) => {
                let (code, detail) = code(&error.error);
                return Ending { code, place: error.location.into(), detail };
            }
        }
    }
    Ending { code: 0, place: start + text.len() as u32, detail: 0 }
}

fn mode_of(mode: u32) -> Mode {
    [Mode::Module, Mode::Interactive, Mode::Expression][mode as usize]
}

/// The raw tokens up to the first error, which stands last. Opening a 101st level is such an error, and like the
/// others it takes with it what its round had pending.
fn raw_tokens(text: &str, start: u32) -> Vec<LexResult> {
    let mut lexer = Lexer::new(text.chars(), TextSize::from(start));
    let mut tokens = Vec::new();
    let mut levels = 0;
    while let Some(token) = lexer.next() {
        match &token {
            Ok((Tok::Indent, range)) if levels == MOST_LEVELS => {
                drop_pending(&mut tokens);
                tokens.push(Err(too_deep(range.end())));
                break;
            }
            Ok((Tok::Indent, _)) => levels += 1,
            Ok((Tok::Dedent, _)) => levels -= 1,
            Ok(_) => {}
            Err(error) => {
                let opened = if levels == MOST_LEVELS { pending_indent(&mut lexer, error.location) } else { None };
                tokens.push(opened.map_or(token, |end| Err(too_deep(end))));
                break;
            }
        }
        tokens.push(token);
    }
    tokens
}

fn too_deep(place: TextSize) -> LexicalError {
    LexicalError::new(LexicalErrorType::OtherError(TOO_DEEP.to_owned()), place)
}

/// Drops the comments and newlines at the end: those of a round that opens a level are its own, because a line
/// starts only after a Newline, an Indent or a Dedent.
fn drop_pending(tokens: &mut Vec<LexResult>) {
    while matches!(tokens.last(), Some(Ok((token, _))) if is_trivia(token)) {
        tokens.pop();
    }
}

/// After an error, the original goes on with what its round had pending: the end of the Indent among it, if any.
/// An Indent of a later round ends behind the error.
fn pending_indent(lexer: &mut impl Iterator<Item = LexResult>, error: TextSize) -> Option<TextSize> {
    while let Some(Ok((token, range))) = lexer.next() {
        if error < range.end() {
            return None;
        }
        if matches!(token, Tok::Indent) {
            return Some(range.end());
        }
        if !is_trivia(&token) {
            return None;
        }
    }
    None
}

#[cfg(feature = "full-lexer")]
fn is_trivia(token: &Tok) -> bool {
    matches!(token, Tok::Comment(_) | Tok::NonLogicalNewline)
}

#[cfg(not(feature = "full-lexer"))]
fn is_trivia(_: &Tok) -> bool {
    false
}

/// The original's own iterator in mode 0, with nothing in between: how many tokens it hands out, and whether it
/// reads to the end. For benchmarks.
pub fn count_tokens(text: &str) -> (usize, bool) {
    let mut count = 0;
    for token in lex(text, Mode::Module) {
        if token.is_err() {
            return (count, false);
        }
        count += 1;
    }
    (count, true)
}
