//! The lines of a text and of its tokens, counted from the text's start.
use sroviemat::{Lines, Token};

/// The lines of a text without their ends, and where each starts.
pub fn lines(text: &str) -> Vec<(usize, &str)> {
    let mut lines = Vec::new();
    let mut start = 0;
    while let Some(length) = text[start..].find(&['\n', '\r'][..]) {
        lines.push((start, &text[start..start + length]));
        start += length + if text[start + length..].starts_with("\r\n") { 2 } else { 1 };
    }
    lines.push((start, &text[start..]));
    lines
}

/// The line of a place: the last of these that starts before it or at it.
pub fn line_of(lines: &[(usize, &str)], at: usize) -> u32 {
    lines.partition_point(|&(start, _)| start <= at) as u32 - 1
}

/// The first token whose line is not that of its place, or whose position is another than that of its place.
pub fn misplaced(text: &str, tokens: impl IntoIterator<Item = Token>) -> Option<Token> {
    let (index, plain) = (Lines::new(text), lines(text));
    tokens.into_iter().find(|&token| {
        let at = token.range().start;
        let position = index.position(at);
        [token.line(), position.line] != [line_of(&plain, at); 2]
            || [token.position(text), index.position_of(token)] != [position; 2]
    })
}
