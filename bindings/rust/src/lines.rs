//! The lines of a text, and places in it by line and column.
use crate::row::Token;
use std::{fmt, ops::Range};

/// The mark that a text may begin with.
pub(crate) const BOM: &[u8] = "\u{feff}".as_bytes();

/// How many bytes lie between two counts that an index keeps; one byte counts them.
const BLOCK: usize = 128;

/// A place by its line and by how much of that line stands before it, in three units. All are counted from 0, as the
/// Language Server Protocol counts lines and UTF-16 units.
///
/// For people, `Display` writes line and column from 1, the column in characters: `2:19`; with a file's name before them,
/// [`in_file`](Position::in_file) does.
#[derive(Clone, Copy, Debug, Default, PartialEq, Eq, PartialOrd, Ord, Hash)]
#[non_exhaustive]
pub struct Position {
    /// The line.
    pub line: u32,
    /// The bytes before it in its line.
    pub bytes: u32,
    /// The characters before it in its line. A BOM at the text's start is none: no one sees it.
    pub chars: u32,
    /// The UTF-16 units before it in its line: the protocol's `character`, and what an editor in a page counts.
    pub utf16: u32,
}

impl Position {
    /// The position in a file of this name, as compilers print it, and editors follow it: `recipe.py:2:19`.
    ///
    /// ```
    /// use sroviemat::{tokenize, Mode};
    /// use std::path::Path;
    ///
    /// let error = tokenize("gold = [24\n", Mode::Module).unwrap_err();
    /// let position = error.position().unwrap();
    /// assert_eq!(position.in_file("leaf.py").to_string(), "leaf.py:1:8");
    /// let path = Path::new("recipes/leaf.py");
    /// let said = format!("{}: {error}", position.in_file(path.display()));
    /// assert_eq!(said, "recipes/leaf.py:1:8: `[` at 1:8 is never closed.");
    /// ```
    pub const fn in_file<N: fmt::Display>(self, name: N) -> InFile<N> {
        InFile { name, position: self }
    }

    /// That of a place in a text, counted on from a place before it, or from itself, whose line is known.
    pub(crate) fn counted(text: &[u8], at: usize, from: usize, line: u32) -> Position {
        let at = at.min(text.len());
        let start = (0..at).rev().find(|&byte| ends_line(text, byte)).map_or(0, |byte| byte + 1);
        let line = line.saturating_add(line_ends(text, from..at));
        Position::new(text, line, start..at, Count::of(&text[start..at]))
    }

    /// That of the end of a range, which begins where its line does.
    fn new(text: &[u8], line: u32, before: Range<usize>, count: Count) -> Position {
        let bom = before.start == 0 && text[before.clone()].starts_with(BOM);
        Position {
            line,
            bytes: narrow(before.len()),
            chars: narrow(count.chars - usize::from(bom)),
            utf16: narrow(count.utf16),
        }
    }
}

impl fmt::Display for Position {
    fn fmt(&self, f: &mut fmt::Formatter<'_>) -> fmt::Result {
        write!(f, "{}:{}", u64::from(self.line) + 1, u64::from(self.chars) + 1)
    }
}

/// A [`Position`] in a file, which writes the file's name before it: what [`Position::in_file`] gives.
#[derive(Clone, Copy, Debug, PartialEq, Eq, Hash)]
pub struct InFile<N> {
    name: N,
    position: Position,
}

impl<N: fmt::Display> fmt::Display for InFile<N> {
    fn fmt(&self, f: &mut fmt::Formatter<'_>) -> fmt::Result {
        write!(f, "{}:{}", self.name, self.position)
    }
}

/// Where the lines of a text start. LF, CR and CR LF end a line, as they do for the reader, and nothing else does.
///
/// It is made in one walk over the text; a place is then found in it by bisection, and its column by counting no more
/// than some hundred bytes, however long the line is.
///
/// ```
/// use sroviemat::Lines;
///
/// let text = "a = 1\r\n'\u{1f40d}é' ?\n";
/// let lines = Lines::new(text);
/// let position = lines.position(text.find('?').unwrap());
/// assert_eq!((position.line, position.bytes, position.chars, position.utf16), (1, 9, 5, 6));
/// assert_eq!(position.to_string(), "2:6");
/// assert_eq!(lines.line(1).map(|line| &text[line]), Some("'\u{1f40d}é' ?"));
/// assert_eq!(lines.at_utf16(1, 6), text.find('?'));
/// ```
#[derive(Clone)]
pub struct Lines<'a> {
    text: &'a [u8],
    starts: Vec<usize>,
    /// What stands before each block's start; none where all characters are ASCII and count as their bytes.
    blocks: Vec<Count>,
}

/// Characters and UTF-16 units.
#[derive(Clone, Copy, Default)]
struct Count {
    chars: usize,
    utf16: usize,
}

impl Count {
    /// What begins in bytes.
    fn of(bytes: &[u8]) -> Count {
        bytes.chunks(BLOCK).map(Count::of_block).fold(Count::default(), Count::and)
    }

    /// What begins in the bytes of a block.
    fn of_block(block: &[u8]) -> Count {
        let chars: u8 = block.iter().map(|&byte| u8::from(begins(byte))).sum();
        let pairs: u8 = block.iter().map(|&byte| u8::from(is_pair(byte))).sum();
        Count { chars: chars.into(), utf16: usize::from(chars) + usize::from(pairs) }
    }

    fn and(self, other: Count) -> Count {
        Count { chars: self.chars + other.chars, utf16: self.utf16 + other.utf16 }
    }

    fn without(self, other: Count) -> Count {
        Count { chars: self.chars - other.chars, utf16: self.utf16 - other.utf16 }
    }
}

/// Whether a character begins with this byte.
const fn begins(byte: u8) -> bool {
    byte & 0xc0 != 0x80
}

/// Whether the character that begins with this byte has two UTF-16 units.
const fn is_pair(byte: u8) -> bool {
    byte >= 0xf0
}

/// A count in 32 bits, as the reader's places are; no text that it reads is longer.
fn narrow(count: usize) -> u32 {
    u32::try_from(count).unwrap_or(u32::MAX)
}

impl<'a> Lines<'a> {
    /// Finds the lines of a text. In bytes that are not UTF-8, each byte that continues no character counts as one.
    pub fn new<T: AsRef<[u8]> + ?Sized>(text: &'a T) -> Lines<'a> {
        let text = text.as_ref();
        Lines { text, starts: starts(text), blocks: if text.is_ascii() { Vec::new() } else { blocks(text) } }
    }

    /// How many lines there are: one more than line ends, so at least one.
    pub fn count(&self) -> usize {
        self.starts.len()
    }

    /// The bytes of a line, by its number from 0, without its end.
    pub fn line(&self, line: usize) -> Option<Range<usize>> {
        let start = *self.starts.get(line)?;
        let end = match self.starts.get(line + 1) {
            None => self.text.len(),
            Some(&next) if next - start >= 2 && self.text[next - 2..next] == *b"\r\n" => next - 2,
            Some(&next) => next - 1,
        };
        Some(start..end)
    }

    /// The line and column of a place in bytes. Behind the text's end it is that of the end. Of a place within a
    /// character, that character stands before it.
    pub fn position(&self, at: usize) -> Position {
        let at = at.min(self.text.len());
        self.in_line(self.line_of(at), at)
    }

    /// The line and column where a token of this text starts: the position of its start. The token has its line, so that is
    /// looked for only where it is wrong, as in a token of another text.
    ///
    /// ```
    /// use sroviemat::{read, Lines, Mode, Refusal};
    ///
    /// let text = "gold = 24\n\n# é\nleaf = gold\n";
    /// let (lines, reading) = (Lines::new(text), read(text, Mode::Module)?);
    /// let positions = reading.tokens().map(|token| lines.position_of(token).to_string());
    /// assert_eq!(positions.collect::<Vec<_>>(), ["1:1", "1:6", "1:8", "1:10", "4:1", "4:6", "4:8", "4:12"]);
    /// # Ok::<(), Refusal>(())
    /// ```
    pub fn position_of(&self, token: Token) -> Position {
        let (line, at) = (token.line() as usize, token.range().start);
        let next = self.starts.get(line + 1).copied().unwrap_or(self.text.len() + 1);
        match self.starts.get(line) {
            Some(&start) if (start..next).contains(&at) => self.in_line(line, at),
            _ => self.position(at),
        }
    }

    /// The place of a line and a column in UTF-16 units, both from 0: a position of the Language Server Protocol. As
    /// there, a column behind the line's end is its end. Between the two units of a character it is the character's
    /// start. None behind the last line.
    pub fn at_utf16(&self, line: u32, utf16: u32) -> Option<usize> {
        let line = self.line(line as usize)?;
        let mut left = utf16 as usize;
        for at in line.clone().filter(|&at| begins(self.text[at])) {
            let units = 1 + usize::from(is_pair(self.text[at]));
            if left < units {
                return Some(at);
            }
            left -= units;
        }
        Some(line.end)
    }

    /// The position of a place in this line.
    fn in_line(&self, line: usize, at: usize) -> Position {
        let start = self.starts[line];
        Position::new(self.text, narrow(line), start..at, self.before(at).without(self.before(start)))
    }

    /// The number of a place's line, from 0.
    fn line_of(&self, at: usize) -> usize {
        // The first line starts at 0, so there is one at or before each place.
        self.starts.partition_point(|&start| start <= at) - 1
    }

    /// What begins before a place.
    fn before(&self, at: usize) -> Count {
        match self.blocks.get(at / BLOCK) {
            Some(block) => block.and(Count::of_block(&self.text[at - at % BLOCK..at])),
            None => Count { chars: at, utf16: at },
        }
    }
}

impl fmt::Debug for Lines<'_> {
    fn fmt(&self, f: &mut fmt::Formatter<'_>) -> fmt::Result {
        f.debug_struct("Lines").field("starts", &self.starts).finish_non_exhaustive()
    }
}

/// Whether a line end ends with the byte at a place: an LF, or a CR without one behind it.
fn ends_line(text: &[u8], at: usize) -> bool {
    text[at] == b'\n' || text[at] == b'\r' && text.get(at + 1) != Some(&b'\n')
}

/// How many line ends end with a byte of a range.
pub(crate) fn line_ends(text: &[u8], range: Range<usize>) -> u32 {
    let range = range.start..range.end.min(text.len());
    narrow(range.filter(|&at| ends_line(text, at)).count())
}

/// Where lines start: at 0 and behind each line end.
fn starts(text: &[u8]) -> Vec<usize> {
    let mut starts = vec![0];
    let mut from = 0;
    while let Some(length) = text[from..].iter().position(|byte| matches!(byte, b'\n' | b'\r')) {
        from += length + 1;
        if ends_line(text, from - 1) {
            starts.push(from);
        }
    }
    starts
}

/// What stands before each block, also before the empty one behind a last full one.
fn blocks(text: &[u8]) -> Vec<Count> {
    let mut before = Count::default();
    let mut blocks = vec![before];
    for block in text.chunks_exact(BLOCK) {
        before = before.and(Count::of_block(block));
        blocks.push(before);
    }
    blocks
}
