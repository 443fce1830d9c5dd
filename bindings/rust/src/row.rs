//! Rows of numbers, so many a record, seen as tokens.
use crate::{
    brackets::{audit, WrongBracket},
    ending::Refusal,
    kind::{Kind, UnknownKind},
    lines::Position,
    reading::within,
    words::{END, KIND, STRIDE},
};
use std::{
    fmt,
    iter::FusedIterator,
    ops::{Range, RangeBounds},
    slice::ChunksExact,
};

/// A token: what it is and where it stands, in bytes, and in which line.
#[derive(Clone, Copy, Debug, PartialEq, Eq, Hash)]
#[non_exhaustive]
pub struct Token {
    /// What it is.
    pub kind: Kind,
    /// Where it starts.
    pub start: u32,
    /// Where it ends: the byte after its last.
    pub end: u32,
    line: u32,
}

impl Token {
    /// The line that it starts in, from 0. LF, CR and CR LF end a line, as in [`Lines`](crate::Lines), also within a string.
    /// Of a [part](crate::read_part) it is the whole text's.
    ///
    /// ```
    /// use sroviemat::{tokenize, Error, Mode};
    ///
    /// let text = "gold = '''leaf\r\nand\rink'''\nseal\n";
    /// let lines: Vec<u32> = tokenize(text, Mode::Module)?.iter().map(|token| token.line()).collect();
    /// assert_eq!(lines, [0, 0, 0, 2, 3, 3]);
    /// # Ok::<(), Error>(())
    /// ```
    pub const fn line(self) -> u32 {
        self.line
    }

    /// The line and column where it starts, in the text that was read. Its line is known, so only its column is counted; for
    /// many tokens ask [`Lines::position_of`](crate::Lines::position_of), which counts no long line again.
    ///
    /// ```
    /// use sroviemat::{tokenize, Error, Mode};
    ///
    /// let text = "gold = 'é', 24\n";
    /// let token = tokenize(text, Mode::Module)?[4];
    /// assert_eq!(token.position(text).in_file("leaf.py").to_string(), "leaf.py:1:13");
    /// # Ok::<(), Error>(())
    /// ```
    pub fn position(self, text: impl AsRef<[u8]>) -> Position {
        let start = self.range().start;
        Position::counted(text.as_ref(), start, start, self.line)
    }

    /// Its bytes' places, to cut it out of the text.
    pub const fn range(self) -> Range<usize> {
        self.start as usize..self.end as usize
    }

    /// Its text, cut out of the text that was read: of a [part](crate::read_part), the whole text. None if that is another
    /// text and the token's places do not fit.
    pub fn text(self, text: &str) -> Option<&str> {
        text.get(self.range())
    }

    /// How many bytes it has; none for a Dedent, and for a Newline that the text's end stands for.
    pub const fn len(self) -> usize {
        self.end.saturating_sub(self.start) as usize
    }

    /// Whether it has no bytes.
    pub const fn is_empty(self) -> bool {
        self.len() == 0
    }

    /// The same token so many bytes further on, or back where that is less than none. Its line stays as it is:
    /// [`moved_lines`](Self::moved_lines) moves that.
    pub const fn moved(self, bytes: isize) -> Token {
        Token { start: self.start.wrapping_add(bytes as u32), end: self.end.wrapping_add(bytes as u32), ..self }
    }

    /// The same token so many lines further down, or up where that is less than none. Its bytes' places stay.
    pub const fn moved_lines(self, lines: isize) -> Token {
        Token { line: self.line.wrapping_add(lines as u32), ..self }
    }

    /// Its numbers in a row: kind, start, end and line.
    pub const fn record(self) -> [u32; STRIDE] {
        [self.kind.number(), self.start, self.end, self.line]
    }
}

/// The kind, the places and the line, from 0: ``keyword `if` 0..2 in line 0``.
impl fmt::Display for Token {
    fn fmt(&self, f: &mut fmt::Formatter<'_>) -> fmt::Result {
        write!(f, "{} {}..{} in line {}", self.kind, self.start, self.end, self.line)
    }
}

/// A borrowed row of records. It turns numbers into tokens as they are asked for, and stores none.
///
/// ```
/// use sroviemat::{read, Kind, Mode};
///
/// let reading = read("print(1)", Mode::Module)?;
/// let row = reading.row();
/// assert_eq!(row.len(), 5);
/// assert_eq!(row.get(2).unwrap().kind, Kind::Int);
/// assert_eq!(row.iter().rev().next().unwrap().kind, Kind::Newline);
/// # Ok::<(), sroviemat::Refusal>(())
/// ```
#[derive(Clone, Copy, PartialEq, Eq)]
pub struct Row<'a> {
    // Whole records, each with a kind's number.
    numbers: &'a [u32],
}

impl<'a> Row<'a> {
    /// A row from numbers of any source; what is left over behind the last whole record is left out.
    ///
    /// ```
    /// use sroviemat::{Row, UnknownKind};
    ///
    /// assert_eq!(Row::new(&[3, 0, 1, 0, 0, 1, 1, 0])?.len(), 2);
    /// assert_eq!(Row::new(&[99, 0, 1, 0]), Err(UnknownKind(99)));
    /// # Ok::<(), UnknownKind>(())
    /// ```
    pub fn new(numbers: &'a [u32]) -> Result<Row<'a>, UnknownKind> {
        let row = Row::written(numbers);
        for record in numbers.chunks_exact(STRIDE) {
            Kind::try_from(record[KIND])?;
        }
        Ok(row)
    }

    /// A row whose records the library wrote, and so with kinds' numbers only.
    pub(crate) fn written(numbers: &'a [u32]) -> Row<'a> {
        let whole = numbers.len() - numbers.len() % STRIDE;
        Row { numbers: &numbers[..whole] }
    }

    /// How many records it has.
    pub const fn len(self) -> usize {
        self.numbers.len() / STRIDE
    }

    /// Whether it has none.
    pub const fn is_empty(self) -> bool {
        self.numbers.is_empty()
    }

    /// The token at an index.
    pub fn get(self, index: usize) -> Option<Token> {
        let from = index.checked_mul(STRIDE)?;
        token(self.numbers.get(from..from.checked_add(STRIDE)?)?)
    }

    /// The part of the row with a range of indices, if there are so many.
    pub fn slice(self, range: impl RangeBounds<usize>) -> Option<Row<'a>> {
        let range = within(range, self.len())?;
        Some(Row { numbers: &self.numbers[STRIDE * range.start..STRIDE * range.end] })
    }

    /// The tokens in their order.
    pub fn iter(self) -> Tokens<'a> {
        Tokens { records: self.numbers.chunks_exact(STRIDE) }
    }

    /// The token that a byte is of, if it is one's: the one that starts at or before it and ends behind it. The row's
    /// places rise, as a reading's do; it is found by bisection.
    ///
    /// ```
    /// use sroviemat::{read, Mode};
    ///
    /// let text = "gold = 24";
    /// let reading = read(text, Mode::Module)?;
    /// let row = reading.row();
    /// assert_eq!(row.token_at(2).and_then(|token| token.text(text)), Some("gold"));
    /// assert_eq!((row.token_at(4), row.index_at(7)), (None, Some(2)));
    /// # Ok::<(), sroviemat::Refusal>(())
    /// ```
    pub fn token_at(self, byte: usize) -> Option<Token> {
        self.get(self.index_at(byte)?)
    }

    /// The index of the token that a byte is of, if it is one's.
    pub fn index_at(self, byte: usize) -> Option<usize> {
        let index = self.index_behind(byte);
        let token = self.get(index)?;
        token.range().contains(&byte).then_some(index)
    }

    /// The index of the first token that ends behind a byte, or else how many tokens there are: where to begin with
    /// those in view.
    pub fn index_behind(self, byte: usize) -> usize {
        let (mut low, mut high) = (0, self.len());
        while low < high {
            let middle = low + (high - low) / 2;
            if self.numbers[STRIDE * middle + END] as usize <= byte {
                low = middle + 1;
            } else {
                high = middle;
            }
        }
        low
    }

    /// The line and column of any place, in bytes, of the text that was read. The line is counted on from that of the last
    /// token before the place, and not from the text's start; for many places ask [`Lines`](crate::Lines).
    ///
    /// ```
    /// use sroviemat::{read_into, Mode, Refusal};
    ///
    /// let (text, mut numbers) = ("gold = 24\nleaf\n", [0; 24]);
    /// let (row, _) = read_into(text, Mode::Module, &mut numbers)?;
    /// assert_eq!(row.position(text, 12).to_string(), "2:3");
    /// # Ok::<(), Refusal>(())
    /// ```
    pub fn position(self, text: impl AsRef<[u8]>, at: usize) -> Position {
        let before = self.index_behind(at).checked_sub(1).and_then(|index| self.get(index));
        let (from, line) = before.map_or((0, 0), |token| (token.range().start, token.line));
        Position::counted(text.as_ref(), at, from, line)
    }

    /// The numbers as they are.
    pub const fn numbers(self) -> &'a [u32] {
        self.numbers
    }

    /// The bracket audit, [`audit`](crate::audit), of its records.
    pub fn audit(self) -> Result<Option<WrongBracket>, Refusal> {
        audit(self.numbers)
    }
}

impl<'a> IntoIterator for &Row<'a> {
    type Item = Token;
    type IntoIter = Tokens<'a>;

    fn into_iter(self) -> Tokens<'a> {
        self.iter()
    }
}

impl<'a> IntoIterator for Row<'a> {
    type Item = Token;
    type IntoIter = Tokens<'a>;

    fn into_iter(self) -> Tokens<'a> {
        self.iter()
    }
}

impl fmt::Debug for Row<'_> {
    fn fmt(&self, f: &mut fmt::Formatter<'_>) -> fmt::Result {
        f.debug_list().entries(self.iter()).finish()
    }
}

/// The tokens of a [`Row`], from either end.
#[derive(Clone, Debug)]
pub struct Tokens<'a> {
    records: ChunksExact<'a, u32>,
}

/// A record as a token. A row's records have kinds' numbers, so there always is one.
fn token(record: &[u32]) -> Option<Token> {
    match *record {
        [kind, start, end, line] => Some(Token { kind: Kind::from_number(kind)?, start, end, line }),
        _ => None,
    }
}

impl Iterator for Tokens<'_> {
    type Item = Token;

    fn next(&mut self) -> Option<Token> {
        self.records.next().and_then(token)
    }

    fn size_hint(&self) -> (usize, Option<usize>) {
        self.records.size_hint()
    }

    fn nth(&mut self, n: usize) -> Option<Token> {
        self.records.nth(n).and_then(token)
    }
}

impl DoubleEndedIterator for Tokens<'_> {
    fn next_back(&mut self) -> Option<Token> {
        self.records.next_back().and_then(token)
    }
}

impl ExactSizeIterator for Tokens<'_> {}

impl FusedIterator for Tokens<'_> {}
