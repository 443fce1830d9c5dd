//! Whole readings: into a row of one's own, or into one that is made long enough.
use crate::{
    brackets::{explain_brackets, BracketExplanation},
    ending::{typed, Ending, Error, Fault, Refusal},
    explanation::{explain, explain_part, Explanation},
    ffi,
    lines::{line_ends, Position},
    mode::Mode,
    row::{Row, Token, Tokens},
    words::{LINE, STRIDE},
};
use std::ops::{Bound, Range, RangeBounds};

/// The longest text that is read, in bytes.
pub const MOST_BYTES: usize = 16_777_216;

/// How many records a row gets for a text of so many bytes. No reading has more than two a byte and one; a row of that
/// length is written without being measured first, which is half of the time.
pub(crate) const fn room_for(bytes: usize) -> usize {
    2 * bytes + 1
}

/// A row of zeros for so many records.
pub(crate) fn row_for(records: usize) -> Result<Vec<u32>, Refusal> {
    let needed = u32::try_from(records).unwrap_or(u32::MAX);
    records.checked_mul(STRIDE).and_then(ffi::zeros).ok_or(Refusal::NoRoom { needed })
}

/// A whole reading: its tokens and how it ended. It holds no text: what asks for one wants the text that was given to
/// [`read`] or [`read_part`].
///
/// ```
/// use sroviemat::{read, Cause, Kind, Mode};
///
/// let text = "x = 0_7";
/// let reading = read(text, Mode::Module)?;
/// let kinds: Vec<String> = reading.tokens().map(|token| token.kind.to_string()).collect();
/// assert_eq!(kinds, ["name", "operator `=`"]);
/// let fault = reading.ending().fault().unwrap();
/// assert_eq!((fault.cause, fault.place), (Cause::InvalidToken, 7));
/// assert_eq!(reading.explain(text).unwrap().to_string(), "The number that begins at 1:5 starts with 0.");
/// # Ok::<(), sroviemat::Refusal>(())
/// ```
#[derive(Clone, Debug, PartialEq, Eq)]
pub struct Reading {
    row: Vec<u32>,
    ending: Ending,
    /// Which bytes of the text were read.
    part: Range<usize>,
}

impl Reading {
    /// The tokens before the ending, in their order.
    pub fn tokens(&self) -> Tokens<'_> {
        self.row().iter()
    }

    /// The row of records.
    pub fn row(&self) -> Row<'_> {
        Row::written(&self.row)
    }

    /// How the reading ended.
    pub fn ending(&self) -> Ending {
        self.ending
    }

    /// Which bytes of the text were read: all, or those of the part.
    pub fn part(&self) -> Range<usize> {
        self.part.clone()
    }

    /// The line and column of any place, in bytes, of the text. The line is counted on from that of the last token before the
    /// place; for many places ask [`Lines`](crate::Lines). Of another text the answer says nothing.
    ///
    /// ```
    /// use sroviemat::{read, Mode};
    ///
    /// let text = "gold = 24\nleaf = 'é' + gold\n";
    /// let reading = read(text, Mode::Module)?;
    /// let position = reading.position(text, text.rfind("gold").unwrap());
    /// assert_eq!((position.line, position.bytes, position.chars, position.utf16), (1, 14, 13, 13));
    /// assert_eq!(position.in_file("leaf.py").to_string(), "leaf.py:2:14");
    /// # Ok::<(), sroviemat::Refusal>(())
    /// ```
    pub fn position(&self, text: impl AsRef<[u8]>, at: usize) -> Position {
        self.row().position(text, at)
    }

    /// What a person has to mend in the text; none if it was read to its end. Of another text the answer says nothing.
    pub fn explain(&self, text: impl AsRef<[u8]>) -> Option<Explanation> {
        explain_part(text.as_ref(), self.part(), self.row(), self.ending)
    }

    /// What a person has to mend in the text's brackets: the first that is wrong among the tokens, by the
    /// [bracket audit](crate::audit), however the reading ended. None if each closes what it should. Of another text the
    /// answer says nothing.
    ///
    /// ```
    /// use sroviemat::{read, Mode};
    ///
    /// let text = "gold = {'leaf': [24)}\n";
    /// let reading = read(text, Mode::Module)?;
    /// assert_eq!(reading.explain(text), None);
    /// let said = reading.explain_brackets(text).unwrap().to_string();
    /// assert_eq!(said, "`)` at 1:20 does not close `[` at 1:17, the latest bracket that is open.");
    /// # Ok::<(), sroviemat::Refusal>(())
    /// ```
    pub fn explain_brackets(&self, text: impl AsRef<[u8]>) -> Option<BracketExplanation> {
        explain_brackets(text.as_ref(), self.row())
    }

    /// The tokens, and then what stopped the reading, if something did.
    ///
    /// ```
    /// use sroviemat::{read, Mode};
    ///
    /// let reading = read("x = )", Mode::Module)?;
    /// let mut results = reading.results();
    /// assert_eq!(results.next().unwrap().unwrap().range(), 0..1);
    /// assert_eq!(results.last().unwrap().unwrap_err().place, 5);
    /// # Ok::<(), sroviemat::Refusal>(())
    /// ```
    pub fn results(&self) -> impl Iterator<Item = Result<Token, Fault>> + '_ {
        self.tokens().map(Ok).chain(self.ending.fault().map(Err))
    }

    /// The tokens, if the text was read to its end.
    pub fn into_tokens(self) -> Result<Vec<Token>, Fault> {
        match self.ending {
            Ending::End { .. } => Ok(self.tokens().collect()),
            Ending::Fault(fault) => Err(fault),
        }
    }
}

impl<'a> IntoIterator for &'a Reading {
    type Item = Token;
    type IntoIter = Tokens<'a>;

    fn into_iter(self) -> Tokens<'a> {
        self.tokens()
    }
}

/// Reads a text, and gives its tokens or what is wrong with it.
///
/// ```
/// use sroviemat::{tokenize, Error, Keyword, Kind, Mode};
///
/// let text = "if a:\n\tb\n";
/// let tokens = tokenize(text, Mode::Module)?;
/// assert_eq!(tokens[0].kind, Kind::Keyword(Keyword::If));
/// assert_eq!(tokens[1].text(text), Some("a"));
///
/// let error = tokenize("f(a,", Mode::Module).unwrap_err();
/// assert_eq!(error.to_string(), "`(` at 1:2 is never closed.");
/// let error = tokenize(b"'gold\xff\x80", Mode::Module).unwrap_err();
/// assert_eq!(error.to_string(), "Byte FF at 1:6 is not UTF-8: no character has this byte.");
/// # Ok::<(), Error>(())
/// ```
pub fn tokenize(text: impl AsRef<[u8]>, mode: Mode) -> Result<Vec<Token>, Error> {
    let text = text.as_ref();
    let (row, count, ending) = read_row(text, mode, 0).map_err(|refusal| Error::of(refusal, text))?;
    let row = Row::written(&row[..STRIDE * count]);
    match explain(text, row, ending) {
        None => Ok(row.iter().collect()),
        Some(explanation) => Err(explanation.into()),
    }
}

/// Reads a text, and gives the tokens before the ending too.
pub fn read(text: impl AsRef<[u8]>, mode: Mode) -> Result<Reading, Refusal> {
    read_part(text, mode, ..)
}

/// Reads a part of a text as if it were a text of its own: a cell, an example in a comment. All places and lines are the
/// whole text's, and so are those that [`Token::text`], [`Reading::explain`] and [`Lines`](crate::Lines) take.
///
/// A range outside the text is refused ([`Refusal::BadEdit`]), and one that cuts a character is not UTF-8.
///
/// ```
/// use sroviemat::{read_part, Mode};
///
/// let text = "# In [1]:\ngold = 24 $\n# Out:\n";
/// let reading = read_part(text, Mode::Module, 10..21)?;
/// let token = reading.tokens().next().unwrap();
/// assert_eq!((token.range(), token.line(), token.text(text)), (10..14, 1, Some("gold")));
/// let said = reading.explain(text).unwrap().to_string();
/// assert_eq!(said, "`$` at 2:11 cannot stand there: nothing in Python begins with it.");
/// # Ok::<(), sroviemat::Refusal>(())
/// ```
pub fn read_part(text: impl AsRef<[u8]>, mode: Mode, part: impl RangeBounds<usize>) -> Result<Reading, Refusal> {
    let text = text.as_ref();
    let part = within(part, text.len()).ok_or(Refusal::BadEdit)?;
    let start = u32::try_from(part.start).map_err(|_| Refusal::TooLong)?;
    let (mut row, count, ending) = read_row(&text[part.clone()], mode, start)?;
    row.truncate(STRIDE * count);
    row.shrink_to_fit();
    if part != (0..text.len()) {
        count_lines(&mut row, text, part.clone());
    }
    Ok(Reading { row, ending, part })
}

/// Makes the lines of a part's records those of the whole text: the library counts them from the part's start.
fn count_lines(row: &mut [u32], text: &[u8], part: Range<usize>) {
    let first = line_ends(text, 0..part.start);
    // A CR at the part's end is a line end there; it is none before an LF, with which the whole text may go on.
    let last = first + line_ends(text, part);
    for record in row.chunks_exact_mut(STRIDE) {
        record[LINE] = last.min(first + record[LINE]);
    }
}

/// The range in so many bytes, if it lies within them.
pub(crate) fn within(range: impl RangeBounds<usize>, length: usize) -> Option<Range<usize>> {
    let start = match range.start_bound() {
        Bound::Unbounded => 0,
        Bound::Included(&start) => start,
        Bound::Excluded(&before) => before.checked_add(1)?,
    };
    let end = match range.end_bound() {
        Bound::Unbounded => length,
        Bound::Included(&last) => last.checked_add(1)?,
        Bound::Excluded(&end) => end,
    };
    (start <= end && end <= length).then_some(start..end)
}

/// Reads a text into a row of one's own: no memory is asked for, and what is left over of the row stays as it is.
///
/// There is no iterator that reads a text token by token: the library has no door that gives one record at a time. Its
/// doors walk the whole text, as nothing may be written before it is known to be UTF-8 and its records to fit, and a
/// `match`, `case` or `type` is a keyword or a name by what follows it in its line. What stands in for one is this call
/// with a row that is used again for text after text; [`measure`] says how many records it needs, and no reading has
/// more than `2 * text.len() + 1`. Rows are then gone through one by one without copies ([`Row::iter`]).
///
/// ```
/// use sroviemat::{read_into, Mode, Refusal};
///
/// let mut numbers = [0; 8];
/// let (row, ending) = read_into("x", Mode::Module, &mut numbers)?;
/// assert_eq!((row.len(), ending.is_end()), (2, true));
/// assert_eq!(read_into("x y", Mode::Module, &mut numbers), Err(Refusal::NoRoom { needed: 3 }));
/// # Ok::<(), Refusal>(())
/// ```
pub fn read_into(text: impl AsRef<[u8]>, mode: Mode, row: &mut [u32]) -> Result<(Row<'_>, Ending), Refusal> {
    let (count, ending) = typed(ffi::read(text.as_ref(), mode.number(), 0, row))?;
    Ok((Row::written(&row[..STRIDE * count]), ending))
}

/// How many records a reading has and how it ends, without writing one.
///
/// ```
/// use sroviemat::{measure, Mode};
///
/// let (records, ending) = measure("if a:\n\tb\n", Mode::Module)?;
/// assert_eq!((records, ending.place()), (8, 9));
/// # Ok::<(), sroviemat::Refusal>(())
/// ```
pub fn measure(text: impl AsRef<[u8]>, mode: Mode) -> Result<(usize, Ending), Refusal> {
    typed(ffi::measure(text.as_ref(), mode.number(), 0))
}

/// Reads into a new row that is long enough: the row, how many records it holds, and the ending. Where there is no
/// memory for a row that any text of this length fits, the text is measured.
pub(crate) fn read_row(text: &[u8], mode: Mode, start: u32) -> Result<(Vec<u32>, usize, Ending), Refusal> {
    if text.len() > MOST_BYTES {
        return Err(Refusal::TooLong);
    }
    let mut row = match row_for(room_for(text.len())) {
        Ok(row) => row,
        Err(_) => row_for(typed(ffi::measure(text, mode.number(), start))?.0)?,
    };
    let (count, ending) = typed(ffi::read(text, mode.number(), start, &mut row))?;
    Ok((row, count, ending))
}
