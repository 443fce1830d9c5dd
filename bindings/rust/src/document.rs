//! A text that is edited, and its tokens kept up with it.
use crate::{
    brackets::{explain_brackets, BracketExplanation},
    change::{Change, Edit},
    ending::{typed, Ending, Refusal},
    explanation::{explain, Explanation},
    ffi,
    kind::Kind,
    lines::{line_ends, Lines, Position},
    mode::Mode,
    reading::{read_row, room_for, row_for, within, MOST_BYTES},
    row::{Row, Token, Tokens},
    words::{KIND, STRIDE},
};
use std::{
    error, fmt,
    ops::{Range, RangeBounds},
};

/// A text and its tokens, kept up with its edits.
///
/// After each edit the text is read again from the last line that the edit cannot have changed; the tokens are those
/// of a whole reading of the new text. (This is proved of the library's re-reading, in `crates/edit_theorem`.)
///
/// ```
/// use sroviemat::{Document, Kind, Mode, Refusal};
///
/// let mut document = Document::new("a = 1\nb = 2\n", Mode::Module)?;
/// document.replace(10..11, "'two'").unwrap();
/// assert_eq!(document.text(), "a = 1\nb = 'two'\n");
/// assert!(matches!(document.row().get(6).unwrap().kind, Kind::Str { .. }));
///
/// // An edit that does not fit the text changes nothing.
/// assert!(document.replace(100..101, "").is_err());
/// assert_eq!(document.tokens().len(), 8);
/// # Ok::<(), Refusal>(())
/// ```
pub struct Document {
    text: String,
    mode: Mode,
    // The first `count` records are the text's; the rest is room.
    row: Vec<u32>,
    count: usize,
    ending: Ending,
    // The records that the last edit had read again, as they were before it: only their room is used again.
    before: Vec<u32>,
}

impl Document {
    /// Reads a text whole.
    pub fn new(text: impl Into<String>, mode: Mode) -> Result<Document, Refusal> {
        let text = text.into();
        let (row, count, ending) = read_row(text.as_bytes(), mode, 0)?;
        Ok(Document { text, mode, row, count, ending, before: Vec::new() })
    }

    /// The text as it is now.
    pub fn text(&self) -> &str {
        &self.text
    }

    /// What the text is read as.
    pub fn mode(&self) -> Mode {
        self.mode
    }

    /// The text's tokens before the ending, in their order.
    pub fn tokens(&self) -> Tokens<'_> {
        self.row().iter()
    }

    /// The row of records.
    pub fn row(&self) -> Row<'_> {
        Row::written(&self.row[..STRIDE * self.count])
    }

    /// How the reading ended.
    pub fn ending(&self) -> Ending {
        self.ending
    }

    /// What a person has to mend in the text; none if it was read to its end.
    ///
    /// ```
    /// use sroviemat::{Document, Mode};
    ///
    /// let mut document = Document::new("gold = [1, 2]\n", Mode::Module)?;
    /// assert_eq!(document.explain(), None);
    /// document.replace(12..13, "").unwrap();
    /// assert_eq!(document.explain().unwrap().to_string(), "`[` at 1:8 is never closed.");
    /// # Ok::<(), sroviemat::Refusal>(())
    /// ```
    pub fn explain(&self) -> Option<Explanation> {
        explain(&self.text, self.row(), self.ending)
    }

    /// What a person has to mend in the text's brackets: the first that is wrong among the tokens, by the
    /// [bracket audit](crate::audit), however the reading ended. None if each closes what it should.
    pub fn explain_brackets(&self) -> Option<BracketExplanation> {
        explain_brackets(self.text.as_bytes(), self.row())
    }

    /// The lines of the text as it is now.
    pub fn lines(&self) -> Lines<'_> {
        Lines::new(&self.text)
    }

    /// The line and column of a place in bytes. The line is counted on from that of the last token before the place; for
    /// many places ask [`lines`](Self::lines) once.
    ///
    /// ```
    /// use sroviemat::{Document, Mode};
    ///
    /// let mut document = Document::new("gold = 24\nleaf = gold\n", Mode::Module)?;
    /// document.replace(9..10, ";\r\n\r\n").unwrap();
    /// let place = document.text().rfind("gold").unwrap();
    /// assert_eq!(document.position(place).in_file("leaf.py").to_string(), "leaf.py:3:8");
    /// # Ok::<(), sroviemat::Refusal>(())
    /// ```
    pub fn position(&self, at: usize) -> Position {
        self.row().position(&self.text, at)
    }

    /// The text, without its tokens.
    pub fn into_text(self) -> String {
        self.text
    }

    /// Puts a text in the place of the bytes in a range, reads again, and says which tokens changed. An edit that is
    /// refused changes nothing.
    ///
    /// ```
    /// use sroviemat::{Document, EditError, Mode};
    ///
    /// let mut document = Document::new("é = 1", Mode::Module)?;
    /// assert_eq!(document.replace(1.., ""), Err(EditError::NotABoundary { at: 1 }));
    /// assert_eq!(document.replace(..9, ""), Err(EditError::OutOfRange { length: 6 }));
    /// let change = document.replace(..2, "e")?;
    /// assert_eq!((change.old, change.new, change.moved), (0..1, 0..1, -1));
    /// document.replace(.., "")?;
    /// assert!(document.row().is_empty());
    /// # Ok::<(), Box<dyn std::error::Error>>(())
    /// ```
    pub fn replace(&mut self, range: impl RangeBounds<usize>, with: &str) -> Result<Change, EditError> {
        let range = self.checked(range)?;
        if with.len() > MOST_BYTES - (self.text.len() - range.len()) {
            return Err(Refusal::TooLong.into());
        }
        let (start, removed) = (range.start, self.text[range.clone()].to_owned());
        let ends = self.line_ends(range.clone());
        self.text.replace_range(range, with);
        let moved_lines = self.line_ends(start..start + with.len()) - ends;
        let edit = Edit::new(start, removed.as_bytes(), with.as_bytes(), moved_lines);
        let (kept, old) = (self.kept(edit.start), self.count);
        self.set_aside(kept);
        match self.reread(edit.start) {
            Ok(()) => Ok(edit.change(kept..old, &self.before, &self.row().numbers()[STRIDE * kept..])),
            Err(refusal) => {
                self.text.replace_range(start..start + with.len(), &removed);
                Err(refusal.into())
            }
        }
    }

    /// A range that can be cut out of the text.
    fn checked(&self, range: impl RangeBounds<usize>) -> Result<Range<usize>, EditError> {
        let length = self.text.len();
        let range = within(range, length).ok_or(EditError::OutOfRange { length })?;
        match [range.start, range.end].into_iter().find(|&at| !self.text.is_char_boundary(at)) {
            None => Ok(range),
            Some(at) => Err(EditError::NotABoundary { at }),
        }
    }

    /// How many records stay where the text's first `a` bytes do: those up to the last Newline that ends below `a`.
    fn kept(&self, a: usize) -> usize {
        let below = a.checked_sub(1).map_or(0, |last| self.row().index_behind(last));
        let newline = |index: &usize| self.row[STRIDE * index + KIND] == Kind::Newline.number();
        (0..below).rev().find(newline).map_or(0, |cut| cut + 1)
    }

    /// How many line ends end at the start of a range or within it: of a CR before it, its first byte tells.
    fn line_ends(&self, range: Range<usize>) -> isize {
        line_ends(self.text.as_bytes(), range.start.saturating_sub(1)..range.end) as isize
    }

    /// Copies the records behind the kept ones, which are about to be read again. Without memory for them, none: then
    /// all of them count as changed.
    fn set_aside(&mut self, kept: usize) {
        let records = &self.row[STRIDE * kept..STRIDE * self.count];
        self.before.clear();
        if self.before.try_reserve(records.len()).is_ok() {
            self.before.extend_from_slice(records);
        }
    }

    /// Reads again a text whose first `a` bytes are as they were when the row was written. Where the row is too short
    /// it is left as it was, so it is made longer and read into once more.
    fn reread(&mut self, a: usize) -> Result<(), Refusal> {
        // Neither is more than 32 bits: no text is that long, and no reading has more records than two a byte and one.
        let (old, a) = (self.count as u32, a as u32);
        let mut said = typed(ffi::reread(self.text.as_bytes(), self.mode.number(), &mut self.row, old, a));
        if let Err(Refusal::NoRoom { needed }) = said {
            self.lengthen(needed as usize)?;
            said = typed(ffi::reread(self.text.as_bytes(), self.mode.number(), &mut self.row, old, a));
        }
        (self.count, self.ending) = said?;
        Ok(())
    }

    /// Makes room for so many records, and if it can be had for a text that goes on to grow.
    fn lengthen(&mut self, needed: usize) -> Result<(), Refusal> {
        let ample = room_for(self.text.len() + self.text.len() / 4);
        let mut row = row_for(ample).or_else(|_| row_for(needed))?;
        let records = STRIDE * self.count;
        row[..records].copy_from_slice(&self.row[..records]);
        self.row = row;
        Ok(())
    }
}

/// The room behind the records is not copied.
impl Clone for Document {
    fn clone(&self) -> Document {
        let row = self.row().numbers().to_vec();
        let (text, before) = (self.text.clone(), Vec::new());
        Document { text, mode: self.mode, row, count: self.count, ending: self.ending, before }
    }
}

/// The same text read in the same mode. The tokens are the same then.
impl PartialEq for Document {
    fn eq(&self, other: &Document) -> bool {
        (self.mode, &self.text) == (other.mode, &other.text)
    }
}

impl Eq for Document {}

impl<'a> IntoIterator for &'a Document {
    type Item = Token;
    type IntoIter = Tokens<'a>;

    fn into_iter(self) -> Tokens<'a> {
        self.tokens()
    }
}

impl fmt::Debug for Document {
    fn fmt(&self, f: &mut fmt::Formatter<'_>) -> fmt::Result {
        f.debug_struct("Document")
            .field("text", &self.text)
            .field("mode", &self.mode)
            .field("row", &self.row())
            .field("ending", &self.ending)
            .finish()
    }
}

impl AsRef<str> for Document {
    fn as_ref(&self) -> &str {
        &self.text
    }
}

/// Why an edit was refused. The document is as it was before.
///
/// [`EditError::Refused`] says what the refusal inside says, and its source is that one's.
#[derive(Clone, Copy, Debug, PartialEq, Eq, PartialOrd, Ord, Hash)]
#[non_exhaustive]
pub enum EditError {
    /// The range ends before it starts, or behind the text's end.
    OutOfRange {
        /// How many bytes the text has.
        length: usize,
    },
    /// The range starts or ends within a character.
    NotABoundary {
        /// The first such place.
        at: usize,
    },
    /// The new text cannot be read: it is too long, or its row cannot be had.
    Refused(Refusal),
}

impl fmt::Display for EditError {
    fn fmt(&self, f: &mut fmt::Formatter<'_>) -> fmt::Result {
        match self {
            EditError::OutOfRange { length } => write!(f, "the range does not lie within the text's {length} bytes"),
            EditError::NotABoundary { at } => write!(f, "byte {at} is within a character"),
            EditError::Refused(refusal) => refusal.fmt(f),
        }
    }
}

impl error::Error for EditError {
    fn source(&self) -> Option<&(dyn error::Error + 'static)> {
        match self {
            EditError::Refused(refusal) => refusal.source(),
            EditError::OutOfRange { .. } | EditError::NotABoundary { .. } => None,
        }
    }
}

impl From<Refusal> for EditError {
    fn from(refusal: Refusal) -> EditError {
        EditError::Refused(refusal)
    }
}

#[cfg(test)]
mod tests {
    use super::*;
    use crate::words::{END, LINE};

    /// The library refuses no row that it wrote itself, so one is altered here: its first Newline ends at no line's end, or is
    /// said to be of another line.
    #[test]
    fn a_refused_edit_is_taken_back() {
        for number in [END, LINE] {
            let mut document = Document::new("a\nb\n", Mode::Module).unwrap();
            document.row[STRIDE + number] = 1;
            let row = document.row.clone();
            assert_eq!(document.replace(3..4, "é"), Err(EditError::Refused(Refusal::Unsound)));
            assert_eq!((document.text(), &document.row, document.count), ("a\nb\n", &row, 4));
        }
    }

    #[test]
    fn a_row_without_room_is_made_longer() {
        let mut document = Document::new("a\nb\n", Mode::Module).unwrap();
        document.row.truncate(STRIDE * document.count);
        document.replace(3..3, "(c)").unwrap();
        assert_eq!(document.count, 7);
        assert!(document.row.len() >= STRIDE * room_for("a\nb(c)\n".len()));
    }
}
