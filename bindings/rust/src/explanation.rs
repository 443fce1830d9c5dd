//! What a person has to mend where a reading ended with a fault, and the sentence that says so.
//!
//! The place of a fault is where the reader stood when it gave up, which is often behind what is wrong, or on another
//! line. What it gave up on begins behind the last record and the blanks, comments, newlines and continuations that
//! follow it. (The ES module's faults.js says the same; bindings/faults-cases.txt has the cases for both.)
use crate::{
    brackets::latest_open,
    ending::{title, Cause, Ending, Fault, Refusal},
    lines::{Position, BOM},
    row::Row,
    utf8::{Bytes, Utf8Fault},
    words,
};
use std::{error, fmt, ops::Range};

/// What an [`Explanation`] is about.
#[derive(Clone, Copy, Debug, PartialEq, Eq, PartialOrd, Ord, Hash)]
#[non_exhaustive]
pub enum Subject {
    /// Bytes that are not UTF-8: the first of an ill-formed sequence, and those behind it that are part of the fault.
    Bytes,
    /// A string that is not closed on its line, from its opening quote to its line's end.
    String,
    /// A triple-quoted string that is never closed, from its opening quotes to the text's end.
    Tripled,
    /// The innermost opening bracket that is still open at the text's end, by the reader's one count of all brackets.
    Bracket,
    /// A backslash.
    Backslash,
    /// A closing bracket.
    Closer,
    /// The blanks at a line's start.
    Blanks,
    /// A character that nothing begins with.
    Character,
    /// A number, from its start on.
    Number,
}

impl Subject {
    /// A word for it.
    pub const fn as_str(self) -> &'static str {
        match self {
            Subject::Bytes => "bytes",
            Subject::String => "string",
            Subject::Tripled => "tripled",
            Subject::Bracket => "bracket",
            Subject::Backslash => "backslash",
            Subject::Closer => "closer",
            Subject::Blanks => "blanks",
            Subject::Character => "character",
            Subject::Number => "number",
        }
    }

    /// Whether it begins something that is not closed.
    const fn begins(self) -> bool {
        matches!(self, Subject::String | Subject::Tripled | Subject::Bracket)
    }
}

impl fmt::Display for Subject {
    fn fmt(&self, f: &mut fmt::Formatter<'_>) -> fmt::Result {
        f.pad(self.as_str())
    }
}

/// What a person has to mend in a text that cannot be read to its end. It is written as a sentence.
///
/// ```
/// use sroviemat::{read, Mode};
///
/// let text = "gold = shine(\n    'leaf)\n";
/// let reading = read(text, Mode::Module)?;
/// let explanation = reading.explain(text).unwrap();
/// assert_eq!(explanation.to_string(), "The string that begins at 2:5 is not closed on its line.");
/// assert_eq!(&text[explanation.span.clone()], "'leaf)");
/// assert_eq!(explanation.origin, Some(18));
/// assert_eq!(explanation.position.in_file("leaf.py").to_string(), "leaf.py:2:5");
/// // The reader gave up behind the line's end.
/// assert_eq!(explanation.fault().unwrap().place, 25);
/// # Ok::<(), sroviemat::Refusal>(())
/// ```
#[derive(Clone, Debug, PartialEq, Eq, Hash)]
#[non_exhaustive]
pub struct Explanation {
    /// The answer's code: 3, or 20 to 33.
    pub code: u32,
    /// What is to be mended.
    pub subject: Subject,
    /// Its bytes in the text.
    pub span: Range<usize>,
    /// Where the string or the bracket begins that is not closed.
    pub origin: Option<usize>,
    /// The line and column where the span starts.
    pub position: Position,
    said: Said,
    /// The bracket or the character that the sentence shows.
    letter: char,
    /// The bytes that it shows, if they are not UTF-8.
    bytes: Option<Bytes>,
}

/// What the reader said.
#[derive(Clone, Copy, Debug, PartialEq, Eq, Hash)]
enum Said {
    Fault(Fault),
    Refusal(Refusal),
}

impl Said {
    const fn code(self) -> u32 {
        match self {
            Said::Fault(fault) => fault.code(),
            Said::Refusal(refusal) => refusal.code(),
        }
    }
}

impl Explanation {
    /// What the reader said; none for bytes that are not UTF-8, which are refused before they are read.
    pub const fn fault(&self) -> Option<Fault> {
        match self.said {
            Said::Fault(fault) => Some(fault),
            Said::Refusal(_) => None,
        }
    }

    /// What is wrong with bytes that are not UTF-8; none for other faults.
    pub const fn utf8_fault(&self) -> Option<Utf8Fault> {
        match self.said {
            Said::Refusal(Refusal::BadUtf8 { fault, .. }) => Some(fault),
            _ => None,
        }
    }

    /// What the first of these bytes is in Latin-1, where the sentence asks whether the file is in that encoding: where no
    /// continuation byte follows it, and the letter can be seen.
    pub const fn latin1(&self) -> Option<char> {
        match self.bytes {
            Some(bytes) => bytes.latin1,
            None => None,
        }
    }

    /// The words, with gaps for the place and the character.
    fn words(&self) -> String {
        let about = |&&(code, subject, _): &&(u32, &str, &str)| code == self.code && subject == self.subject.as_str();
        let words = || words::FAULTS.iter().find(about).map_or(title(self.code), |&(_, _, words)| words);
        self.bytes.map_or_else(|| words().to_owned(), Bytes::words)
    }
}

impl fmt::Display for Explanation {
    fn fmt(&self, f: &mut fmt::Formatter<'_>) -> fmt::Result {
        let sentence = self
            .words()
            .replace("{at}", &self.position.to_string())
            .replace("{line}", &(u64::from(self.position.line) + 1).to_string())
            .replace("{text}", &shown(self.letter));
        f.pad(&sentence)
    }
}

/// Its source is the [`Fault`] or the [`Refusal`] that it explains.
impl error::Error for Explanation {
    fn source(&self) -> Option<&(dyn error::Error + 'static)> {
        Some(match &self.said {
            Said::Fault(fault) => fault,
            Said::Refusal(refusal) => refusal,
        })
    }
}

/// Whether a character can stand in a sentence as it is: it is seen there, and does not change how the rest is drawn.
pub(crate) fn is_shown(letter: char) -> bool {
    words::SHOWN.iter().any(|&(first, last)| (first..=last).contains(&u32::from(letter)))
}

/// A character in a sentence: itself, with its number beyond ASCII, or its number alone.
pub(crate) fn shown(letter: char) -> String {
    let number = u32::from(letter);
    if !is_shown(letter) {
        return format!("U+{number:04X}");
    }
    match letter.is_ascii() {
        true => format!("`{letter}`"),
        false => format!("`{letter}` (U+{number:04X})"),
    }
}

/// What is wrong with a text, from the records and the ending of a reading of it; none if it was read to its end.
///
/// [`Reading::explain`](crate::Reading::explain) and [`Document::explain`](crate::Document::explain) are shorter where
/// there is one; this is for rows of one's own.
///
/// ```
/// use sroviemat::{explain, read_into, Mode, Refusal};
///
/// let (text, mut numbers) = ("a ? b", [0; 8]);
/// let (row, ending) = read_into(text, Mode::Module, &mut numbers)?;
/// let said = explain(text, row, ending).unwrap().to_string();
/// assert_eq!(said, "`?` at 1:3 cannot stand there: nothing in Python begins with it.");
/// # Ok::<(), Refusal>(())
/// ```
pub fn explain(text: impl AsRef<[u8]>, row: Row<'_>, ending: Ending) -> Option<Explanation> {
    let text = text.as_ref();
    explain_part(text, 0..text.len(), row, ending)
}

/// The same where a part of the text was read, and the places are the whole text's.
pub(crate) fn explain_part(text: &[u8], part: Range<usize>, row: Row<'_>, ending: Ending) -> Option<Explanation> {
    let fault = ending.fault()?;
    let source = Source::new(text, part);
    let (subject, span) = source.found(fault, row);
    let explanation = Explanation::new(text, row, Said::Fault(fault), subject, span);
    let letter = fault.char().unwrap_or(explanation.letter);
    Some(Explanation { letter, ..explanation })
}

impl Refusal {
    /// What is wrong with bytes that are not UTF-8; none for other refusals, which are not about a place in the text.
    ///
    /// ```
    /// use sroviemat::{read, Mode, Utf8Fault};
    ///
    /// let bytes = b"gold = 'caf\xe9'\n";
    /// let explanation = read(bytes, Mode::Module).unwrap_err().explain(bytes).unwrap();
    /// assert_eq!(
    ///     explanation.to_string(),
    ///     "Byte E9 at 1:12 is not UTF-8: it begins a character that byte 27 cuts off. \
    ///      Byte E9 alone is é in Latin-1: is the file in that encoding?"
    /// );
    /// assert_eq!(&bytes[explanation.span.clone()], b"\xe9");
    /// assert_eq!(explanation.utf8_fault(), Some(Utf8Fault::CutByByte));
    /// assert_eq!(explanation.latin1(), Some('é'));
    /// ```
    pub fn explain(self, text: impl AsRef<[u8]>) -> Option<Explanation> {
        let text = text.as_ref();
        match self {
            Refusal::BadUtf8 { at, fault } => {
                let span = fault.span(text, at as usize);
                let bytes = Bytes::new(fault, text, &span);
                let none = Row::written(&[]);
                Some(Explanation { bytes, ..Explanation::new(text, none, Said::Refusal(self), Subject::Bytes, span) })
            }
            _ => None,
        }
    }
}

impl Explanation {
    fn new(text: &[u8], row: Row<'_>, said: Said, subject: Subject, span: Range<usize>) -> Explanation {
        let Marked { span, position, letter } = Marked::new(text, row, span);
        let origin = subject.begins().then_some(span.start);
        Explanation { code: said.code(), subject, span, origin, position, said, letter, bytes: None }
    }
}

/// A part of a text that a sentence is about.
pub(crate) struct Marked {
    pub span: Range<usize>,
    /// Where it starts.
    pub position: Position,
    /// Its first byte as a character, which it is in ASCII.
    pub letter: char,
}

impl Marked {
    /// Records of another text may lie outside this one; the span does not.
    pub fn new(text: &[u8], row: Row<'_>, span: Range<usize>) -> Marked {
        let start = span.start.min(text.len());
        let letter = text.get(start).copied().map_or(char::REPLACEMENT_CHARACTER, char::from);
        Marked { span: start..span.end.clamp(start, text.len()), position: row.position(text, start), letter }
    }
}

/// A text up to the end of the part that was read, and where reading began.
struct Source<'a> {
    letters: &'a [u8],
    begin: usize,
}

/// What stands between tokens.
struct Between {
    /// Where it ends.
    item: usize,
    /// The last backslash in it, which goes on with a line.
    backslash: Option<usize>,
}

const fn is_newline(letter: u8) -> bool {
    matches!(letter, b'\n' | b'\r')
}

const fn is_blank(letter: u8) -> bool {
    matches!(letter, b' ' | b'\t' | b'\x0c')
}

impl<'a> Source<'a> {
    fn new(text: &'a [u8], part: Range<usize>) -> Source<'a> {
        let letters = &text[..part.end.min(text.len())];
        let bom = letters.get(part.start..).map_or(false, |read| read.starts_with(BOM));
        Source { letters, begin: part.start + if bom { BOM.len() } else { 0 } }
    }

    /// The byte at a place; none behind the end is any that is looked for.
    fn letter(&self, at: usize) -> u8 {
        self.letters.get(at).copied().unwrap_or_default()
    }

    /// The end of the bytes of a sort that begin at a place.
    fn run(&self, from: usize, sort: impl Fn(u8) -> bool) -> usize {
        let rest = self.letters.get(from..).unwrap_or_default();
        from + rest.iter().take_while(|&&letter| sort(letter)).count()
    }

    fn found(&self, fault: Fault, row: Row<'_>) -> (Subject, Range<usize>) {
        let place = fault.place as usize;
        let Between { item, backslash } =
            self.behind(row.iter().next_back().map_or(self.begin, |last| last.range().end));
        let one = item..item + 1;
        match fault.cause {
            Cause::IndentationError | Cause::TabError | Cause::TabsAfterSpaces | Cause::TooManyLevels => {
                (Subject::Blanks, self.blanks(place))
            }
            Cause::StringError => (Subject::String, self.quote(item)..place),
            Cause::EolInString => (Subject::String, self.quote(item)..self.before_newline(place)),
            Cause::Eof if self.is_tripled(item) => (Subject::Tripled, self.quote(item)..place),
            Cause::Eof => match (opener(row), backslash) {
                (Some(opener), _) => (Subject::Bracket, opener..opener + 1),
                (None, Some(backslash)) => (Subject::Backslash, backslash..backslash + 1),
                (None, None) => (Subject::Backslash, place..place),
            },
            Cause::NestingError => (Subject::Closer, one),
            Cause::UnrecognizedToken(c) => (Subject::Character, item..item + c.len_utf8()),
            Cause::LineContinuationError => (Subject::Backslash, one),
            Cause::InvalidSyntax | Cause::InvalidDecimal | Cause::InvalidToken | Cause::NoDigits => {
                (Subject::Number, item..self.number_end(item))
            }
        }
    }

    /// Goes over what stands between tokens.
    fn behind(&self, from: usize) -> Between {
        let (mut item, mut backslash) = (from, None);
        loop {
            item = match self.letter(item) {
                b'#' => self.run(item, |letter| !is_newline(letter)),
                b'\\' if is_newline(self.letter(item + 1)) => {
                    backslash = Some(item);
                    item + 1
                }
                letter if is_blank(letter) || is_newline(letter) => {
                    self.run(item, |letter| is_blank(letter) || is_newline(letter))
                }
                _ => return Between { item, backslash },
            }
        }
    }

    /// The opening quote of a string that begins at a place, behind the letters before it.
    fn quote(&self, item: usize) -> usize {
        let prefix = self.run(item, |letter| letter.is_ascii_alphabetic());
        match self.letter(prefix) {
            b'\'' | b'"' if prefix - item <= 2 => prefix,
            _ => item,
        }
    }

    fn is_tripled(&self, item: usize) -> bool {
        let quotes = self.letters.get(self.quote(item)..).unwrap_or_default();
        quotes.starts_with(b"'''") || quotes.starts_with(b"\"\"\"")
    }

    /// Where the newline starts that ends at a place.
    fn before_newline(&self, place: usize) -> usize {
        let before = self.letters.get(..place).unwrap_or_default();
        place.saturating_sub(if before.ends_with(b"\r\n") { 2 } else { 1 })
    }

    /// The end of a number: letters, digits, underscores and points, and a sign behind an e.
    fn number_end(&self, item: usize) -> usize {
        let part = |letter: u8| letter.is_ascii_alphanumeric() || matches!(letter, b'_' | b'.');
        let end = self.run(item, part);
        match (self.letters.get(item..end).and_then(|number| number.last()), self.letter(end)) {
            (Some(b'e' | b'E'), b'+' | b'-') => self.run(end + 1, part),
            _ => end,
        }
    }

    /// The blanks at the start of a place's line.
    fn blanks(&self, place: usize) -> Range<usize> {
        let before = self.letters.get(self.begin..place).unwrap_or_default();
        let start = place - before.iter().rev().take_while(|&&letter| !is_newline(letter)).count();
        start..self.run(start, is_blank)
    }
}

/// Where the innermost bracket stands that is still open.
fn opener(row: Row<'_>) -> Option<usize> {
    let token = row.get(latest_open(row.numbers())?)?;
    Some(token.range().start)
}
