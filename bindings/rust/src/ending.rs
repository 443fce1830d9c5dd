//! How a reading ends, and why a call is refused.
use crate::{
    explanation::Explanation,
    lines::Position,
    utf8::Utf8Fault,
    words::{self, ANSWER},
};
use std::{error, fmt};

/// What a code says, in a few words.
pub(crate) const fn title(code: u32) -> &'static str {
    let mut index = 0;
    while index < words::CODES.len() {
        let (number, title) = words::CODES[index];
        if number == code {
            return title;
        }
        index += 1;
    }
    "an unknown code"
}

/// Why a reading stopped before the text's end. The names up to `LineContinuationError` are the original's.
#[derive(Clone, Copy, Debug, PartialEq, Eq, PartialOrd, Ord, Hash)]
#[non_exhaustive]
pub enum Cause {
    /// 20: the text ends in a string.
    StringError,
    /// 21: the text ends in a triple-quoted string, in brackets or after a backslash.
    Eof,
    /// 22: a closing bracket where none is open.
    NestingError,
    /// 23: the blanks fit no open level.
    IndentationError,
    /// 24: tabs and spaces that cannot be compared.
    TabError,
    /// 25: a tab after a space at a line's start.
    TabsAfterSpaces,
    /// 26: a character that starts no token.
    UnrecognizedToken(char),
    /// 27: a backslash that is not at a line's end.
    LineContinuationError,
    /// 28: a line ends in a string.
    EolInString,
    /// 29: an underscore in a number where none may be.
    InvalidSyntax,
    /// 30: an exponent without digits.
    InvalidDecimal,
    /// 31: an integer that starts with 0 and is not zero.
    InvalidToken,
    /// 32: no digit after `0x`, `0o` or `0b`.
    NoDigits,
    /// 33: a 101st level opens.
    TooManyLevels,
}

impl Cause {
    /// Its code.
    pub const fn code(self) -> u32 {
        match self {
            Cause::StringError => 20,
            Cause::Eof => 21,
            Cause::NestingError => 22,
            Cause::IndentationError => 23,
            Cause::TabError => 24,
            Cause::TabsAfterSpaces => 25,
            Cause::UnrecognizedToken(_) => 26,
            Cause::LineContinuationError => 27,
            Cause::EolInString => 28,
            Cause::InvalidSyntax => 29,
            Cause::InvalidDecimal => 30,
            Cause::InvalidToken => 31,
            Cause::NoDigits => 32,
            Cause::TooManyLevels => 33,
        }
    }

    /// What is wrong, in a few words.
    pub const fn message(self) -> &'static str {
        title(self.code())
    }

    /// The character of an unrecognised token.
    pub const fn char(self) -> Option<char> {
        match self {
            Cause::UnrecognizedToken(c) => Some(c),
            _ => None,
        }
    }

    fn from_numbers(code: u32, detail: u32) -> Option<Cause> {
        Some(match code {
            20 => Cause::StringError,
            21 => Cause::Eof,
            22 => Cause::NestingError,
            23 => Cause::IndentationError,
            24 => Cause::TabError,
            25 => Cause::TabsAfterSpaces,
            26 => Cause::UnrecognizedToken(char::from_u32(detail)?),
            27 => Cause::LineContinuationError,
            28 => Cause::EolInString,
            29 => Cause::InvalidSyntax,
            30 => Cause::InvalidDecimal,
            31 => Cause::InvalidToken,
            32 => Cause::NoDigits,
            33 => Cause::TooManyLevels,
            _ => return None,
        })
    }
}

impl fmt::Display for Cause {
    fn fmt(&self, f: &mut fmt::Formatter<'_>) -> fmt::Result {
        f.write_str(self.message())?;
        match self.char() {
            Some(c) => write!(f, " {c:?}"),
            None => Ok(()),
        }
    }
}

/// What stopped a reading, and where the reader stood then. That is often behind what is wrong, or on another line: what
/// a person has to mend, an [`Explanation`] says.
#[derive(Clone, Copy, Debug, PartialEq, Eq, PartialOrd, Ord, Hash)]
#[non_exhaustive]
pub struct Fault {
    /// Why.
    pub cause: Cause,
    /// Where the reader gave up, in bytes.
    pub place: u32,
}

impl Fault {
    /// The cause's code, 20 to 33.
    pub const fn code(self) -> u32 {
        self.cause.code()
    }

    /// What is wrong, in a few words.
    pub const fn message(self) -> &'static str {
        self.cause.message()
    }

    /// The character of an unrecognised token.
    pub const fn char(self) -> Option<char> {
        self.cause.char()
    }

    /// The line and column of its place in the text that was read. Where a person has to look is the position of an
    /// [`Explanation`].
    ///
    /// ```
    /// use sroviemat::{read, Mode};
    ///
    /// let text = "gold = 'leaf\nink\n";
    /// let reading = read(text, Mode::Module)?;
    /// assert_eq!(reading.ending().fault().unwrap().position(text).to_string(), "2:1");
    /// assert_eq!(reading.explain(text).unwrap().position.to_string(), "1:8");
    /// # Ok::<(), sroviemat::Refusal>(())
    /// ```
    pub fn position(self, text: impl AsRef<[u8]>) -> Position {
        Ending::Fault(self).position(text)
    }
}

impl fmt::Display for Fault {
    fn fmt(&self, f: &mut fmt::Formatter<'_>) -> fmt::Result {
        write!(f, "{} (the reader gave up at byte {})", self.cause, self.place)
    }
}

impl error::Error for Fault {}

/// How a reading ended that was not refused.
#[derive(Clone, Copy, Debug, PartialEq, Eq, PartialOrd, Ord, Hash)]
pub enum Ending {
    /// Code 0: it read to the end of the text.
    End {
        /// The end of the text.
        place: u32,
    },
    /// Codes 20 to 33: it stopped before.
    Fault(Fault),
}

impl Ending {
    /// Its code: 0, or that of the fault.
    pub const fn code(self) -> u32 {
        match self {
            Ending::End { .. } => 0,
            Ending::Fault(fault) => fault.code(),
        }
    }

    /// Its place in bytes.
    pub const fn place(self) -> u32 {
        match self {
            Ending::End { place } => place,
            Ending::Fault(fault) => fault.place,
        }
    }

    /// The line and column of its place in the text that was read.
    ///
    /// ```
    /// use sroviemat::{read, Mode};
    ///
    /// let text = "gold\r\n  # é";
    /// assert_eq!(read(text, Mode::Module)?.ending().position(text).to_string(), "2:6");
    /// # Ok::<(), sroviemat::Refusal>(())
    /// ```
    pub fn position(self, text: impl AsRef<[u8]>) -> Position {
        Position::counted(text.as_ref(), self.place() as usize, 0, 0)
    }

    /// What happened, in a few words.
    pub const fn message(self) -> &'static str {
        match self {
            Ending::End { .. } => title(0),
            Ending::Fault(fault) => fault.message(),
        }
    }

    /// The character of an unrecognised token.
    pub const fn char(self) -> Option<char> {
        match self {
            Ending::End { .. } => None,
            Ending::Fault(fault) => fault.char(),
        }
    }

    /// What stopped the reading, if something did.
    pub const fn fault(self) -> Option<Fault> {
        match self {
            Ending::End { .. } => None,
            Ending::Fault(fault) => Some(fault),
        }
    }

    /// Whether the text was read to its end.
    pub const fn is_end(self) -> bool {
        matches!(self, Ending::End { .. })
    }
}

impl fmt::Display for Ending {
    fn fmt(&self, f: &mut fmt::Formatter<'_>) -> fmt::Result {
        match self {
            Ending::End { place } => write!(f, "{} at byte {place}", self.message()),
            Ending::Fault(fault) => fault.fmt(f),
        }
    }
}

/// Why a call was refused. Nothing was read then, and no row was changed.
#[derive(Clone, Copy, Debug, PartialEq, Eq, PartialOrd, Ord, Hash)]
#[non_exhaustive]
pub enum Refusal {
    /// 1: the text has more than [`MOST_BYTES`](crate::MOST_BYTES), or its places do not fit 32 bits.
    TooLong,
    /// 2: no such mode.
    BadMode,
    /// 3: the bytes are not UTF-8. [`explain`](Refusal::explain) says in a sentence which, and why.
    #[non_exhaustive]
    BadUtf8 {
        /// Where the first ill-formed sequence starts.
        at: u32,
        /// What is wrong with it.
        fault: Utf8Fault,
    },
    /// 4: the row is too short, or the memory for a longer one cannot be had.
    NoRoom {
        /// How many records there are to write.
        needed: u32,
    },
    /// 5: a range, a place or a count that does not fit the text or the row.
    BadEdit,
    /// 6: the records to keep are none that a reading of this text can have written.
    Unsound,
    /// An answer that this crate does not know: the linked library has another interface.
    Unknown {
        /// The answer's code.
        code: u32,
    },
}

impl Refusal {
    /// Its code.
    pub const fn code(self) -> u32 {
        match self {
            Refusal::TooLong => 1,
            Refusal::BadMode => 2,
            Refusal::BadUtf8 { .. } => 3,
            Refusal::NoRoom { .. } => 4,
            Refusal::BadEdit => 5,
            Refusal::Unsound => 6,
            Refusal::Unknown { code } => code,
        }
    }

    /// What is wrong, in a few words.
    pub const fn message(self) -> &'static str {
        title(self.code())
    }
}

impl fmt::Display for Refusal {
    fn fmt(&self, f: &mut fmt::Formatter<'_>) -> fmt::Result {
        f.write_str(self.message())?;
        match self {
            Refusal::TooLong | Refusal::BadMode => Ok(()),
            Refusal::BadUtf8 { at, fault } => write!(f, " at byte {at}: {fault}"),
            Refusal::NoRoom { needed } => write!(f, ": {needed} are to be written"),
            Refusal::BadEdit => f.write_str(": a place or a count does not fit the text or the row"),
            Refusal::Unsound => f.write_str(": the records to keep are not this text's"),
            Refusal::Unknown { code } => write!(f, ", {code}"),
        }
    }
}

impl error::Error for Refusal {}

/// Why there are no tokens: the text has a fault, or the call was refused.
///
/// It says what the one inside says, and its source is that one's.
#[derive(Clone, Debug, PartialEq, Eq, Hash)]
#[non_exhaustive]
pub enum Error {
    /// The bytes are not UTF-8, or the reading stopped before the text's end.
    Fault(Explanation),
    /// Nothing was read. Bytes that are not UTF-8 are the other case where the text is at hand, as it is in
    /// [`tokenize`](crate::tokenize).
    Refusal(Refusal),
}

impl Error {
    /// Its code, as in the table of docs/API.md.
    pub const fn code(&self) -> u32 {
        match self {
            Error::Fault(explanation) => explanation.code,
            Error::Refusal(refusal) => refusal.code(),
        }
    }

    /// What stopped the reading; none for bytes that are not UTF-8, which are refused before they are read.
    pub const fn fault(&self) -> Option<Fault> {
        match self {
            Error::Fault(explanation) => explanation.fault(),
            Error::Refusal(_) => None,
        }
    }

    /// The line and column of what a person has to mend; none for a refusal, which is not about a place in the text.
    ///
    /// ```
    /// use sroviemat::{tokenize, Mode};
    ///
    /// let error = tokenize(b"gold = 24\nleaf = 'caf\xe9'\n", Mode::Module).unwrap_err();
    /// let place = error.position().unwrap().in_file("old_card.py").to_string();
    /// assert_eq!(place, "old_card.py:2:12");
    /// ```
    pub const fn position(&self) -> Option<Position> {
        match self {
            Error::Fault(explanation) => Some(explanation.position),
            Error::Refusal(_) => None,
        }
    }

    /// A refusal of a text.
    pub(crate) fn of(refusal: Refusal, text: &[u8]) -> Error {
        refusal.explain(text).map_or(Error::Refusal(refusal), Error::Fault)
    }
}

impl fmt::Display for Error {
    fn fmt(&self, f: &mut fmt::Formatter<'_>) -> fmt::Result {
        match self {
            Error::Fault(explanation) => explanation.fmt(f),
            Error::Refusal(refusal) => refusal.fmt(f),
        }
    }
}

impl error::Error for Error {
    fn source(&self) -> Option<&(dyn error::Error + 'static)> {
        match self {
            Error::Fault(explanation) => explanation.source(),
            Error::Refusal(refusal) => refusal.source(),
        }
    }
}

impl From<Explanation> for Error {
    fn from(explanation: Explanation) -> Error {
        Error::Fault(explanation)
    }
}

impl From<Refusal> for Error {
    fn from(refusal: Refusal) -> Error {
        Error::Refusal(refusal)
    }
}

/// The four numbers of a reading's answer with types: how many records, and the ending. Code 34 is the audit's alone, so it
/// is none that a reading is known to answer.
pub(crate) fn typed([code, count, place, detail]: [u32; ANSWER]) -> Result<(usize, Ending), Refusal> {
    match code {
        0 => Ok((count as usize, Ending::End { place })),
        1 => Err(Refusal::TooLong),
        2 => Err(Refusal::BadMode),
        3 => Err(match Utf8Fault::from_number(detail) {
            Some(fault) => Refusal::BadUtf8 { at: place, fault },
            None => Refusal::Unknown { code },
        }),
        4 => Err(Refusal::NoRoom { needed: count }),
        5 => Err(Refusal::BadEdit),
        6 => Err(Refusal::Unsound),
        _ => match Cause::from_numbers(code, detail) {
            Some(cause) => Ok((count as usize, Ending::Fault(Fault { cause, place }))),
            None => Err(Refusal::Unknown { code }),
        },
    }
}

#[cfg(test)]
mod tests {
    use super::*;

    /// Each code comes back from what it was turned into, and no two share a message.
    #[test]
    fn codes_go_there_and_back() {
        let mut messages = vec![Ending::End { place: 0 }.message()];
        for code in 20..=33 {
            let (count, ending) = typed([code, 3, 5, u32::from(code == 26) * 0x21]).unwrap();
            assert_eq!((count, ending.code(), ending.place()), (3, code, 5));
            assert_eq!(ending.char(), if code == 26 { Some('!') } else { None });
            messages.push(ending.message());
        }
        let all = messages.len();
        messages.sort_unstable();
        messages.dedup();
        assert_eq!(messages.len(), all);
        for code in (1..20).chain(34..50) {
            assert_eq!(typed([code, 0, 0, 0]).unwrap_err().code(), code);
        }
    }

    #[test]
    fn the_audits_code_is_no_readings() {
        assert_eq!(typed([34, 0, 200, 0]), Err(Refusal::Unknown { code: 34 }));
    }

    #[test]
    fn a_detail_that_is_no_character_is_no_panic() {
        assert_eq!(typed([26, 0, 0, 0xd800]), Err(Refusal::Unknown { code: 26 }));
    }

    /// Each fault of UTF-8 comes back from what its number was turned into, and no two share their words.
    #[test]
    fn faults_of_utf8_go_there_and_back() {
        let refused = |detail| match typed([3, 0, 5, detail]) {
            Err(Refusal::BadUtf8 { at: 5, fault }) => Some(fault),
            other => panic!("{other:?}"),
        };
        let faults: Vec<Utf8Fault> = (1..=7).filter_map(refused).collect();
        assert!(faults.iter().map(|fault| fault.number()).eq(1..=7));
        let mut messages: Vec<String> = faults.iter().map(Utf8Fault::to_string).collect();
        messages.sort_unstable();
        messages.dedup();
        assert_eq!(messages.len(), faults.len());
    }

    #[test]
    fn a_detail_that_is_no_fault_of_utf8_is_no_panic() {
        for detail in [0, 8, u32::MAX] {
            assert_eq!(typed([3, 0, 5, detail]), Err(Refusal::Unknown { code: 3 }));
        }
    }
}
