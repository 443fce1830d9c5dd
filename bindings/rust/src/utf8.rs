//! What is wrong with bytes that are not UTF-8.
use crate::{explanation::is_shown, words};
use std::{fmt, ops::Range};

/// What is wrong with bytes that are not UTF-8. The first byte from the left that shows a fault decides; the last three
/// faults show at a sequence's second byte, whatever stands behind it.
///
/// ```
/// use sroviemat::{measure, Mode, Refusal, Utf8Fault};
///
/// let fault = |bytes: &[u8]| match measure(bytes, Mode::Module) {
///     Err(Refusal::BadUtf8 { fault, .. }) => Some(fault),
///     _ => None,
/// };
/// assert_eq!(fault(b"caf\xe9 = 1"), Some(Utf8Fault::CutByByte));
/// assert_eq!(fault(b"# caf\xe9"), Some(Utf8Fault::CutByEnd));
/// assert_eq!(fault("# café".as_bytes()), None);
/// ```
#[derive(Clone, Copy, Debug, PartialEq, Eq, PartialOrd, Ord, Hash)]
pub enum Utf8Fault {
    /// 1: a continuation byte, 80 to BF, where no character has begun.
    Stray = 1,
    /// 2: a byte C0, C1 or F5 to FF, which no character has.
    Unused = 2,
    /// 3: a sequence that the end of the text cuts.
    CutByEnd = 3,
    /// 4: a sequence that another byte cuts, one that is no continuation byte.
    CutByByte = 4,
    /// 5: a character in more bytes than it takes: E0 and 80 to 9F, F0 and 80 to 8F.
    Overlong = 5,
    /// 6: a surrogate, which is no character: ED and A0 to BF.
    Surrogate = 6,
    /// 7: a number above 10FFFF, the last character's: F4 and 90 to BF.
    TooLarge = 7,
}

impl Utf8Fault {
    const ALL: [Utf8Fault; 7] = [
        Utf8Fault::Stray,
        Utf8Fault::Unused,
        Utf8Fault::CutByEnd,
        Utf8Fault::CutByByte,
        Utf8Fault::Overlong,
        Utf8Fault::Surrogate,
        Utf8Fault::TooLarge,
    ];

    /// Its number: the detail of an answer with code 3.
    pub const fn number(self) -> u32 {
        self as u32
    }

    /// Its name, as in `bindings/words.txt`.
    pub const fn name(self) -> &'static str {
        self.row().1
    }

    /// What is wrong, in a few words.
    pub const fn message(self) -> &'static str {
        match self {
            Utf8Fault::Stray => "a stray continuation byte",
            Utf8Fault::Unused => "a byte that no character has",
            Utf8Fault::CutByEnd => "a sequence that the end of the text cuts",
            Utf8Fault::CutByByte => "a sequence that another byte cuts",
            Utf8Fault::Overlong => "an overlong form",
            Utf8Fault::Surrogate => "a surrogate",
            Utf8Fault::TooLarge => "a number above 10FFFF",
        }
    }

    pub(crate) fn from_number(number: u32) -> Option<Utf8Fault> {
        Utf8Fault::ALL.into_iter().find(|fault| fault.number() == number)
    }

    /// The number, the name and the words, which stand in the order of the numbers.
    const fn row(self) -> (u32, &'static str, &'static str) {
        words::BYTES[self as usize - 1]
    }

    /// The bytes that are to be mended, where the sequence starts at a place. Of one that is cut they are all there are: the
    /// whole character where a part of a text was read that ends within one.
    pub(crate) fn span(self, text: &[u8], at: usize) -> Range<usize> {
        let behind = text.get(at + 1..).unwrap_or_default();
        match self {
            Utf8Fault::Stray | Utf8Fault::Unused => at..at + 1,
            Utf8Fault::CutByEnd | Utf8Fault::CutByByte => {
                at..at + 1 + behind.iter().take(3).take_while(|&&byte| continues(byte)).count()
            }
            Utf8Fault::Overlong | Utf8Fault::Surrogate | Utf8Fault::TooLarge => at..at + 2,
        }
    }
}

impl fmt::Display for Utf8Fault {
    fn fmt(&self, f: &mut fmt::Formatter<'_>) -> fmt::Result {
        f.pad(self.message())
    }
}

/// Whether a byte continues a character.
const fn continues(byte: u8) -> bool {
    byte & 0xc0 == 0x80
}

/// The bytes that a sentence about a fault shows.
#[derive(Clone, Copy, Debug, PartialEq, Eq, Hash)]
pub(crate) struct Bytes {
    fault: Utf8Fault,
    first: u8,
    /// The one behind it that shows the fault; the first where none does.
    next: u8,
    /// Whether the text begins as one in UTF-16 does.
    utf16: bool,
    /// What the first is in Latin-1, if that is a guess to offer.
    pub latin1: Option<char>,
}

impl Bytes {
    /// The bytes of a fault with this span; none if the text, which may be another than the one that was read, lacks one.
    pub fn new(fault: Utf8Fault, text: &[u8], span: &Range<usize>) -> Option<Bytes> {
        let first = *text.get(span.start)?;
        let next = match fault {
            Utf8Fault::Stray | Utf8Fault::Unused | Utf8Fault::CutByEnd => first,
            Utf8Fault::CutByByte => *text.get(span.end)?,
            Utf8Fault::Overlong | Utf8Fault::Surrogate | Utf8Fault::TooLarge => *text.get(span.start + 1)?,
        };
        let utf16 = span.start == 0 && matches!(text, [0xff, 0xfe, ..] | [0xfe, 0xff, ..]);
        let alone = !utf16 && !text.get(span.start + 1).map_or(false, |&byte| continues(byte));
        let latin1 = Some(char::from(first)).filter(|&letter| alone && !letter.is_ascii() && is_shown(letter));
        Some(Bytes { fault, first, next, utf16, latin1 })
    }

    /// The sentence, with a gap for the place, and the hint behind it.
    pub fn words(self) -> String {
        let hint = match self.latin1 {
            Some(letter) => format!(" {}", words::LATIN1.replace("{text}", &letter.to_string())),
            None if self.utf16 => format!(" {}", words::UTF16),
            None => String::new(),
        };
        let words = self.fault.row().2.to_owned() + &hint;
        words.replace("{byte}", &format!("{:02X}", self.first)).replace("{next}", &format!("{:02X}", self.next))
    }
}

#[cfg(test)]
mod tests {
    use super::*;

    #[test]
    fn faults_are_those_of_the_table() {
        let here: Vec<_> = Utf8Fault::ALL.iter().map(|fault| (fault.number(), fault.name())).collect();
        let there: Vec<_> = words::BYTES.iter().map(|&(number, name, _)| (number, name)).collect();
        assert_eq!(here, there);
    }
}
