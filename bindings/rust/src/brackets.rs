//! The bracket audit: the first wrong bracket of a row, and the sentence that says what is wrong with it.
use crate::{
    ending::Refusal,
    explanation::{shown, Marked},
    ffi,
    kind::Operator,
    lines::Position,
    row::{Row, Token},
    words::{self, KIND, STRIDE},
};
use std::{error, fmt, ops::Range};

/// What the bracket audit finds first. Brackets are told by the indices of their records.
///
/// ```
/// use sroviemat::{read, Mode, WrongBracket};
///
/// let text = "x = ([)]";
/// let reading = read(text, Mode::Module)?;
/// let wrong = reading.row().audit()?.unwrap();
/// assert_eq!(wrong, WrongBracket::Mismatched { closer: 4, opener: 3 });
/// let said = wrong.explain(text, reading.row()).to_string();
/// assert_eq!(said, "`)` at 1:7 does not close `[` at 1:6, the latest bracket that is open.");
/// # Ok::<(), sroviemat::Refusal>(())
/// ```
#[derive(Clone, Copy, Debug, PartialEq, Eq, PartialOrd, Ord, Hash)]
pub enum WrongBracket {
    /// A closer where no bracket is open. A reading ends before one ([`Cause::NestingError`](crate::Cause::NestingError)),
    /// so only a row that was altered has it.
    Unopened {
        /// The closer's index.
        closer: usize,
    },
    /// A closer that meets an opener of another kind, the latest that is still open.
    Mismatched {
        /// The closer's index.
        closer: usize,
        /// The index of the opener that it meets.
        opener: usize,
    },
    /// An opener where 200 brackets are open.
    TooMany {
        /// The opener's index.
        opener: usize,
    },
}

impl WrongBracket {
    /// The index of the record that is wrong: the closer, or the opener that is one too many.
    pub const fn index(self) -> usize {
        match self {
            WrongBracket::Unopened { closer } | WrongBracket::Mismatched { closer, .. } => closer,
            WrongBracket::TooMany { opener } => opener,
        }
    }

    /// Its name in bindings/words.txt: `unopened`, `mismatched` or `too-many`.
    pub const fn name(self) -> &'static str {
        match self {
            WrongBracket::Unopened { .. } => "unopened",
            WrongBracket::Mismatched { .. } => "mismatched",
            WrongBracket::TooMany { .. } => "too-many",
        }
    }

    /// What a person has to mend, where this was found in the row of this text. Of another text or row the answer says
    /// nothing.
    ///
    /// [`Reading::explain_brackets`](crate::Reading::explain_brackets) and
    /// [`Document::explain_brackets`](crate::Document::explain_brackets) are shorter where there is one.
    pub fn explain(self, text: impl AsRef<[u8]>, row: Row<'_>) -> BracketExplanation {
        let text = text.as_ref();
        let end = text.len()..text.len();
        let marked = |index| Marked::new(text, row, row.get(index).map_or(end.clone(), Token::range));
        let Marked { span, position, letter } = marked(self.index());
        let (words, opener) = match self {
            WrongBracket::Unopened { .. } => (words::UNOPENED, None),
            WrongBracket::Mismatched { opener, .. } => (words::MISMATCHED, Some(marked(opener))),
            WrongBracket::TooMany { .. } => (words::TOO_MANY, None),
        };
        let mut sentence = words.replace("{at}", &position.to_string()).replace("{text}", &shown(letter));
        if let Some(Marked { position, letter, .. }) = &opener {
            sentence = sentence.replace("{opened}", &position.to_string()).replace("{opener}", &shown(*letter));
        }
        let opened = opener.as_ref().map(|opener| opener.position);
        BracketExplanation { found: self, span, position, opener: opener.map(|opener| opener.span), opened, sentence }
    }

    /// A wrong closer: all closers before it are right, so the opener that it meets is found by counting.
    fn closer(row: &[u32], closer: usize) -> WrongBracket {
        match latest_open(&row[..STRIDE * closer]) {
            Some(opener) => WrongBracket::Mismatched { closer, opener },
            None => WrongBracket::Unopened { closer },
        }
    }
}

/// What a person has to mend where a bracket is wrong. It is written as a sentence.
///
/// ```
/// use sroviemat::{read, Mode};
///
/// let text = "gold = leaf(\n    [1, 2)]\n";
/// let explanation = read(text, Mode::Module)?.explain_brackets(text).unwrap();
/// assert_eq!(
///     explanation.to_string(),
///     "`)` at 2:10 does not close `[` at 2:5, the latest bracket that is open."
/// );
/// assert_eq!(&text[explanation.span.clone()], ")");
/// assert_eq!(&text[explanation.opener.clone().unwrap()], "[");
/// assert_eq!(explanation.position.in_file("leaf.py").to_string(), "leaf.py:2:10");
/// # Ok::<(), sroviemat::Refusal>(())
/// ```
#[derive(Clone, Debug, PartialEq, Eq, Hash)]
#[non_exhaustive]
pub struct BracketExplanation {
    /// What the audit found.
    pub found: WrongBracket,
    /// The bytes of the bracket that is wrong: the closer, or the opener that is one too many.
    pub span: Range<usize>,
    /// The line and column where it stands.
    pub position: Position,
    /// The bytes of the opener that a closer of another kind meets.
    pub opener: Option<Range<usize>>,
    /// The line and column where that one stands.
    pub opened: Option<Position>,
    sentence: String,
}

impl fmt::Display for BracketExplanation {
    fn fmt(&self, f: &mut fmt::Formatter<'_>) -> fmt::Result {
        f.pad(&self.sentence)
    }
}

impl error::Error for BracketExplanation {}

/// The bracket audit: the first wrong bracket of a row. A closer is right if it closes the latest opener that is still
/// open, of its own kind; up to 200 may be open. None if no bracket is wrong. An opener that nothing closes is not: that
/// is the reading's to say ([`Cause::Eof`](crate::Cause::Eof)).
///
/// It takes any row, as a reading wrote it or altered since.
///
/// ```
/// use sroviemat::{audit, read, Mode, Refusal, WrongBracket};
///
/// let audited = |text: &str| read(text, Mode::Module)?.row().audit();
/// // The reader counts all brackets as one, so it reads this to the end; the audit tells them apart.
/// assert!(read("([)]", Mode::Module)?.ending().is_end());
/// assert_eq!(audited("([)]"), Ok(Some(WrongBracket::Mismatched { closer: 2, opener: 1 })));
/// assert_eq!(audited("{([]): ()}"), Ok(None));
/// // The 201st that is open.
/// assert_eq!(audited(&"(".repeat(200)), Ok(None));
/// assert_eq!(audited(&"(".repeat(201)), Ok(Some(WrongBracket::TooMany { opener: 200 })));
/// // A row of one's own: `x` and `)`.
/// assert_eq!(audit(&[3, 0, 1, 0, 58, 1, 2, 0]), Ok(Some(WrongBracket::Unopened { closer: 1 })));
/// # Ok::<(), Refusal>(())
/// ```
pub fn audit(row: &[u32]) -> Result<Option<WrongBracket>, Refusal> {
    let old = u32::try_from(row.len() / STRIDE).map_err(|_| Refusal::BadEdit)?;
    let [code, _, place, _] = ffi::audit(row, old);
    let index = place as usize;
    match code {
        0 if place < old => Ok(Some(WrongBracket::closer(row, index))),
        0 => Ok(None),
        34 => Ok(Some(WrongBracket::TooMany { opener: index })),
        5 => Err(Refusal::BadEdit),
        _ => Err(Refusal::Unknown { code }),
    }
}

/// What is wrong with the brackets of a reading. It has no more records than 32 bits count, so the audit refuses none.
pub(crate) fn explain_brackets(text: &[u8], row: Row<'_>) -> Option<BracketExplanation> {
    row.audit().ok().flatten().map(|wrong| wrong.explain(text, row))
}

/// The index of the latest opener that is still open behind these records, by one count of all brackets.
pub(crate) fn latest_open(row: &[u32]) -> Option<usize> {
    let mut closed = 0_usize;
    for (index, record) in row.chunks_exact(STRIDE).enumerate().rev() {
        match Operator::from_number(record[KIND]) {
            Some(Operator::Rpar | Operator::Rsqb | Operator::Rbrace) => closed += 1,
            Some(Operator::Lpar | Operator::Lsqb | Operator::Lbrace) => match closed.checked_sub(1) {
                Some(left) => closed = left,
                None => return Some(index),
            },
            _ => {}
        }
    }
    None
}
