//! What a text is read as.
use std::{error::Error, fmt, str::FromStr};

/// What a text is read as, and whether its comments are listed.
///
/// ```
/// use sroviemat::{tokenize, Kind, Mode};
///
/// let text = "gold = 3  # leaves\n";
/// assert_eq!(tokenize(text, Mode::Module)?.len(), 4);
/// let tokens = tokenize(text, Mode::Module.with_comments())?;
/// assert_eq!(tokens[3].kind, Kind::Comment);
/// assert_eq!(tokens[3].text(text), Some("# leaves"));
/// # Ok::<(), sroviemat::Error>(())
/// ```
/// It is written and parsed as a word, and parsed as its number too:
///
/// ```
/// use sroviemat::Mode;
///
/// assert_eq!(Mode::ExpressionWithComments.to_string(), "expression-with-comments");
/// assert_eq!("module".parse(), Ok(Mode::Module));
/// assert_eq!("5".parse(), Ok(Mode::ExpressionWithComments));
/// assert!("modul".parse::<Mode>().is_err());
/// ```
#[derive(Clone, Copy, Debug, Default, PartialEq, Eq, PartialOrd, Ord, Hash)]
#[non_exhaustive]
pub enum Mode {
    /// A whole module.
    #[default]
    Module,
    /// What is typed at a prompt.
    Interactive,
    /// One expression: at its start no `match`, `case` or `type` is a keyword.
    Expression,
    /// A whole module, with a [`Comment`](crate::Kind::Comment) for each comment and a
    /// [`NonLogicalNewline`](crate::Kind::NonLogicalNewline) for each newline that ends no logical line.
    ModuleWithComments,
    /// What is typed at a prompt, with comments and all newlines.
    InteractiveWithComments,
    /// One expression, with comments and all newlines.
    ExpressionWithComments,
}

impl Mode {
    /// Every mode, in the order of their numbers.
    pub const ALL: [Mode; 6] = [
        Mode::Module,
        Mode::Interactive,
        Mode::Expression,
        Mode::ModuleWithComments,
        Mode::InteractiveWithComments,
        Mode::ExpressionWithComments,
    ];

    /// Its number.
    pub const fn number(self) -> u32 {
        self as u32
    }

    /// A word for it.
    pub const fn as_str(self) -> &'static str {
        match self {
            Mode::Module => "module",
            Mode::Interactive => "interactive",
            Mode::Expression => "expression",
            Mode::ModuleWithComments => "module-with-comments",
            Mode::InteractiveWithComments => "interactive-with-comments",
            Mode::ExpressionWithComments => "expression-with-comments",
        }
    }

    /// The same with comments and all newlines in the list.
    ///
    /// ```
    /// use sroviemat::Mode;
    ///
    /// assert_eq!(Mode::Expression.with_comments(), Mode::ExpressionWithComments);
    /// assert_eq!(Mode::Expression.with_comments().with_comments().number(), 5);
    /// ```
    pub const fn with_comments(self) -> Mode {
        match self {
            Mode::Module | Mode::ModuleWithComments => Mode::ModuleWithComments,
            Mode::Interactive | Mode::InteractiveWithComments => Mode::InteractiveWithComments,
            Mode::Expression | Mode::ExpressionWithComments => Mode::ExpressionWithComments,
        }
    }

    /// The same without them.
    pub const fn without_comments(self) -> Mode {
        match self {
            Mode::Module | Mode::ModuleWithComments => Mode::Module,
            Mode::Interactive | Mode::InteractiveWithComments => Mode::Interactive,
            Mode::Expression | Mode::ExpressionWithComments => Mode::Expression,
        }
    }

    /// Whether comments and all newlines are in the list.
    pub const fn has_comments(self) -> bool {
        match self {
            Mode::Module | Mode::Interactive | Mode::Expression => false,
            Mode::ModuleWithComments | Mode::InteractiveWithComments | Mode::ExpressionWithComments => true,
        }
    }
}

impl fmt::Display for Mode {
    fn fmt(&self, f: &mut fmt::Formatter<'_>) -> fmt::Result {
        f.pad(self.as_str())
    }
}

impl FromStr for Mode {
    type Err = ParseModeError;

    fn from_str(word: &str) -> Result<Mode, ParseModeError> {
        let said = |mode: &Mode| mode.as_str() == word || word.parse() == Ok(mode.number());
        Mode::ALL.into_iter().find(said).ok_or(ParseModeError(()))
    }
}

/// A word that is no mode's.
#[derive(Clone, Copy, Debug, PartialEq, Eq, Hash)]
pub struct ParseModeError(());

impl fmt::Display for ParseModeError {
    fn fmt(&self, f: &mut fmt::Formatter<'_>) -> fmt::Result {
        f.write_str("no such mode; there are")?;
        for (index, mode) in Mode::ALL.into_iter().enumerate() {
            write!(f, "{} {mode}", if index == 0 { "" } else { "," })?;
        }
        Ok(())
    }
}

impl Error for ParseModeError {}

/// A number that is no mode's.
#[derive(Clone, Copy, Debug, PartialEq, Eq, Hash)]
pub struct UnknownMode(
    /// The number.
    pub u32,
);

impl fmt::Display for UnknownMode {
    fn fmt(&self, f: &mut fmt::Formatter<'_>) -> fmt::Result {
        write!(f, "{} is no mode's number", self.0)
    }
}

impl Error for UnknownMode {}

impl TryFrom<u32> for Mode {
    type Error = UnknownMode;

    fn try_from(number: u32) -> Result<Mode, UnknownMode> {
        Mode::ALL.get(number as usize).copied().ok_or(UnknownMode(number))
    }
}

impl From<Mode> for u32 {
    fn from(mode: Mode) -> u32 {
        mode.number()
    }
}
