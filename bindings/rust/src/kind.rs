//! What a token is, and the number that a row holds for it.
use std::{error::Error, fmt};

/// An enum whose cases stand in the order of their numbers, each with its text.
macro_rules! numbered {
    ($(#[$doc:meta])* $name:ident from $first:literal { $($case:ident $text:literal,)* }) => {
        $(#[$doc])*
        #[derive(Clone, Copy, Debug, PartialEq, Eq, PartialOrd, Ord, Hash)]
        #[repr(u8)]
        pub enum $name {
            $(#[doc = concat!("`", $text, "`")] $case,)*
        }

        impl $name {
            /// Every case, in the order of their numbers.
            pub const ALL: &'static [$name] = &[$($name::$case,)*];

            /// The number of the first case; the others follow.
            pub const FIRST: u32 = $first;

            /// Its text in a program.
            pub const fn as_str(self) -> &'static str {
                match self {
                    $($name::$case => $text,)*
                }
            }

            /// Its number in a row.
            pub const fn number(self) -> u32 {
                $name::FIRST + self as u32
            }

            /// The case of a number, if there is one.
            pub fn from_number(number: u32) -> Option<$name> {
                $name::ALL.get(number.checked_sub($name::FIRST)? as usize).copied()
            }
        }

        impl fmt::Display for $name {
            fn fmt(&self, f: &mut fmt::Formatter<'_>) -> fmt::Result {
                f.write_str(self.as_str())
            }
        }
    };
}

numbered! {
    /// An operator or a delimiter. The names are those of Python's module `token`.
    Operator from 30 {
        Equal "=",
        EqEqual "==",
        Plus "+",
        PlusEqual "+=",
        Star "*",
        StarEqual "*=",
        DoubleStar "**",
        DoubleStarEqual "**=",
        Slash "/",
        SlashEqual "/=",
        DoubleSlash "//",
        DoubleSlashEqual "//=",
        Percent "%",
        PercentEqual "%=",
        Vbar "|",
        VbarEqual "|=",
        Circumflex "^",
        CircumflexEqual "^=",
        Amper "&",
        AmperEqual "&=",
        Minus "-",
        MinusEqual "-=",
        Rarrow "->",
        At "@",
        AtEqual "@=",
        NotEqual "!=",
        Tilde "~",
        Lpar "(",
        Rpar ")",
        Lsqb "[",
        Rsqb "]",
        Lbrace "{",
        Rbrace "}",
        Colon ":",
        ColonEqual ":=",
        Semi ";",
        Less "<",
        LeftShift "<<",
        LeftShiftEqual "<<=",
        LessEqual "<=",
        Greater ">",
        RightShift ">>",
        RightShiftEqual ">>=",
        GreaterEqual ">=",
        Comma ",",
        Dot ".",
        Ellipsis "...",
    }
}

numbered! {
    /// A keyword: one of the Reference's 35, in ASCII order.
    Keyword from 100 {
        False "False",
        None "None",
        True "True",
        And "and",
        As "as",
        Assert "assert",
        Async "async",
        Await "await",
        Break "break",
        Class "class",
        Continue "continue",
        Def "def",
        Del "del",
        Elif "elif",
        Else "else",
        Except "except",
        Finally "finally",
        For "for",
        From "from",
        Global "global",
        If "if",
        Import "import",
        In "in",
        Is "is",
        Lambda "lambda",
        Nonlocal "nonlocal",
        Not "not",
        Or "or",
        Pass "pass",
        Raise "raise",
        Return "return",
        Try "try",
        While "while",
        With "with",
        Yield "yield",
    }
}

numbered! {
    /// A soft keyword where it is one; elsewhere it is a [`Kind::Name`].
    Soft from 140 {
        Match "match",
        Case "case",
        Type "type",
    }
}

numbered! {
    /// The letters before a string's quote, in small letters. In a program they stand in either case, and `rf` and `rb`
    /// in either order. The numbers are those of strings in single quotes; a triple-quoted one has 7 more.
    Prefix from 10 {
        None "",
        F "f",
        B "b",
        R "r",
        Rf "rf",
        Rb "rb",
        U "u",
    }
}

/// What a triple-quoted string's number has on top of its prefix's.
const TRIPLE: u32 = 7;

/// What a token is. The kinds are the original's, all of them, so a `match` may name each.
///
/// ```
/// use sroviemat::{Keyword, Kind, Operator, Prefix};
///
/// assert_eq!(Kind::Operator(Operator::Colon).number(), 63);
/// assert_eq!(Kind::try_from(120), Ok(Kind::Keyword(Keyword::If)));
/// assert_eq!(Kind::try_from(21), Ok(Kind::Str { prefix: Prefix::Rf, triple: true }));
/// assert!(Kind::try_from(9).is_err());
/// ```
#[derive(Clone, Copy, Debug, PartialEq, Eq, PartialOrd, Ord, Hash)]
pub enum Kind {
    /// The end of a logical line; empty at the end of a text whose last line has none.
    Newline,
    /// A level opens: the blanks at the line's start.
    Indent,
    /// A level closes; empty.
    Dedent,
    /// An identifier, or a character with emoji presentation.
    Name,
    /// An integer of any base.
    Int,
    /// A number with a fraction or an exponent.
    Float,
    /// An imaginary number.
    Complex,
    /// A comment, from its `#` to before the line's end; listed in the modes with comments.
    Comment,
    /// The end of a line that is no logical line's: of a blank or comment line, or within brackets; listed in the modes
    /// with comments.
    NonLogicalNewline,
    /// A string with its prefix and quotes.
    Str {
        /// The letters before the quote.
        prefix: Prefix,
        /// Whether it is triple-quoted.
        triple: bool,
    },
    /// An operator or a delimiter.
    Operator(Operator),
    /// A keyword.
    Keyword(Keyword),
    /// A soft keyword in its place.
    Soft(Soft),
}

impl Kind {
    /// Its number in a row.
    pub const fn number(self) -> u32 {
        match self {
            Kind::Newline => 0,
            Kind::Indent => 1,
            Kind::Dedent => 2,
            Kind::Name => 3,
            Kind::Int => 4,
            Kind::Float => 5,
            Kind::Complex => 6,
            Kind::Comment => 7,
            Kind::NonLogicalNewline => 8,
            Kind::Str { prefix, triple: false } => prefix.number(),
            Kind::Str { prefix, triple: true } => prefix.number() + TRIPLE,
            Kind::Operator(operator) => operator.number(),
            Kind::Keyword(keyword) => keyword.number(),
            Kind::Soft(soft) => soft.number(),
        }
    }

    /// The kind of a number, if there is one.
    pub fn from_number(number: u32) -> Option<Kind> {
        const PLAIN: [Kind; 9] = [
            Kind::Newline,
            Kind::Indent,
            Kind::Dedent,
            Kind::Name,
            Kind::Int,
            Kind::Float,
            Kind::Complex,
            Kind::Comment,
            Kind::NonLogicalNewline,
        ];
        match number {
            0..=9 => PLAIN.get(number as usize).copied(),
            10..=16 => Prefix::from_number(number).map(|prefix| Kind::Str { prefix, triple: false }),
            17..=29 => Prefix::from_number(number - TRIPLE).map(|prefix| Kind::Str { prefix, triple: true }),
            30..=99 => Operator::from_number(number).map(Kind::Operator),
            100..=139 => Keyword::from_number(number).map(Kind::Keyword),
            _ => Soft::from_number(number).map(Kind::Soft),
        }
    }

    /// The text of an operator, a keyword or a soft keyword; others are spelled in many ways.
    pub const fn as_str(self) -> Option<&'static str> {
        match self {
            Kind::Operator(operator) => Some(operator.as_str()),
            Kind::Keyword(keyword) => Some(keyword.as_str()),
            Kind::Soft(soft) => Some(soft.as_str()),
            _ => None,
        }
    }

    /// Its name in bindings/words.txt, which the ES module and tools/show-tokens use too.
    ///
    /// ```
    /// use sroviemat::{Kind, Operator, Prefix};
    ///
    /// assert_eq!(Kind::Name.name(), "Name");
    /// assert_eq!(Kind::Operator(Operator::PlusEqual).name(), "Operator +=");
    /// assert_eq!(Kind::Str { prefix: Prefix::Rf, triple: true }.name(), "Tripled rf");
    /// ```
    pub fn name(self) -> String {
        match self {
            Kind::Str { prefix: Prefix::None, triple: false } => "String".to_owned(),
            Kind::Str { prefix: Prefix::None, triple: true } => "Tripled".to_owned(),
            Kind::Str { prefix, triple: false } => format!("String {prefix}"),
            Kind::Str { prefix, triple: true } => format!("Tripled {prefix}"),
            Kind::Operator(operator) => format!("Operator {operator}"),
            Kind::Keyword(keyword) => format!("Keyword {keyword}"),
            Kind::Soft(soft) => format!("Keyword {soft}"),
            plain => format!("{plain:?}"),
        }
    }

    /// Whether only the modes with comments list it: a comment, or a newline that ends no logical line.
    ///
    /// ```
    /// use sroviemat::{tokenize, Mode};
    ///
    /// let text = "a = [ # a list\n]\n\n";
    /// let mut tokens = tokenize(text, Mode::Module.with_comments())?;
    /// assert_eq!(tokens.iter().filter(|token| token.kind.is_trivia()).count(), 3);
    /// tokens.retain(|token| !token.kind.is_trivia());
    /// assert_eq!(tokens, tokenize(text, Mode::Module)?);
    /// # Ok::<(), sroviemat::Error>(())
    /// ```
    pub const fn is_trivia(self) -> bool {
        matches!(self, Kind::Comment | Kind::NonLogicalNewline)
    }

    /// Every kind, in the order of their numbers.
    pub fn all() -> impl Iterator<Item = Kind> {
        (0..=Soft::Type.number()).filter_map(Kind::from_number)
    }
}

/// A name, with the text in backquotes where there is only one: ``operator `+=` ``.
impl fmt::Display for Kind {
    fn fmt(&self, f: &mut fmt::Formatter<'_>) -> fmt::Result {
        match self {
            Kind::Newline => f.write_str("newline"),
            Kind::Indent => f.write_str("indent"),
            Kind::Dedent => f.write_str("dedent"),
            Kind::Name => f.write_str("name"),
            Kind::Int => f.write_str("integer"),
            Kind::Float => f.write_str("float"),
            Kind::Complex => f.write_str("imaginary number"),
            Kind::Comment => f.write_str("comment"),
            Kind::NonLogicalNewline => f.write_str("non-logical newline"),
            Kind::Str { prefix, triple } => {
                let quotes = if *triple { "triple-quoted " } else { "" };
                match prefix {
                    Prefix::None => write!(f, "{quotes}string"),
                    _ => write!(f, "{quotes}string `{prefix}`"),
                }
            }
            Kind::Operator(operator) => write!(f, "operator `{operator}`"),
            Kind::Keyword(keyword) => write!(f, "keyword `{keyword}`"),
            Kind::Soft(soft) => write!(f, "soft keyword `{soft}`"),
        }
    }
}

/// A number that is no kind's.
#[derive(Clone, Copy, Debug, PartialEq, Eq, Hash)]
pub struct UnknownKind(
    /// The number.
    pub u32,
);

impl fmt::Display for UnknownKind {
    fn fmt(&self, f: &mut fmt::Formatter<'_>) -> fmt::Result {
        write!(f, "{} is no kind's number", self.0)
    }
}

impl Error for UnknownKind {}

impl TryFrom<u32> for Kind {
    type Error = UnknownKind;

    fn try_from(number: u32) -> Result<Kind, UnknownKind> {
        Kind::from_number(number).ok_or(UnknownKind(number))
    }
}

impl From<Kind> for u32 {
    fn from(kind: Kind) -> u32 {
        kind.number()
    }
}
