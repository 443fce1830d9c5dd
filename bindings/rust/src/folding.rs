//! Which lines fold, from the list of tokens alone.
use crate::{
    kind::{Kind, Operator},
    lines::line_ends,
    row::Token,
};
use std::{cmp::Reverse, fmt, ops::Range};

/// What the lines of a range have in common.
#[derive(Clone, Copy, Debug, PartialEq, Eq, PartialOrd, Ord, Hash)]
#[non_exhaustive]
pub enum FoldingKind {
    /// A block, with the line that opens it.
    Block,
    /// A pair of brackets.
    Bracket,
    /// Comment lines that follow one another.
    Comments,
}

impl FoldingKind {
    /// A word for it.
    pub const fn as_str(self) -> &'static str {
        match self {
            FoldingKind::Block => "block",
            FoldingKind::Bracket => "bracket",
            FoldingKind::Comments => "comments",
        }
    }

    /// The `kind` of a FoldingRange in the Language Server Protocol, which has one for comments alone.
    pub const fn lsp(self) -> Option<&'static str> {
        match self {
            FoldingKind::Comments => Some("comment"),
            FoldingKind::Block | FoldingKind::Bracket => None,
        }
    }
}

impl fmt::Display for FoldingKind {
    fn fmt(&self, f: &mut fmt::Formatter<'_>) -> fmt::Result {
        f.write_str(self.as_str())
    }
}

/// Lines that fold: the first stays in view, and those behind it up to the last, which is among them, can be hidden.
/// Lines are numbered from 0, as in the Language Server Protocol.
#[derive(Clone, Copy, Debug, PartialEq, Eq, Hash)]
pub struct FoldingRange {
    /// The line that stays in view.
    pub start_line: u32,
    /// The last line that can be hidden; it is behind `start_line`.
    pub end_line: u32,
    /// What folds.
    pub kind: FoldingKind,
}

/// The lines and the kind: `2..=7 block`.
impl fmt::Display for FoldingRange {
    fn fmt(&self, f: &mut fmt::Formatter<'_>) -> fmt::Result {
        write!(f, "{}..={} {}", self.start_line, self.end_line, self.kind)
    }
}

/// The ranges of lines that fold in a text, from its tokens.
///
/// | what folds | from | to |
/// |---|---|---|
/// | a block | the line whose Newline stands before its Indent | its last line with a token or a comment of it |
/// | brackets | the opener's line | the closer's line |
/// | comment lines | the first | the last of two or more in a row, with no block's end between them |
///
/// A comment is of a block if more of the block follows, however it is indented, or if it is indented deeper than the
/// line that opens the block. Blank lines at a block's end are not of it. What is still open at the end of the tokens,
/// as in a text with a fault, goes to the last line with a token or a comment of it.
///
/// The tokens are those of a reading of this text, at start 0, in a mode [with comments](crate::Mode::with_comments);
/// in another mode blocks and brackets fold, to their last token. The ranges stand in the order of their first lines, the
/// longer ones first; any two are one within the other or share no more than a line. Two brackets with the same lines
/// are one range. An editor that is to keep a closer's line in view hides one line less of a [`FoldingKind::Bracket`].
///
/// ```
/// use sroviemat::{folding_ranges, Document, Mode, Refusal};
///
/// let text = "with gold:\n    shine(\n        1,\n    )\n# at the margin\n    rough()\n\n";
/// let document = Document::new(text, Mode::ModuleWithComments)?;
/// let ranges = folding_ranges(document.text(), document.tokens());
/// let said: Vec<String> = ranges.iter().map(|range| range.to_string()).collect();
/// assert_eq!(said, ["0..=5 block", "1..=3 bracket"]);
/// # Ok::<(), Refusal>(())
/// ```
pub fn folding_ranges(text: impl AsRef<[u8]>, tokens: impl IntoIterator<Item = Token>) -> Vec<FoldingRange> {
    let mut folding = Folding::new(text.as_ref());
    for token in tokens {
        folding.take(token);
    }
    folding.finish()
}

/// The ranges so far, and what is open.
struct Folding<'a> {
    text: &'a [u8],
    /// In the order in which they open. One that does not end behind its first line is none.
    ranges: Vec<FoldingRange>,
    /// Open blocks, the outermost first.
    blocks: Vec<Block>,
    /// The ranges of open brackets, the outermost first.
    brackets: Vec<usize>,
    /// Lines with nothing but a comment.
    comments: Vec<CommentLine>,
    /// The blanks of the level that is open.
    level: Blanks,
    /// The line of the last Newline.
    header: Option<u32>,
    /// The line where the last token ends.
    last: u32,
    /// Whether a logical line has begun and not ended.
    in_line: bool,
}

struct Block {
    /// None for a block at the text's start that no line opens.
    range: Option<usize>,
    /// The blanks of the line that opens it.
    header: Blanks,
    /// The last comment line that is of it and of no block within it, if it is behind the last token.
    comment: Option<usize>,
}

struct CommentLine {
    line: u32,
    /// Whether a block ends with it.
    ends_block: bool,
}

impl<'a> Folding<'a> {
    fn new(text: &'a [u8]) -> Folding<'a> {
        Folding {
            text,
            ranges: Vec::new(),
            blocks: Vec::new(),
            brackets: Vec::new(),
            comments: Vec::new(),
            level: Blanks::default(),
            header: None,
            last: 0,
            in_line: false,
        }
    }

    fn take(&mut self, token: Token) {
        let (line, range) = (token.line(), token.range());
        match token.kind {
            Kind::Newline => self.header = Some(line),
            Kind::NonLogicalNewline => {}
            Kind::Comment => self.comment(line, range.start),
            Kind::Indent => self.open_block(range),
            Kind::Dedent => self.close_block(),
            kind => {
                self.last = line.saturating_add(line_ends(self.text, range));
                match kind {
                    Kind::Operator(Operator::Lpar | Operator::Lsqb | Operator::Lbrace) => {
                        let opened = self.open(line, FoldingKind::Bracket);
                        self.brackets.push(opened);
                    }
                    Kind::Operator(Operator::Rpar | Operator::Rsqb | Operator::Rbrace) => self.close_bracket(),
                    _ => {}
                }
            }
        }
        if !token.kind.is_trivia() {
            self.in_line = token.kind != Kind::Newline;
        }
    }

    /// A range that begins; its index.
    fn open(&mut self, line: u32, kind: FoldingKind) -> usize {
        self.ranges.push(FoldingRange { start_line: line, end_line: line, kind });
        self.ranges.len() - 1
    }

    fn open_block(&mut self, indent: Range<usize>) {
        let range = self.header.map(|line| self.open(line, FoldingKind::Block));
        self.blocks.push(Block { range, header: self.level, comment: None });
        self.level = Blanks::of(self.text.get(indent).unwrap_or_default());
    }

    fn close_block(&mut self) {
        if let Some(block) = self.blocks.pop() {
            self.level = block.header;
            if let Some(outer) = self.blocks.last_mut() {
                outer.comment = outer.comment.max(block.comment);
            }
            if let Some(range) = block.range {
                self.ranges[range].end_line = self.end_of(block.comment);
            }
        }
    }

    /// The last line of a block: that of its last token, or of a comment of it behind that.
    fn end_of(&mut self, comment: Option<usize>) -> u32 {
        match comment.and_then(|index| self.comments.get_mut(index)) {
            Some(comment) if comment.line > self.last => {
                comment.ends_block = true;
                comment.line
            }
            _ => self.last,
        }
    }

    fn close_bracket(&mut self) {
        if let Some(range) = self.brackets.pop() {
            self.ranges[range].end_line = self.last;
        }
    }

    /// A comment within a logical line counts as a token. At a line's start it is of the blocks whose first lines are
    /// less indented; those are the outermost ones, as the levels rise.
    fn comment(&mut self, line: u32, start: usize) {
        // Behind a backslash a comment ends the line that the backslash goes on with; within brackets it may have its own.
        if !self.in_line || !self.brackets.is_empty() && self.last < line {
            self.comments.push(CommentLine { line, ends_block: false });
        }
        if self.in_line {
            self.last = line;
            return;
        }
        let blanks = Blanks::of(self.text.get(..start).unwrap_or_default());
        let count = self.blocks.partition_point(|block| block.header.below(blanks));
        if let Some(block) = self.blocks[..count].last_mut() {
            block.comment = self.comments.len().checked_sub(1);
        }
    }

    /// All ranges, once the tokens have ended.
    fn finish(mut self) -> Vec<FoldingRange> {
        while !self.blocks.is_empty() {
            self.close_block();
        }
        while !self.brackets.is_empty() {
            self.close_bracket();
        }
        let mut ranges = self.ranges;
        ranges.extend(runs(&self.comments));
        ranges.retain(|range| range.start_line < range.end_line);
        // Two parts that are in order already, which the sort puts together in one pass.
        ranges.sort_by_key(|range| (range.start_line, Reverse(range.end_line), range.kind));
        ranges.dedup_by_key(|range| (range.start_line, range.end_line));
        ranges
    }
}

/// Comment lines that follow one another; one by itself is a range of one line.
fn runs(mut comments: &[CommentLine]) -> impl Iterator<Item = FoldingRange> + '_ {
    std::iter::from_fn(move || {
        let follows = |pair: &&[CommentLine]| pair[0].line.checked_add(1) == Some(pair[1].line) && !pair[0].ends_block;
        let (start_line, count) = (comments.first()?.line, 1 + comments.windows(2).take_while(follows).count());
        let (run, rest) = comments.split_at(count);
        comments = rest;
        Some(FoldingRange { start_line, end_line: run.last()?.line, kind: FoldingKind::Comments })
    })
}

/// The blanks at a line's start, counted as the reader counts them.
#[derive(Clone, Copy, Default, PartialEq, Eq)]
struct Blanks {
    tabs: usize,
    spaces: usize,
}

impl Blanks {
    /// The blanks at the end of what stands before a line's first token; a form feed begins anew.
    fn of(before: &[u8]) -> Blanks {
        let mut blanks = Blanks::default();
        for byte in before.iter().rev() {
            match byte {
                b'\t' => blanks.tabs += 1,
                b' ' => blanks.spaces += 1,
                _ => break,
            }
        }
        blanks
    }

    /// Whether the other blanks are deeper.
    fn below(self, other: Blanks) -> bool {
        self != other && self.tabs <= other.tabs && self.spaces <= other.spaces
    }
}
