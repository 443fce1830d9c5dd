//! Which lines fold, said once more and plainly: each range is looked for by itself, in as many passes as it takes.
use crate::plain_lines;
use sroviemat::{FoldingKind, FoldingRange, Kind, Operator, Token};
use std::cmp::Reverse;

/// What `sroviemat::folding_ranges` is to answer.
pub fn folds(text: &str, tokens: &[Token]) -> Vec<FoldingRange> {
    let plain = Plain { text, tokens, lines: plain_lines::lines(text) };
    let range = |kind| move |(start_line, end_line)| FoldingRange { start_line, end_line, kind };
    let all = || 0..tokens.len();
    let blocks: Vec<(u32, u32)> = all().filter_map(|i| plain.block(i)).collect();
    let brackets = all().filter_map(|i| plain.bracket(i));
    let lines: Vec<u32> = all().filter(|&i| plain.is_comment_line(i)).map(|i| plain.line(tokens[i].start)).collect();
    let runs = runs(&lines, |line| blocks.iter().any(|block| block.1 == line));
    let mut folds: Vec<FoldingRange> = blocks.iter().copied().map(range(FoldingKind::Block)).collect();
    folds.extend(brackets.map(range(FoldingKind::Bracket)));
    folds.extend(runs.into_iter().map(range(FoldingKind::Comments)));
    folds.retain(|fold| fold.start_line < fold.end_line);
    folds.sort_by_key(|fold| (fold.start_line, Reverse(fold.end_line)));
    folds.dedup();
    folds
}

/// The first and the last of the lines that follow one another, with no block's end before the last.
fn runs(lines: &[u32], ends_block: impl Fn(u32) -> bool) -> Vec<(u32, u32)> {
    let mut runs: Vec<(u32, u32)> = Vec::new();
    for &line in lines {
        match runs.last_mut() {
            Some(run) if run.1 + 1 == line && !ends_block(run.1) => run.1 = line,
            _ => runs.push((line, line)),
        }
    }
    runs
}

fn opens(kind: Kind) -> bool {
    matches!(kind, Kind::Operator(Operator::Lpar | Operator::Lsqb | Operator::Lbrace))
}

fn closes(kind: Kind) -> bool {
    matches!(kind, Kind::Operator(Operator::Rpar | Operator::Rsqb | Operator::Rbrace))
}

struct Plain<'a> {
    text: &'a str,
    tokens: &'a [Token],
    lines: Vec<(usize, &'a str)>,
}

impl Plain<'_> {
    fn line(&self, place: u32) -> u32 {
        plain_lines::line_of(&self.lines, place as usize)
    }

    /// Tabs and spaces before a place, back to what is neither.
    fn blanks(&self, place: u32) -> (usize, usize) {
        let before = &self.text[..place as usize];
        let blanks = &before[before.trim_end_matches(&['\t', ' '][..]).len()..];
        (blanks.matches('\t').count(), blanks.matches(' ').count())
    }

    /// Whether a token says something by itself, and does not just end a line or a level.
    fn is_said(&self, i: usize) -> bool {
        let kind = self.tokens[i].kind;
        !matches!(kind, Kind::Newline | Kind::Indent | Kind::Dedent) && !kind.is_trivia()
    }

    /// Whether what stands there goes on with a logical line.
    fn in_line(&self, i: usize) -> bool {
        let before = self.tokens[..i].iter().rev().find(|token| !token.kind.is_trivia());
        before.map_or(false, |token| token.kind != Kind::Newline)
    }

    fn in_brackets(&self, i: usize) -> bool {
        (0..i).any(|opener| opens(self.tokens[opener].kind) && self.end_of(opener, opens, closes) > i)
    }

    /// Whether a comment is alone in its line, and goes on with no line before it but within brackets.
    fn is_comment_line(&self, i: usize) -> bool {
        let before = &self.text[..self.tokens[i].start as usize];
        let left = before.trim_end_matches(&['\t', ' ', '\x0c', '\u{feff}'][..]);
        self.tokens[i].kind == Kind::Comment
            && (left.is_empty() || left.ends_with(&['\n', '\r'][..]))
            && (!self.in_line(i) || self.in_brackets(i))
    }

    /// The index of what closes that which opens here, or the end of the tokens.
    fn end_of(&self, i: usize, opens: fn(Kind) -> bool, closes: fn(Kind) -> bool) -> usize {
        let mut depth = 0;
        for (j, token) in self.tokens.iter().enumerate().skip(i) {
            depth += i32::from(opens(token.kind)) - i32::from(closes(token.kind));
            if depth == 0 {
                return j;
            }
        }
        self.tokens.len()
    }

    fn end_of_block(&self, i: usize) -> usize {
        self.end_of(i, |kind| kind == Kind::Indent, |kind| kind == Kind::Dedent)
    }

    /// The blanks of the line that opens a block: those of the innermost block around it.
    fn header_blanks(&self, i: usize) -> (usize, usize) {
        let around = |&k: &usize| self.tokens[k].kind == Kind::Indent && self.end_of_block(k) > i;
        (0..i).rev().find(around).map_or((0, 0), |k| self.blanks(self.tokens[k].end))
    }

    /// The lines of the block that opens here: from its header to the last token, or to the last comment that is
    /// within a logical line or deeper than the header.
    fn block(&self, i: usize) -> Option<(u32, u32)> {
        let header = self.tokens[..i].iter().rev().find(|token| token.kind == Kind::Newline)?;
        if self.tokens[i].kind != Kind::Indent {
            return None;
        }
        let outside = self.header_blanks(i);
        let deeper = |(tabs, spaces)| (tabs, spaces) != outside && tabs >= outside.0 && spaces >= outside.1;
        let of_it = |&k: &usize| {
            let comment = self.tokens[k].kind == Kind::Comment;
            self.is_said(k) || comment && (self.in_line(k) || deeper(self.blanks(self.tokens[k].start)))
        };
        let last = (i..self.end_of_block(i)).rev().find(of_it)?;
        Some((self.line(header.start), self.line(self.tokens[last].end)))
    }

    /// The lines of the brackets that open here: to the closer, or to the last token or comment.
    fn bracket(&self, i: usize) -> Option<(u32, u32)> {
        if !opens(self.tokens[i].kind) {
            return None;
        }
        let closer = self.end_of(i, opens, closes);
        let of_it = |&k: &usize| self.is_said(k) || self.tokens[k].kind == Kind::Comment;
        let last = if closer < self.tokens.len() { closer } else { (i..closer).rev().find(of_it)? };
        Some((self.line(self.tokens[i].start), self.line(self.tokens[last].end)))
    }
}
