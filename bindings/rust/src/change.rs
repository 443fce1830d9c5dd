//! Which tokens an edit changed.
use crate::words::{END, KIND, LINE, START, STRIDE};
use std::ops::Range;

/// Which tokens of a document an edit changed.
///
/// The tokens before `old` are as they were. Those behind `old` are as they were too, but for their places and lines, which
/// have moved by so many bytes and lines: they are the ones behind `new`. A token stays if it is of the same kind over the
/// same bytes, so one that the edit touched has changed even where its numbers have not. Of the ranges that say so, these
/// are the shortest; only where there is no memory to compare the tokens they reach to the end.
///
/// ```
/// use sroviemat::{Document, Mode, Token};
///
/// let mut document = Document::new("a = 1\nb = 2\nc = 3\n", Mode::Module)?;
/// // What an editor keeps for each token.
/// let mut marks: Vec<Token> = document.tokens().collect();
///
/// let change = document.replace(10..11, "f(\n2)")?;
/// assert_eq!((&change.old, &change.new, change.moved, change.moved_lines), (&(6..7), &(6..10), 4, 1));
/// marks.splice(change.old, document.row().slice(change.new.clone()).unwrap());
/// for mark in &mut marks[change.new.end..] {
///     *mark = mark.moved(change.moved).moved_lines(change.moved_lines);
/// }
/// assert!(document.tokens().eq(marks));
/// # Ok::<(), Box<dyn std::error::Error>>(())
/// ```
#[derive(Clone, Debug, PartialEq, Eq, Hash)]
#[non_exhaustive]
pub struct Change {
    /// The indices, before the edit, of the tokens that are no more.
    pub old: Range<usize>,
    /// The indices, after it, of the tokens in their stead.
    pub new: Range<usize>,
    /// How many bytes the tokens behind have moved: less than none towards the start.
    pub moved: isize,
    /// How many lines they have moved: how many line ends more the text has than before, less than none if it has fewer.
    pub moved_lines: isize,
}

impl Change {
    /// Whether no token changed; those behind the edit may have moved.
    pub fn is_empty(&self) -> bool {
        self.old.is_empty() && self.new.is_empty()
    }
}

/// An edit: the bytes from `start` on that it takes away and puts there, without those that both have in common at their
/// start and end.
pub(crate) struct Edit {
    /// All bytes before it are as they were.
    pub start: usize,
    /// Where what it takes away ends in the old text. All bytes behind are as they were.
    old_end: usize,
    moved: isize,
    moved_lines: isize,
}

impl Edit {
    /// How many lines it moves the text behind it, the text around it tells.
    pub fn new(start: usize, removed: &[u8], with: &[u8], moved_lines: isize) -> Edit {
        let same = |(old, new): &(&u8, &u8)| old == new;
        let first = removed.iter().zip(with).take_while(same).count();
        let last = removed[first..].iter().rev().zip(with[first..].iter().rev()).take_while(same).count();
        // Neither is longer than the longest text.
        let moved = with.len() as isize - removed.len() as isize;
        Edit { start: start + first, old_end: start + removed.len() - last, moved, moved_lines }
    }

    /// What changed among records that were read again: their old indices, and those before and after. Without those
    /// before, all did.
    pub fn change(&self, old: Range<usize>, before: &[u32], after: &[u32]) -> Change {
        let (before, after) = (before.chunks_exact(STRIDE), after.chunks_exact(STRIDE));
        let new = old.start..old.start + after.len();
        let common = before.len().min(after.len());
        let stays = |&(before, after): &(&[u32], &[u32])| before == after && before[END] as usize <= self.start;
        let first = before.clone().zip(after.clone()).take_while(stays).count();
        let moves = |&(before, after): &(&[u32], &[u32])| {
            before[START] as usize >= self.old_end && self.moved(before) == *after
        };
        let last = before.rev().zip(after.rev()).take(common - first).take_while(moves).count();
        let between = |range: Range<usize>| range.start + first..range.end - last;
        Change { old: between(old), new: between(new), moved: self.moved, moved_lines: self.moved_lines }
    }

    /// A record behind the edit, in the new text.
    fn moved(&self, record: &[u32]) -> [u32; STRIDE] {
        let place = |at: usize| record[at].wrapping_add(self.moved as u32);
        [record[KIND], place(START), place(END), record[LINE].wrapping_add(self.moved_lines as u32)]
    }
}
