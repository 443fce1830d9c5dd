//! One question asked of both sides.
use crate::ours;
use oracle::{answer, Answer, ANSWER, STRIDE};

/// Numbers behind the row that our reader must not reach.
const GUARD: usize = 8;

/// How many bytes may be read while a question is made smaller.
const SHRINKING: usize = 1 << 28;

/// A text, a mode, a start, and the length of the row in numbers.
#[derive(Clone, PartialEq, Eq)]
pub struct Question {
    pub text: Vec<u8>,
    pub mode: u32,
    pub start: u32,
    pub row: usize,
}

/// Asks both sides, counts, and keeps the smallest question on which they differ.
#[derive(Default)]
pub struct Checker {
    row: Vec<u32>,
    pub texts: u64,
    pub questions: u64,
    pub differences: u64,
    pub smallest: Option<Question>,
}

impl Checker {
    /// A text in a mode at a start, with rows of the lengths that `rows` gives for the need in numbers.
    pub fn ask<const N: usize>(&mut self, text: &[u8], mode: u32, start: u32, rows: impl FnOnce(usize) -> [usize; N]) {
        let whole = answer(text, mode, start);
        self.texts += 1;
        for row in rows(STRIDE * whole.records.len()) {
            self.questions += 1;
            if self.differs(&whole, text, mode, start, row) {
                self.differences += 1;
                self.keep(Question { text: text.to_vec(), mode, start, row });
            }
        }
    }

    /// Whether our numbers, records, or what lies behind the records are not what the original's answer makes them.
    fn differs(&mut self, whole: &Answer, text: &[u8], mode: u32, start: u32, row: usize) -> bool {
        let (numbers, records) = whole.in_room(row / STRIDE);
        let got = self.read(text, mode, start, row);
        let (written, untouched) = self.row[..row + GUARD].split_at(STRIDE * records.len());
        got != numbers
            || !written.iter().eq(records.iter().flatten())
            || !untouched.iter().zip(STRIDE * records.len()..).all(|(&number, at)| number == blank(at))
    }

    /// Our answer; the row and the guard behind it are filled with blanks first.
    fn read(&mut self, text: &[u8], mode: u32, start: u32, row: usize) -> [u32; ANSWER] {
        if self.row.len() < row + GUARD {
            self.row.resize(row + GUARD, 0);
        }
        for (at, number) in self.row[..row + GUARD].iter_mut().enumerate() {
            *number = blank(at);
        }
        ours::read(text, mode, start, &mut self.row[..row])
    }

    fn keep(&mut self, question: Question) {
        if self.smallest.as_ref().map_or(true, |kept| size(&question) < size(kept)) {
            self.smallest = Some(question);
        }
    }

    /// Takes over what another checker counted and kept.
    pub fn join(&mut self, other: Checker) {
        self.texts += other.texts;
        self.questions += other.questions;
        self.differences += other.differences;
        other.smallest.into_iter().for_each(|question| self.keep(question));
    }

    /// A question made smaller for as long as the two sides differ on it: plainer numbers, then a smaller text.
    pub fn shrink(&mut self, mut question: Question) -> Question {
        for (mode, start) in [(0, 0), (0, question.start), (question.mode, 0)] {
            let plainer = Question { mode, start, ..question.clone() };
            question = self.still_differs(plainer).unwrap_or(question);
        }
        let Question { text, mode, start, mut row } = question;
        let text = smaller(text, |part| {
            let found = self.still_differs(Question { text: part.to_vec(), mode, start, row });
            row = found.as_ref().map_or(row, |found| found.row);
            found.is_some()
        });
        Question { text, mode, start, row }
    }

    /// The question itself, or with a row long enough, if the sides differ on one of them.
    fn still_differs(&mut self, question: Question) -> Option<Question> {
        let whole = answer(&question.text, question.mode, question.start);
        [question.row, STRIDE * whole.records.len()].into_iter().find_map(|row| {
            let Question { text, mode, start, .. } = &question;
            self.differs(&whole, text, *mode, *start, row).then(|| Question { row, ..question.clone() })
        })
    }

    /// A question with both sides' answers, for people.
    pub fn show(&mut self, question: &Question) -> String {
        let Question { text, mode, start, row } = question;
        let whole = answer(text, *mode, *start);
        let (numbers, records) = whole.in_room(row / STRIDE);
        let got = self.read(text, *mode, *start, *row);
        let written: Vec<u32> = records.iter().flatten().copied().collect();
        let text: String = text.iter().flat_map(|&byte| std::ascii::escape_default(byte)).map(char::from).collect();
        format!(
            "    text \"{text}\" mode {mode} start {start} row {row}\n    original {numbers:?} {written:?}\n    ours     {got:?} {:?}",
            shown(&self.row[..*row])
        )
    }
}

/// A text made smaller for as long as something holds of it: parts left out, large ones first. One text is tried at a
/// time, and SHRINKING bytes in all.
pub fn smaller(mut text: Vec<u8>, mut holds: impl FnMut(&[u8]) -> bool) -> Vec<u8> {
    let (mut part, mut left) = (text.len(), SHRINKING);
    while part > 0 {
        let mut at = 0;
        while at + part <= text.len() && left > text.len() {
            left -= text.len();
            let less = [&text[..at], &text[at + part..]].concat();
            if holds(&less) {
                text = less;
            } else {
                at += part;
            }
        }
        part /= 2;
    }
    text
}

/// The number at a place of a row that nothing was written to; no kind, and hardly a place of a text.
fn blank(at: usize) -> u32 {
    0xf00d_0000 ^ at as u32
}

/// A row up to the last number that was written.
fn shown(row: &[u32]) -> &[u32] {
    let end = (0..row.len()).rev().find(|&at| row[at] != blank(at)).map_or(0, |at| at + 1);
    &row[..end]
}

/// Shorter texts first, then in order.
fn size(question: &Question) -> (usize, &[u8], u32, u32, usize) {
    (question.text.len(), &question.text, question.mode, question.start, question.row)
}
