//! Random edits: a re-reading must leave what a whole reading of the new text by the original leaves.
//!
//! A text is read into a row, then edited several times; the row that one re-reading leaves is the next one's. A row
//! belongs to the last text that was read: after a refusal (bad UTF-8, no room) it is as it was, and the next A counts
//! from that text. What is bad UTF-8, Rust's library says (see oracle::answer). A row with wrong kinds or lines is asked
//! about once and not edited further.
use crate::{
    ours,
    parts::Share,
    reread::{Expected, Rechecker},
    rules::{verdict, Asked, Verdict, COMMENT, NON_LOGICAL_NEWLINE},
};
use oracle::{
    answer,
    texts::{nested, program, random, typed},
    Answer, Numbers, Record, ANSWER, KIND, LINE, STRIDE,
};

/// The topic by which rows are counted that are altered before the cut, and how they are.
pub const ROW: &str = "row";
pub const WRONG_KINDS: &str = "with wrong kinds before the cut";
pub const WRONG_LINES: &str = "with wrong lines before the cut";

pub fn edits(share: Share, count: usize, seed: u64, checker: &mut Rechecker) {
    let mut numbers = Numbers::new(seed ^ 0xed17 ^ (share.thread as u64) << 32);
    let mine = (count / share.threads) as u64;
    while checker.questions < mine {
        let mode = numbers.mode();
        let mut edited = Edited::new(some_text(&mut numbers), mode, &mut numbers, checker);
        for _ in 0..1 + numbers.below(8) {
            if checker.questions < mine {
                edited.edit(&mut numbers, checker);
            }
        }
    }
}

/// A text that is edited.
pub struct Edited {
    mode: u32,
    text: Vec<u8>,
    /// What the original says of the text.
    pub whole: Answer,
    /// The row, the text that was last read into it, and how many records that left.
    row: Vec<u32>,
    told: Vec<u8>,
    count: u32,
}

impl Edited {
    /// A text, read into a row that may be too short.
    pub fn new(text: Vec<u8>, mode: u32, numbers: &mut Numbers, checker: &mut Rechecker) -> Edited {
        let whole = answer(&text, mode, 0);
        let need = STRIDE * whole.records.len();
        let length = match numbers.below(8) {
            0 => numbers.below(need + 1),
            1..=2 => need + numbers.below(12),
            3..=5 => need + numbers.below(200),
            _ => STRIDE * (2 * text.len() + 101) + numbers.below(100),
        };
        let mut row: Vec<u32> = (0..length).map(|_| numbers.next() as u32).collect();
        let before = row.clone();
        let got = ours::read(&text, mode, 0, &mut row);
        if !Expected::of(0, &whole, length / STRIDE).met(got, &before, &row) {
            checker.differ(&Asked { text: text.clone(), mode, row: before, old: 0, a: 0 });
        }
        let (name, told, count) = if is_told(got) {
            ("read at first, with records", text.clone(), got[1])
        } else {
            ("read at first, refused", Vec::new(), 0)
        };
        checker.tallies.add("text", name);
        Edited { mode, text, whole, row, told, count }
    }

    /// One edit, and the re-reading after it.
    pub fn edit(&mut self, numbers: &mut Numbers, checker: &mut Rechecker) {
        let text = self.edited_text(numbers, checker);
        let same = text.iter().zip(&self.told).take_while(|(new, old)| new == old).count();
        let a = if numbers.once_in(4) { numbers.below(same + 1) } else { same } as u32;
        let whole = answer(&text, self.mode, 0);
        let mut asked = Asked { text, mode: self.mode, row: self.row.clone(), old: self.count, a };
        let kept = count_kept(&asked, &whole, checker);
        if !asked.row[..STRIDE * kept].iter().eq(whole.records.iter().take(kept).flatten()) {
            checker.differ(&asked);
        }
        let altered = alter(numbers, &mut asked.row[..STRIDE * kept], checker);
        let rest = Answer { records: whole.records.iter().skip(kept).copied().collect(), ..whole.clone() };
        let got = checker.ask(&asked, &Expected::of(kept, &rest, self.row.len() / STRIDE));
        if is_told(got) && !altered {
            self.row.copy_from_slice(checker.row());
            self.told.clone_from(&asked.text);
            self.count = got[1];
        }
        (self.text, self.whole) = (asked.text, whole);
    }

    /// The text with something put in, left out or replaced at a place of some kind; or as it was when last read.
    fn edited_text(&self, numbers: &mut Numbers, checker: &mut Rechecker) -> Vec<u8> {
        let often = if self.whole.code == 3 { 2 } else { 4 };
        if self.text != self.told && numbers.once_in(often) {
            checker.tallies.add("edit", "undone");
            return self.told.clone();
        }
        let places = places(&self.text, &self.whole.records);
        // At the start nothing can be kept, so that this is rare.
        let wanted = match numbers.below(32) {
            0 => &places[0].1[..],
            kind => places.get(1 + kind % places.len()).map_or(&[][..], |(_, of_kind)| of_kind),
        };
        let at = if wanted.is_empty() { numbers.below(self.text.len() + 1) } else { numbers.of(wanted) };
        for (name, _) in places.iter().filter(|(_, of_kind)| of_kind.contains(&at)) {
            checker.tallies.add("place", name);
        }
        let most = self.text.len() - at;
        let out = if numbers.once_in(8) { numbers.below(most + 1) } else { most.min(1 + numbers.below(2)) };
        let (name, out, put) = match numbers.below(3) {
            0 => ("insert", 0, typed(numbers)),
            1 => ("delete", out, Vec::new()),
            _ => ("replace", out, typed(numbers)),
        };
        checker.tallies.add("edit", name);
        if self.whole.code == 3 {
            checker.tallies.add("text", "ill-formed before the edit");
        }
        [&self.text[..at], &put, &self.text[at + out..]].concat()
    }
}

/// Mostly programs that read to their end; rarely with as many levels as allowed, about.
pub fn some_text(numbers: &mut Numbers) -> Vec<u8> {
    let mut text = Vec::new();
    match numbers.below(128) {
        0 => text = (nested(97 + numbers.below(5), numbers.below(101), "a:") + "x\n").into(),
        1..=15 => random(numbers, &mut text),
        _ => program(numbers, &mut text),
    }
    text
}

/// Whether a reading wrote its records.
fn is_told(answer: [u32; ANSWER]) -> bool {
    answer[0] == 0 || answer[0] >= 20
}

/// How many records the rules keep, none if they refuse.
fn count_kept(asked: &Asked, whole: &Answer, checker: &mut Rechecker) -> usize {
    let verdict = verdict(asked);
    let (has, kept) = match &verdict {
        Verdict::Refused(..) => ("not looked for, refused", 0),
        Verdict::Whole => ("none", 0),
        Verdict::From(cut) if cut.levels.is_empty() => ("with no level open", cut.kept),
        Verdict::From(cut) => ("with levels open", cut.kept),
    };
    checker.tallies.add("cut", has);
    checker.count_added(asked, &verdict);
    checker.tallies.add_many("records", "kept", kept as u64);
    checker.tallies.add_many("records", "of whole readings", whole.records.len() as u64);
    kept
}

/// Alters some rows up to the cut, and counts; false if it did not.
fn alter(numbers: &mut Numbers, kept: &mut [u32], checker: &mut Rechecker) -> bool {
    let kinds = numbers.once_in(8) && alter_kinds(numbers, kept);
    let lines = numbers.once_in(8) && alter_lines(numbers, kept);
    for (altered, name) in [(kinds, WRONG_KINDS), (lines, WRONG_LINES)] {
        checker.tallies.add_many(ROW, name, altered.into());
    }
    kinds || lines
}

/// Gives some records another kind, but leaves what the cut and the levels are made of; false if none was altered.
fn alter_kinds(numbers: &mut Numbers, kept: &mut [u32]) -> bool {
    let mut altered = false;
    for record in kept.chunks_mut(STRIDE).filter(|record| record[KIND] > 2) {
        if numbers.once_in(3) {
            record[KIND] = numbers.of(&[3, 4, 7, 8, 9, 57, 58, 124, 140, 142, 1000, u32::MAX]);
            altered = true;
        }
    }
    altered
}

/// Gives some records before the cut, which is the last, another line; false if none was altered.
fn alter_lines(numbers: &mut Numbers, kept: &mut [u32]) -> bool {
    let mut altered = false;
    for record in kept.chunks_mut(STRIDE).rev().skip(1) {
        if numbers.once_in(3) {
            record[LINE] = other_line(numbers, record[LINE]);
            altered = true;
        }
    }
    altered
}

/// Another line than this one: next to it, a bit of the number away, or any.
pub fn other_line(numbers: &mut Numbers, line: u32) -> u32 {
    let bit = 1 << numbers.below(32);
    match numbers.below(4) {
        0 => line.wrapping_add(1),
        1 => line.wrapping_sub(1),
        2 => line ^ bit,
        _ => line.wrapping_add(1 + numbers.below(u32::MAX as usize) as u32),
    }
}

/// The places of each kind; a place may be of several, and of none.
fn places(text: &[u8], records: &[Record]) -> [(&'static str, Vec<usize>); 11] {
    let all = 0..=text.len();
    let of = |is: &dyn Fn(usize) -> bool| all.clone().filter(|&at| is(at)).collect::<Vec<_>>();
    let inside = |kinds: std::ops::RangeInclusive<u32>| {
        let of_kind = records.iter().filter(move |record| kinds.contains(&record[KIND]));
        of_kind.flat_map(|&[_, start, end, ..]| start as usize + 1..end as usize).collect::<Vec<_>>()
    };
    [
        ("at the start", vec![0]),
        ("at the end", vec![text.len()]),
        ("in a CR LF", of(&|at| text[..at].ends_with(b"\r") && text[at..].starts_with(b"\n"))),
        ("in a character's bytes", of(&|at| at < text.len() && (0x80..0xc0).contains(&text[at]))),
        ("in a string", inside(10..=23)),
        ("in a line's blanks", blanks(text)),
        ("in brackets", bracketed(records)),
        ("at a line's start", of(&|at| at > 0 && matches!(text[at - 1], b'\r' | b'\n'))),
        ("in a word or number", [inside(3..=6), inside(100..=142)].concat()),
        ("in a comment", inside(COMMENT..=COMMENT)),
        ("at a newline of kind 8", loose_newlines(records)),
    ]
}

/// Places before and after a listed newline of a blank or comment line, or in brackets.
fn loose_newlines(records: &[Record]) -> Vec<usize> {
    let newlines = records.iter().filter(|record| record[KIND] == NON_LOGICAL_NEWLINE);
    newlines.flat_map(|&[_, start, end, ..]| [start as usize, end as usize]).collect()
}

/// Places before, between and after the blanks at a line's start.
fn blanks(text: &[u8]) -> Vec<usize> {
    let mut places = Vec::new();
    let mut at_start = true;
    for (at, byte) in text.iter().enumerate() {
        let blank = matches!(byte, b' ' | b'\t');
        if at_start && (blank || at > 0 && matches!(text[at - 1], b' ' | b'\t')) {
            places.push(at);
        }
        at_start = matches!(byte, b'\r' | b'\n') || at_start && blank;
    }
    places
}

/// Places behind an opening bracket and before the one that closes it.
fn bracketed(records: &[Record]) -> Vec<usize> {
    let mut places = Vec::new();
    let (mut open, mut from) = (0, 0);
    for &[kind, start, end, ..] in records {
        match kind {
            57 | 59 | 61 => {
                from = if open == 0 { end } else { from };
                open += 1;
            }
            58 | 60 | 62 => {
                open -= 1;
                if open == 0 {
                    places.extend(from as usize..=start as usize);
                }
            }
            _ => {}
        }
    }
    places
}
