//! Document 01's rules of re-reading and document 02's of the bracket audit, said once more in plain Rust, apart from
//! our crates: what our doors are held against. What stands behind a cut is read by the original.
use oracle::{
    answer,
    lines::{line_at, Lines},
    utf8, Answer, ANSWER, END, KIND, LINE, MODES, MOST_BYTES, START, STRIDE,
};

/// No reading writes more records.
pub const MOST_RECORDS: u32 = 33_554_433;

/// The most levels that may be open.
pub const MOST_LEVELS: usize = 100;

/// The most brackets that may be open.
pub const MOST_OPEN: usize = 200;

/// The kinds that modes 3 to 5 add.
pub const COMMENT: u32 = 7;
pub const NON_LOGICAL_NEWLINE: u32 = 8;

/// Why kept records are unsound by the cut's line alone (document 02 item 4).
pub const OTHER_LINE: &str = "a cut on another line";

/// Tabs, then spaces.
pub type Level = (usize, usize);

/// A question to the door of re-reading: the new text, a mode, the row as it is before, the old count, and A.
#[derive(Clone)]
pub struct Asked {
    pub text: Vec<u8>,
    pub mode: u32,
    pub row: Vec<u32>,
    pub old: u32,
    pub a: u32,
}

/// What the rules say before a record is read.
pub enum Verdict {
    /// The answer's four numbers, and why.
    Refused([u32; ANSWER], &'static str),
    /// There is no cut.
    Whole,
    From(Cut),
}

/// So many records are kept; the reading goes on at a place, a line's start, with levels open.
pub struct Cut {
    pub kept: usize,
    pub end: usize,
    pub levels: Vec<Level>,
}

/// The refusals in document 01's order, but code 4; then the cut.
pub fn verdict(asked: &Asked) -> Verdict {
    let Asked { text, mode, row, old, a } = asked;
    let refused = |code, why| Verdict::Refused([code, 0, 0, 0], why);
    if text.len() > MOST_BYTES {
        return refused(1, "a text too long");
    }
    if *mode >= MODES {
        return refused(2, "no such mode");
    }
    if let Err((place, fault)) = utf8::text(text) {
        return Verdict::Refused([3, 0, place, fault as u32], "bad UTF-8");
    }
    if *old as usize > row.len() / STRIDE {
        return refused(5, "an old count above the row's records");
    }
    if *old > MOST_RECORDS {
        return refused(5, "an old count above 33,554,433");
    }
    if *a as usize > text.len() {
        return refused(5, "an A above the text's length");
    }
    match cut_of(asked).map(|cut| sound(text, &row[..STRIDE * (cut + 1)])) {
        None => Verdict::Whole,
        Some(Ok(cut)) => Verdict::From(cut),
        Some(Err(why)) => refused(6, why),
    }
}

/// Which record is the cut: of the first ones, as many as the old count says, the last Newline that ends below A.
pub fn cut_of(asked: &Asked) -> Option<usize> {
    let mut records = asked.row.chunks_exact(STRIDE).take(asked.old as usize);
    records.rposition(|record| record[KIND] == 0 && record[END] < asked.a)
}

/// The cut, if the kept records, of which it is the last, are sound. The line is tested last: where it is the reason,
/// there is no other.
fn sound(text: &[u8], kept: &[u32]) -> Result<Cut, &'static str> {
    let cut = &kept[kept.len() - STRIDE..];
    let end = cut[END] as usize;
    line_ends(text, end)?;
    let levels = levels(text, kept, end)?;
    if cut[LINE] != line_at(text, cut[START] as usize) {
        return Err(OTHER_LINE);
    }
    Ok(Cut { kept: kept.len() / STRIDE, end, levels })
}

/// A line of the text ends at a place; the place is below the text's length.
pub fn line_ends(text: &[u8], end: usize) -> Result<(), &'static str> {
    match (text[..end].last(), text[end]) {
        (None, _) => Err("a cut at 0"),
        (Some(b'\r'), b'\n') => Err("a cut within a CR LF"),
        (Some(b'\r' | b'\n'), _) => Ok(()),
        _ => Err("a cut after no newline"),
    }
}

/// The levels that kept records leave open, if they are sound.
fn levels(text: &[u8], kept: &[u32], cut: usize) -> Result<Vec<Level>, &'static str> {
    let mut levels = Vec::new();
    for record in kept.chunks(STRIDE) {
        let (start, end) = (record[START] as usize, record[END] as usize);
        if start > end {
            return Err("a start above its end");
        }
        if end > cut {
            return Err("an end behind the cut");
        }
        match record[KIND] {
            1 if levels.len() == MOST_LEVELS => return Err("a 101st level"),
            1 => levels.push(level(&text[start..end])?),
            2 => drop(levels.pop().ok_or("a Dedent too many")?),
            _ => {}
        }
    }
    Ok(levels)
}

fn level(blanks: &[u8]) -> Result<Level, &'static str> {
    let tabs = blanks.iter().take_while(|&&byte| byte == b'\t').count();
    let others = blanks[tabs..].iter().filter(|&&byte| byte != b' ');
    match others.min_by_key(|&&byte| byte == b'\t') {
        _ if blanks.is_empty() => Err("an empty Indent"),
        None => Ok((tabs, blanks.len() - tabs)),
        Some(b'\t') => Err("an Indent of spaces, then tabs"),
        Some(_) => Err("an Indent over other bytes"),
    }
}

/// What the bracket audit finds first.
pub enum Found {
    Nothing,
    /// A closer with nothing open.
    Unopened,
    /// A closer whose kind is not that of the latest opener still open.
    Mismatched,
    /// An opener with 200 open already.
    TooMany,
    /// An old count above the row's records.
    Refused,
}

/// The bracket audit, document 02 item 3: what is found first, and the answer. A closer is right only if it closes the
/// latest opener that is still open, of its own kind; up to 200 may be open. ( ) [ ] { } are 57 to 62. The openers are
/// kept in `open`, which is lent, so that many rows can share its memory.
pub fn audit(row: &[u32], old: u32, open: &mut Vec<u32>) -> (Found, [u32; ANSWER]) {
    if old as usize > row.len() / STRIDE {
        return (Found::Refused, [5, 0, 0, 0]);
    }
    open.clear();
    for index in 0..old {
        match row[STRIDE * index as usize + KIND] {
            57 | 59 | 61 if open.len() == MOST_OPEN => return (Found::TooMany, [34, 0, index, 0]),
            opener @ (57 | 59 | 61) => open.push(opener),
            closer @ (58 | 60 | 62) => match open.pop() {
                None => return (Found::Unopened, [0, 0, index, 0]),
                Some(opener) if opener + 1 != closer => return (Found::Mismatched, [0, 0, index, 0]),
                Some(_) => {}
            },
            _ => {}
        }
    }
    (Found::Nothing, [0, 0, old, 0])
}

/// The original's reading from a cut on: records and place as they stand in the text. The original reads texts from
/// their start, so that what stands before the cut is replaced by lines that open the same levels, one each. No text
/// opens levels that do not rise; of such, `below` are left out, those under the rising ones at the end.
pub struct Rest {
    pub answer: Answer,
    pub below: usize,
}

pub fn rest(text: &[u8], mode: u32, cut: &Cut) -> Rest {
    let below = cut.levels.len() - rising(&cut.levels);
    let mut lines = b"x\n".to_vec();
    for &(tabs, spaces) in &cut.levels[below..] {
        lines.extend("\t".repeat(tabs).bytes().chain(" ".repeat(spaces).bytes()));
        lines.extend(b"x\n");
    }
    let (before, of_lines) = (lines.len(), 2 + 3 * (cut.levels.len() - below));
    lines.extend(&text[cut.end..]);
    let mut answer = answer(&lines, mode, 0);
    assert!(answer.records.len() >= of_lines, "the original does not read the lines before the cut");
    answer.records.drain(..of_lines);
    let place = |at: u32| (at as usize - before + cut.end) as u32;
    let lines = Lines::of(text, 0);
    for record in &mut answer.records {
        *record = lines.record(record[KIND], place(record[START]), place(record[END]));
    }
    answer.place = place(answer.place);
    answer.count = answer.records.len() as u32;
    Rest { answer, below }
}

/// How many of the last levels rise.
fn rising(levels: &[Level]) -> usize {
    let above = |low: Level, high: Level| high.0 >= low.0 && high.1 >= low.1 && high != low;
    let breaks = (1..levels.len()).rev().find(|&at| !above(levels[at - 1], levels[at]));
    levels.len() - breaks.unwrap_or(0)
}
