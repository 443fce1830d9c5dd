//! The two forms of a reading against each other, both by our doors: what modes 3 to 5 list beyond modes 0 to 2 is
//! comments and newlines, all of them, and nothing else (document 02 item 1). The rule is said here in plain Rust, over
//! the records as they come:
//!
//! - Both readings end alike.
//! - Records of other kinds are the same, in order. One thing may differ: a `type` at a line's start whose look-ahead
//!   meets an added record at a count of zero or below is a Name in the fuller form, and perhaps a keyword in the
//!   other. A text without such a `type` meets the premise of document 02.
//! - An added record is a comment, from a `#` to before a newline or to the text's end, or it is one newline.
//! - Every record has the line of its start, by the rule in oracle::lines.
//! - None is left out: before, between and behind the records of the fuller form there is nothing but blanks and
//!   continuations, and a BOM at the text's start. Only an error drops some, and only from a line's start on.
use crate::{
    check::smaller,
    ours,
    parts::Share,
    rules::{COMMENT, NON_LOGICAL_NEWLINE},
    tallies::Tallies,
};
use oracle::{lines::Lines, texts::random, Numbers, Record, ANSWER, FULL, KIND, STRIDE};
use std::{fs, path::PathBuf};

const NEWLINE: u32 = 0;
const DEDENT: u32 = 2;
const NAME: u32 = 3;
const EQUAL: u32 = 30;
const OPENING: u32 = 59;
const CLOSING: u32 = 60;
const MATCH: u32 = 140;
const TYPE: u32 = 142;

/// The topics by which texts are counted, and what is counted of them.
const FILES: &str = "files";
const RANDOM: &str = "random texts";
const MET: &str = "premise met";
const NOT_MET: &str = "premise not met";

/// Every file, in some mode and its fuller form.
pub fn files(share: Share, files: &[PathBuf], forms: &mut Forms) {
    for (number, file) in share.of(files.iter().enumerate()) {
        // A file that cannot be read, or is gone since, counts as empty.
        forms.ask(&fs::read(file).unwrap_or_default(), number as u32 % FULL, FILES);
    }
}

/// So many random texts.
pub fn random_texts(share: Share, count: usize, seed: u64, forms: &mut Forms) {
    let mut numbers = Numbers::new(seed ^ 0xf0f ^ (share.thread as u64) << 32);
    let mut text = Vec::new();
    for _ in 0..count / share.threads {
        random(&mut numbers, &mut text);
        forms.ask(&text, numbers.mode() % FULL, RANDOM);
    }
}

/// Asks, counts, and keeps the smallest text, with its mode, of which the rule does not hold.
#[derive(Default)]
pub struct Forms {
    pub texts: u64,
    pub differences: u64,
    pub smallest: Option<(Vec<u8>, u32)>,
    pub tallies: Tallies,
}

impl Forms {
    fn ask(&mut self, text: &[u8], mode: u32, topic: &'static str) {
        self.texts += 1;
        match compared(text, mode) {
            Ok(seen) => self.count(&seen, topic),
            Err(_) => {
                self.differences += 1;
                self.keep((text.to_vec(), mode));
            }
        }
    }

    fn count(&mut self, seen: &Seen, topic: &'static str) {
        let sort = match seen {
            Seen { read: false, .. } => "refused",
            Seen { searches: 0, .. } => MET,
            _ => NOT_MET,
        };
        self.tallies.add(topic, sort);
        self.tallies.add_many("added", "comments", seen.comments);
        self.tallies.add_many("added", "newlines", seen.newlines);
        self.tallies.add_many("`type` that meets one", "a Name in both forms", seen.searches - seen.keywords);
        self.tallies.add_many("`type` that meets one", "a keyword without it", seen.keywords);
    }

    fn keep(&mut self, asked: (Vec<u8>, u32)) {
        if self.smallest.as_ref().map_or(true, |kept| asked.0.len() < kept.0.len()) {
            self.smallest = Some(asked);
        }
    }

    /// Takes over what another one counted and kept.
    pub fn join(&mut self, other: Forms) {
        self.texts += other.texts;
        self.differences += other.differences;
        self.tallies.join(other.tallies);
        other.smallest.into_iter().for_each(|asked| self.keep(asked));
    }

    /// Whether random texts of both sorts came up.
    pub fn of_both_sorts(&self) -> bool {
        [MET, NOT_MET].iter().all(|sort| self.tallies.of(RANDOM, sort) > 0)
    }
}

/// A text of which the rule does not hold, made smaller, for people.
pub fn show((text, mode): (Vec<u8>, u32)) -> String {
    let text = smaller(text, |part| compared(part, mode).is_err());
    let why = compared(&text, mode).err().unwrap_or("nothing");
    let shown = |mode| match reading(&text, mode) {
        Ok(Reading { answer, records }) => format!("    mode {mode} {answer:?} {records:?}"),
        Err(why) => format!("    mode {mode}: {why}"),
    };
    format!("    text \"{}\": {why}\n{}\n{}", text.escape_ascii(), shown(mode), shown(mode + FULL))
}

struct Reading {
    answer: [u32; ANSWER],
    records: Vec<Record>,
}

impl Reading {
    fn ending(&self) -> [u32; 3] {
        let [code, _, place, detail] = self.answer;
        [code, place, detail]
    }
}

/// What our doors say of a text, with room for its records and no more.
fn reading(text: &[u8], mode: u32) -> Result<Reading, &'static str> {
    let measured = ours::measure(text, mode, 0);
    let mut row = vec![0; STRIDE * measured[1] as usize];
    let answer = ours::read(text, mode, 0, &mut row);
    if answer != measured {
        return Err("reading does not answer as measuring does");
    }
    let records: Vec<Record> = row.chunks(STRIDE).map(|record| record.try_into().unwrap()).collect();
    if records.iter().any(|&[_, start, end, ..]| start > end || end as usize > text.len()) {
        return Err("a record outside the text");
    }
    let lines = Lines::of(text, 0);
    if records.iter().any(|&record @ [kind, start, end, ..]| record != lines.record(kind, start, end)) {
        return Err("a record on another line");
    }
    Ok(Reading { answer, records })
}

/// What came up in a text of which the rule holds: whether it was read and not refused, the added records, and how many
/// look-aheads of a `type` met one, some from what is a keyword without it.
#[derive(Default)]
struct Seen {
    read: bool,
    comments: u64,
    newlines: u64,
    searches: u64,
    keywords: u64,
}

/// The rule over a text's readings in a mode and in its fuller form.
fn compared(text: &[u8], mode: u32) -> Result<Seen, &'static str> {
    let (plain, full) = (reading(text, mode)?, reading(text, mode + FULL)?);
    if plain.ending() != full.ending() {
        return Err("the endings differ");
    }
    let mut seen = Seen { read: matches!(full.answer[0], 0 | 20..), ..Seen::default() };
    others(text, mode, &plain.records, &full.records, &mut seen)?;
    added(text, &full.records, &mut seen)?;
    gaps(text, &full)?;
    Ok(seen)
}

/// Records of other kinds are the same. A line starts after a Newline, an Indent or a Dedent and, in the first two
/// modes, at the text's start, and added records leave it at that.
fn others(text: &[u8], mode: u32, plain: &[Record], full: &[Record], seen: &mut Seen) -> Result<(), &'static str> {
    let mut plain = plain.iter();
    let mut line_start = mode < 2;
    for (at, &record) in full.iter().enumerate().filter(|(_, record)| !is_added(record[KIND])) {
        let &other = plain.next().ok_or("a record too many in the fuller form")?;
        let [kind, start, end, ..] = record;
        if line_start && text[start as usize..end as usize] == *b"type" && meets_added(&full[at + 1..]) {
            let mut keyword = record;
            keyword[KIND] = TYPE;
            if kind != NAME || ![record, keyword].contains(&other) {
                return Err("a `type` whose look-ahead meets an added record");
            }
            seen.searches += 1;
            seen.keywords += u64::from(other == keyword);
        } else if record != other {
            return Err("a record of another kind differs");
        }
        line_start = kind <= DEDENT;
    }
    plain.next().map_or(Ok(()), |_| Err("a record too few in the fuller form"))
}

fn is_added(kind: u32) -> bool {
    matches!(kind, COMMENT | NON_LOGICAL_NEWLINE)
}

/// Whether the look-ahead of a `type`, over the records behind it, meets an added one at a count of zero or below. It
/// goes on behind a name alone, up to an `=` at zero, a Newline, or anything but square brackets at zero or below.
fn meets_added(behind: &[Record]) -> bool {
    let Some(([NAME | MATCH..=TYPE, ..], behind)) = behind.split_first() else { return false };
    let mut count = 0;
    for &[kind, ..] in behind {
        match kind {
            OPENING => count += 1,
            CLOSING => count -= 1,
            NEWLINE => return false,
            _ if count > 0 => {}
            EQUAL if count == 0 => return false,
            _ => return is_added(kind),
        }
    }
    false
}

/// Added records have a comment's bytes, or a newline's.
fn added(text: &[u8], full: &[Record], seen: &mut Seen) -> Result<(), &'static str> {
    for &[kind, start, end, ..] in full {
        let [start, end] = [start, end].map(|place| place as usize);
        match kind {
            COMMENT if !is_comment(text, start, end) => return Err("not a comment's bytes"),
            NON_LOGICAL_NEWLINE if !is_newline(text, start, end) => return Err("not a newline's bytes"),
            COMMENT => seen.comments += 1,
            NON_LOGICAL_NEWLINE => seen.newlines += 1,
            _ => {}
        }
    }
    Ok(())
}

fn is_comment(text: &[u8], start: usize, end: usize) -> bool {
    let ends_line = |byte: &u8| matches!(byte, b'\r' | b'\n');
    let comment = &text[start..end];
    comment.starts_with(b"#") && !comment.iter().any(ends_line) && text.get(end).map_or(true, ends_line)
}

fn is_newline(text: &[u8], start: usize, end: usize) -> bool {
    match &text[start..end] {
        b"\r\n" => true,
        b"\r" => !text[end..].starts_with(b"\n"),
        b"\n" => !text[..start].ends_with(b"\r"),
        _ => false,
    }
}

/// No comment and no newline is left out.
fn gaps(text: &[u8], full: &Reading) -> Result<(), &'static str> {
    let mut at = if text.starts_with("\u{feff}".as_bytes()) { 3 } else { 0 };
    let mut line_start = true;
    for &[kind, start, end, ..] in &full.records {
        let gap = text.get(at..start as usize).ok_or("records that overlap")?;
        if !behind_blanks(gap).is_empty() {
            return Err("more than blanks before a record");
        }
        at = end as usize;
        line_start = kind == NEWLINE;
    }
    match behind_blanks(&text[at..]) {
        [_, ..] if full.answer[0] == 0 => Err("more than blanks behind the last record"),
        [b'#' | b'\r' | b'\n', ..] if !line_start => Err("an error drops what is not its line's start"),
        _ => Ok(()),
    }
}

/// What follows the spaces, tabs, form feeds and continuations.
fn behind_blanks(mut text: &[u8]) -> &[u8] {
    loop {
        text = match text {
            [b' ' | b'\t' | b'\x0c', rest @ ..] => rest,
            [b'\\', b'\r', b'\n', rest @ ..] | [b'\\', b'\r' | b'\n', rest @ ..] => rest,
            _ => return text,
        }
    }
}
