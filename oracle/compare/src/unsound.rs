//! Rows of every kind, also such as no reading leaves: the door of re-reading against the rules of rules.rs.
//!
//! Compared are the refusals, whole. Where the rules let the text be read on, the outcome is that of the original from
//! the cut on, with the levels that the rules rebuild; of levels that no text opens, what comes before the first line
//! that closes the rising ones (see rules::rest and Expected::begins). Always: the kept records, and the numbers behind
//! those that are written, are as they were.
use crate::{
    edits::{other_line, some_text, ROW, WRONG_LINES},
    ours,
    parts::Share,
    reread::{Expected, Rechecker},
    rules::{
        cut_of, line_ends, verdict, Asked, Cut, Verdict, COMMENT, MOST_LEVELS, MOST_RECORDS, NON_LOGICAL_NEWLINE,
        OTHER_LINE,
    },
};
use oracle::{
    answer,
    lines::{line_at, Lines},
    texts::nested,
    Numbers, Record, END, KIND, LINE, MODES, MOST_BYTES, START, STRIDE,
};

/// The topics by which is counted what the rules say, where the cuts are that they look at, and cases brought about.
const SAYS: &str = "the rules say";
const CUT_LINE: &str = "the cut's line";
const CUT_START: &str = "a sound cut's start";
const ALONE: &str = "alone";
const BESIDE: &str = "beside that of its start";
const ABOVE: &str = "above all of the text";

/// What must come up, by topic and name.
pub const CASES: [(&str, &str); 4] = [(ALONE, OTHER_LINE), (CUT_LINE, BESIDE), (CUT_LINE, ABOVE), (ROW, WRONG_LINES)];

/// So many questions of random rows; and the refusals' order, each unsound case alone, and rows as long as allowed.
pub fn unsound(share: Share, count: usize, seed: u64, checker: &mut Rechecker) {
    let mut numbers = Numbers::new(seed ^ 0x0dd ^ (share.thread as u64) << 32);
    if share.thread == 0 {
        order(checker);
        longest_row(checker);
    }
    for turn in 0..count / share.threads {
        let asked = match turn % 4 {
            0 => made_up(&mut numbers),
            1 => match alone(&mut numbers, &BREAKS[turn / 4 % BREAKS.len()], checker) {
                Some(asked) => asked,
                None => altered(&mut numbers),
            },
            _ => altered(&mut numbers),
        };
        ask(&asked, checker);
    }
}

fn ask(asked: &Asked, checker: &mut Rechecker) {
    let expected = expected(asked, checker);
    checker.ask(asked, &expected);
}

/// What the rules say, which is counted, and what is to come of it.
fn expected(asked: &Asked, checker: &mut Rechecker) -> Expected {
    let verdict = verdict(asked);
    let expected = checker.expected(asked, &verdict);
    let says = match (&verdict, &expected) {
        (Verdict::Refused(_, why), _) => why,
        (Verdict::Whole, _) => "read whole",
        (_, Expected::Begins { .. }) => "read on, with levels that no text opens",
        (Verdict::From(cut), _) if cut.levels.is_empty() => "read on, with no level",
        _ => "read on, with levels",
    };
    checker.tallies.add(SAYS, says);
    checker.count_added(asked, &verdict);
    match &verdict {
        Verdict::From(cut) => count_sound(asked, cut, checker),
        Verdict::Refused([6, ..], _) => checker.tallies.add(CUT_LINE, cut_line(asked)),
        _ => {}
    }
    expected
}

/// Counts where the start of a sound cut is, and rows with other wrong lines.
fn count_sound(asked: &Asked, cut: &Cut, checker: &mut Rechecker) {
    let start = asked.row[STRIDE * (cut.kept - 1) + START] as usize;
    let within = asked.text[..start].ends_with(b"\r") && asked.text[start..].starts_with(b"\n");
    let name = match line_at(&asked.text, cut.end) - line_at(&asked.text, start) {
        0 => "at its end",
        1 if within => "within its CR LF",
        1 => "on its line",
        _ => "on a line before",
    };
    checker.tallies.add(CUT_START, name);
    let lines = Lines::of(&asked.text, 0);
    let wrong = |record: &[u32]| record[LINE] != lines.at(record[START]);
    if asked.row[..STRIDE * cut.kept].chunks(STRIDE).any(wrong) {
        checker.tallies.add(ROW, WRONG_LINES);
    }
}

/// Which line the cut of an unsound row has, beside that of its start.
fn cut_line(asked: &Asked) -> &'static str {
    let cut = cut_of(asked).map(|cut| &asked.row[STRIDE * cut..]).expect("a row without a cut is not unsound");
    let (start, line) = (cut[START] as usize, cut[LINE]);
    match line_at(&asked.text, start) {
        _ if start > asked.text.len() => "of a start behind the text",
        right if line == right => "that of its start",
        right if line.abs_diff(right) == 1 => BESIDE,
        _ if line > line_at(&asked.text, asked.text.len()) => ABOVE,
        _ => "another of the text",
    }
}

/// A text with the row that its reading by the original leaves, its count, and any A; some numbers more in the row.
fn sound(numbers: &mut Numbers) -> Asked {
    let text = some_text(numbers);
    let mode = numbers.mode();
    let records = answer(&text, mode, 0).records;
    let mut row = records.concat();
    let most = numbers.of(&[1, 10, 1000]);
    row.extend((0..numbers.below(most)).map(|at| 0xf00d_0000 ^ at as u32));
    let a = text.len() - numbers.below(text.len() + 1) / numbers.of(&[1, 4]);
    Asked { text, mode, row, old: records.len() as u32, a: a as u32 }
}

/// A sound row, its text, its count and A, altered in a few places.
fn altered(numbers: &mut Numbers) -> Asked {
    let mut asked = sound(numbers);
    for _ in 0..numbers.below(4) {
        alter(numbers, &mut asked);
    }
    asked
}

fn alter(numbers: &mut Numbers, asked: &mut Asked) {
    let cut = cut_of(asked).map(|cut| STRIDE * cut);
    let Asked { text, mode, row, old, a } = asked;
    let (length, records) = (text.len(), row.len() / STRIDE);
    let place = |numbers: &mut Numbers| match numbers.below(8) {
        0 => numbers.next() as u32,
        1 => u32::MAX,
        _ => numbers.below(length + 2) as u32,
    };
    match numbers.below(24) {
        0 => *mode = numbers.next() as u32,
        1 => *old = numbers.below(records + 2) as u32,
        2 => *old = numbers.of(&[0, u32::MAX, records as u32 + 1, old.wrapping_sub(1), records as u32]),
        3 => *a = place(numbers),
        4 => row.truncate(numbers.below(row.len() + 1)),
        5 | 6 if length > 0 => text[numbers.below(length)] = numbers.of(b"\n\r \tx(\xc3"),
        _ if records == 0 => {}
        record => {
            let at = STRIDE * numbers.below(records);
            let other = STRIDE * numbers.below(records);
            match record {
                7..=10 => row[at + KIND] = numbers.of(&[0, 0, 1, 1, 2, 2, 3, 7, 8, 8, 58, 140, u32::MAX]),
                11 | 12 => row[at + START] = place(numbers),
                13 | 14 => row[at + END] = place(numbers),
                15 => row[at + numbers.of(&[START, END])] ^= 1,
                16 | 17 => row.copy_within(other..other + STRIDE, at),
                18 | 19 => row[at + LINE] = other_line(numbers, row[at + LINE]),
                20 | 21 => cut.into_iter().for_each(|cut| alter_cut(numbers, row, cut)),
                // the bytes next to where a record ends
                _ => {
                    let near = row[at + END] as usize + numbers.below(2);
                    if let Some(byte) = text.get_mut(near.wrapping_sub(1)) {
                        *byte = numbers.of(b"\n\r \tx");
                    }
                }
            }
        }
    }
}

/// Gives the cut, at this place of the row, another line, or another start up to its end.
fn alter_cut(numbers: &mut Numbers, row: &mut [u32], cut: usize) {
    if numbers.once_in(2) {
        row[cut + LINE] = other_line(numbers, row[cut + LINE]);
    } else {
        row[cut + START] = numbers.below(row[cut + END] as usize + 1) as u32;
    }
}

/// A short text of blanks, newlines and a few others, and records of any places in it, mostly with their lines; every
/// other time such as are sound, though hardly any reading would leave them.
fn made_up(numbers: &mut Numbers) -> Asked {
    let letters =
        [" ", " ", "\t", "\n", "\n", "\r", "x", "  ", "\r\n", "\n  x", "(", "\u{feff}", "match x:", "$", "#", "#c\n"];
    let text: Vec<u8> = (0..numbers.below(20)).flat_map(|_| numbers.of(&letters).bytes()).collect();
    let line_ends: Vec<usize> = (1..text.len()).filter(|&at| line_ends(&text, at).is_ok()).collect();
    let neat = numbers.once_in(2) && !line_ends.is_empty();
    let deep = numbers.once_in(20) && !line_ends.is_empty();
    let cut = if neat || deep { numbers.of(&line_ends) } else { text.len() };
    let blanks: Vec<usize> = (0..=cut).filter(|&at| blanks_before(&text, at) < at).collect();
    let lines = Lines::of(&text, 0);
    let mut row = Vec::new();
    let mut open = 0;
    for _ in 0..if deep { 98 + numbers.below(6) } else { numbers.below(8) } {
        let kind = if deep { 1 } else { numbers.of(&[0, 1, 1, 1, 2, 3, 7, 8]) };
        let end = if kind == 1 && !blanks.is_empty() { numbers.of(&blanks) } else { numbers.below(cut + 1) };
        let start = match kind {
            1 => blanks_before(&text, end),
            2 => end,
            _ => numbers.below(end + 1),
        };
        let fits = match kind {
            1 => start < end && open < MOST_LEVELS,
            2 => open > 0,
            _ => true,
        };
        if fits || !neat {
            open = if kind == 1 { open + 1 } else { open - usize::from(kind == 2 && open > 0) };
            row.extend(lines.record(kind, start as u32, end as u32));
        }
    }
    if neat || deep {
        let start = cut - numbers.below(3).min(cut);
        row.extend(lines.record(0, start as u32, cut as u32));
    }
    for record in row.chunks_mut(STRIDE) {
        if numbers.once_in(16) {
            record[LINE] = other_line(numbers, record[LINE]);
        }
    }
    let old = (row.len() / STRIDE) as u32;
    let most = numbers.of(&[10, 400]);
    row.extend((0..numbers.below(most)).map(|at| 0xf00d_0000 ^ at as u32));
    let mode = numbers.mode();
    let a = if neat || deep { cut + 1 } else { text.len() - numbers.below(text.len() + 1) / 4 };
    Asked { text, mode, row, old, a: a as u32 }
}

/// Where the tabs, then spaces that end at a place start.
fn blanks_before(text: &[u8], end: usize) -> usize {
    let behind = |to: usize, byte: u8| text[..to].iter().rposition(|&b| b != byte).map_or(0, |at| at + 1);
    behind(behind(end, b' '), b'\t')
}

/// An unsound case: what rules.rs calls it, and how a sound row with so many records kept, up to a place, is brought to
/// it; false if this row cannot be.
type Break = (&'static str, fn(&mut Numbers, &mut Asked, usize, usize) -> bool);

const BREAKS: [Break; 12] = [
    ("a start above its end", |numbers, asked, kept, _| {
        let at = STRIDE * numbers.below(kept);
        asked.row[at + START] = asked.row[at + END] + 1;
        true
    }),
    ("an end behind the cut", |numbers, asked, kept, end| {
        asked.row[STRIDE * numbers.below(kept) + END] = end as u32 + 1;
        true
    }),
    ("an empty Indent", |numbers, asked, kept, _| {
        let Some(at) = indent(numbers, asked, kept, 1) else { return false };
        asked.row[at + START] = asked.row[at + END];
        true
    }),
    ("an Indent over other bytes", |numbers, asked, kept, _| {
        let Some(at) = indent(numbers, asked, kept, 1) else { return false };
        let (start, end) = (asked.row[at + START] as usize, asked.row[at + END] as usize);
        asked.text[start + numbers.below(end - start)] = numbers.of(b"x\n\x0c");
        true
    }),
    ("an Indent of spaces, then tabs", |numbers, asked, kept, _| {
        let Some(at) = indent(numbers, asked, kept, 2) else { return false };
        let start = asked.row[at + START] as usize;
        asked.text[start..start + 2].copy_from_slice(b" \t");
        true
    }),
    ("a Dedent too many", |numbers, asked, kept, _| {
        asked.row[STRIDE * numbers.below(kept) + KIND] = 2;
        true
    }),
    ("a 101st level", |numbers, asked, _, _| {
        let text = nested(100, numbers.below(101), "a") + "x";
        let records = answer(text.as_bytes(), 0, 0).records;
        let at = STRIDE * records.iter().rposition(|record| record[KIND] == 1).unwrap();
        let mut row = records.concat();
        row.copy_within(at..at + STRIDE, at + STRIDE);
        *asked = Asked { a: text.len() as u32, text: text.into(), mode: 0, row, old: records.len() as u32 };
        true
    }),
    ("a cut at 0", |_, asked, _, _| {
        asked.row[..STRIDE].fill(0);
        asked.a = 1;
        true
    }),
    ("a cut after no newline", |numbers, asked, _, end| {
        asked.text[end - 1] = numbers.of(b"x \t#\x0c\x0b");
        true
    }),
    ("a cut within a CR LF", |_, asked, _, end| {
        asked.text[end - 1] = b'\r';
        asked.text[end] = b'\n';
        true
    }),
    (OTHER_LINE, |numbers, asked, kept, _| {
        let line = &mut asked.row[STRIDE * (kept - 1) + LINE];
        *line = other_line(numbers, *line);
        true
    }),
    (OTHER_LINE, |numbers, asked, kept, end| {
        let (cut, lines) = (STRIDE * (kept - 1), Lines::of(&asked.text, 0));
        let others = (0..=end as u32).filter(|&start| lines.at(start) != asked.row[cut + LINE]);
        asked.row[cut + START] = numbers.of(&others.collect::<Vec<_>>());
        true
    }),
];

/// The place in a row of some kept Indent over so many bytes at least.
fn indent(numbers: &mut Numbers, asked: &Asked, kept: usize, bytes: u32) -> Option<usize> {
    let fits = |&at: &usize| asked.row[at + KIND] == 1 && asked.row[at + END] - asked.row[at + START] >= bytes;
    let all: Vec<usize> = (0..kept).map(|record| STRIDE * record).filter(fits).collect();
    (!all.is_empty()).then(|| numbers.of(&all))
}

/// A sound row with a cut, brought to one unsound case; none if this row cannot be. It is counted if the rules say the
/// same.
fn alone(numbers: &mut Numbers, (name, broken): &Break, checker: &mut Rechecker) -> Option<Asked> {
    let sound = sound(numbers);
    let Verdict::From(cut) = verdict(&sound) else { return None };
    let mut asked = sound.clone();
    if !broken(numbers, &mut asked, cut.kept, cut.end) {
        return None;
    }
    if *name != OTHER_LINE {
        mend_line(&mut asked);
    }
    if matches!(verdict(&asked), Verdict::Refused(_, why) if why == *name) {
        checker.tallies.add(ALONE, name);
        let records = sound.row.chunks(STRIDE).zip(asked.row.chunks(STRIDE));
        let altered: Vec<&[u32]> =
            records.filter(|(before, after)| before != after).map(|(before, _)| before).collect();
        if matches!(altered[..], [[COMMENT | NON_LOGICAL_NEWLINE, ..]]) {
            checker.tallies.add("alone, by a comment or newline", name);
        }
        if *name == OTHER_LINE {
            let at = STRIDE * (cut.kept - 1) + LINE;
            let by = if sound.row[at] == asked.row[at] { "by the cut's start" } else { "by the cut's line" };
            checker.tallies.add("alone, on another line", by);
        }
    }
    Some(asked)
}

/// Gives the cut, if there is one, the line of its start, so that it is unsound for no more than what was broken.
fn mend_line(asked: &mut Asked) {
    if let Some(cut) = cut_of(asked).map(|cut| STRIDE * cut) {
        asked.row[cut + LINE] = line_at(&asked.text, asked.row[cut + START] as usize);
    }
}

/// Each set of reasons to refuse, a too long text among them, with rows that are unsound by a start, or by their lines:
/// the first in document 01's order is the answer.
fn order(checker: &mut Rechecker) {
    let told = b"if a:\n b\nc";
    let kept = answer(told, 0, 0).records;
    for case in 0..192 {
        let bit = |place: usize| case >> place & 1 == 1;
        let mut text = b"if a:\n b\nc, d, e\n".to_vec();
        if bit(0) {
            text.resize(MOST_BYTES + 1, b'#');
        }
        if bit(2) {
            text.push(0xff);
        }
        let mut row = kept.concat();
        if bit(3) && case < 96 {
            row[START] = row[END] + 1;
        } else if bit(3) {
            row.iter_mut().skip(LINE).step_by(STRIDE).for_each(|line| *line += 1);
        }
        // A row with room for the old records alone, or for those of the new text too.
        row.resize(row.len() + if bit(4) { 0 } else { 10 * STRIDE }, 7);
        let (old, a) = match case / 32 % 3 {
            0 => (kept.len() as u32, told.len() as u32),
            1 => ((row.len() / STRIDE) as u32 + 1, told.len() as u32),
            _ => (kept.len() as u32, text.len() as u32 + 1),
        };
        let mode = if bit(1) { MODES } else { 0 };
        checker.tallies.add("order", "sets of reasons");
        ask(&Asked { text, mode, row, old, a }, checker);
    }
}

/// A row of one record more than any reading writes, 537 MB of zeros that the system need not keep: an old count as
/// large as allowed, and one larger.
fn longest_row(checker: &mut Rechecker) {
    if available_memory() < 1 << 30 {
        checker.tallies.add("longest row", "left out, too little memory");
        return;
    }
    let most = MOST_RECORDS as usize;
    let mut asked = Asked { text: Vec::new(), mode: 0, row: vec![0; STRIDE * (most + 1)], old: 0, a: 0 };
    let mut ask = |text: &[u8], last: Record, old: u32, a: u32| {
        (asked.text, asked.old, asked.a) = (text.to_vec(), old, a);
        asked.row[STRIDE * (most - 1)..STRIDE * most].copy_from_slice(&last);
        let Expected::Known { numbers, kept, records } = expected(&asked, checker) else {
            unreachable!("a row without an Indent opens no level")
        };
        let got = ours::reread(&asked.text, asked.mode, &mut asked.row, old, a);
        let written: Vec<u32> = records.concat();
        let there = asked.row[STRIDE * kept..][..written.len()] == written[..];
        asked.row[STRIDE * kept..][..written.len()].fill(0);
        let is_last = asked.row[STRIDE * (most - 1)..STRIDE * most] == last;
        asked.row[STRIDE * (most - 1)..STRIDE * most].fill(0);
        let others = asked.row.iter().all(|&number| number == 0);
        checker.questions += 1;
        checker.tallies.add_code(got[0]);
        checker.tallies.add("longest row", "questions");
        if got != numbers || !there || !is_last || !others {
            checker.differences += 1;
            println!("  the longest row: old count {old} A {a}: expected {numbers:?}, ours {got:?}");
        }
    };
    ask(b"x\ny", [0; STRIDE], MOST_RECORDS + 1, 0);
    ask(b"x\ny", [0; STRIDE], MOST_RECORDS + 1, 1);
    ask(b"x\ny", [0; STRIDE], MOST_RECORDS + 2, 3);
    ask(b"x\ny", [0; STRIDE], MOST_RECORDS, 4);
    ask(b"x\ny", [0; STRIDE], MOST_RECORDS, 1);
    ask(b"x\ny", [0; STRIDE], MOST_RECORDS, 0);
    let newline = Lines::of(b"x\n", 0).record(0, 1, 2);
    ask(b"x\ny", newline, MOST_RECORDS, 3);
    ask(b"x\n\n", newline, MOST_RECORDS, 3);
    ask(b"\n\n\n", newline, MOST_RECORDS, 3);
}

/// The machine's memory that is free to be used, in bytes; none if it does not say.
fn available_memory() -> usize {
    let all = std::fs::read_to_string("/proc/meminfo").unwrap_or_default();
    let line = all.lines().find_map(|line| line.strip_prefix("MemAvailable:")).unwrap_or("0 kB");
    line.trim().trim_end_matches(" kB").parse::<usize>().map_or(0, |kilobytes| kilobytes << 10)
}
