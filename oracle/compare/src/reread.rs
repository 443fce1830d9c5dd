//! One question asked of the door of re-reading, and what is to come of it.
use crate::{
    ours,
    rules::{rest, verdict, Asked, Rest, Verdict, COMMENT, MOST_LEVELS, NON_LOGICAL_NEWLINE},
    tallies::Tallies,
};
use oracle::{Answer, Record, ANSWER, END, KIND, STRIDE};

/// Numbers behind the row that the door must not reach.
const GUARD: usize = 8;
const BEHIND: u32 = 0xf00d_beef;

/// How many bytes and numbers may be read while a question is made smaller.
const SHRINKING: usize = 1 << 26;

/// The answer and the row that are to come of a question. Numbers that are not named stay as they were.
pub enum Expected {
    /// The four numbers; behind the kept records, these are written.
    Known { numbers: [u32; ANSWER], kept: usize, records: Vec<Record> },
    /// The text is read on behind the kept records, and these are the first to be written there; what follows is the
    /// work of levels that no text opens.
    Begins { kept: usize, records: Vec<Record> },
}

impl Expected {
    /// A row with room for so many records, where the rest of the text has this answer.
    pub fn of(kept: usize, rest: &Answer, room: usize) -> Expected {
        let need = kept + rest.records.len();
        if need > room {
            return Expected::refusal([4, need as u32, 0, 0]);
        }
        let numbers = [rest.code, need as u32, rest.place, rest.detail];
        Expected::Known { numbers, kept, records: rest.records.clone() }
    }

    fn refusal(numbers: [u32; ANSWER]) -> Expected {
        Expected::Known { numbers, kept: 0, records: Vec::new() }
    }

    /// Up to the first round that closes all levels which the original knows of, or opens one that is the 101st with
    /// those it does not know of. Of that round nothing is known: an error would drop its comments and newlines too.
    fn begins(kept: usize, rest: &Rest, levels: usize) -> Expected {
        let mut records = Vec::new();
        let mut open = levels - rest.below;
        for &record in &rest.answer.records {
            match record[KIND] {
                1 => open += 1,
                2 => open -= 1,
                _ => {}
            }
            if open == 0 || rest.below + open > MOST_LEVELS {
                break;
            }
            records.push(record);
        }
        while records.last().map_or(false, |record| matches!(record[KIND], 2 | COMMENT | NON_LOGICAL_NEWLINE)) {
            records.pop();
        }
        Expected::Begins { kept, records }
    }

    /// Whether an answer, with the row before and after, is as expected.
    pub fn met(&self, got: [u32; ANSWER], before: &[u32], after: &[u32]) -> bool {
        match self {
            Expected::Known { numbers, kept, records } => {
                got == *numbers && written(before, after, *kept, records, kept + records.len())
            }
            Expected::Begins { kept, records } => {
                let (known, room) = (kept + records.len(), before.len() / STRIDE);
                let (code, count) = (got[0], got[1] as usize);
                match code {
                    4 => got[2..] == [0, 0] && count > room && count >= known && before == after,
                    0 | 20..=33 => (known..=room).contains(&count) && written(before, after, *kept, records, count),
                    _ => false,
                }
            }
        }
    }
}

/// Whether a row has these records behind the kept ones, and is as it was before them and from `count` records on.
fn written(before: &[u32], after: &[u32], kept: usize, records: &[Record], count: usize) -> bool {
    after[..STRIDE * kept] == before[..STRIDE * kept]
        && after[STRIDE * kept..].iter().zip(records.iter().flatten()).all(|(number, record)| number == record)
        && after[STRIDE * count..] == before[STRIDE * count..]
}

/// Asks the door, counts, and keeps the smallest question whose outcome is not the expected one.
#[derive(Default)]
pub struct Rechecker {
    row: Vec<u32>,
    pub questions: u64,
    pub differences: u64,
    pub smallest: Option<Asked>,
    pub tallies: Tallies,
}

impl Rechecker {
    /// Asks and compares; the door's answer. The row afterwards is `row`.
    pub fn ask(&mut self, asked: &Asked, expected: &Expected) -> [u32; ANSWER] {
        let got = self.reread(asked);
        self.questions += 1;
        self.tallies.add_code(got[0]);
        if !self.as_expected(asked, expected, got) {
            self.differ(asked);
        }
        got
    }

    /// Counts where comments and newlines stand in a row, by what the rules say of it.
    pub fn count_added(&mut self, asked: &Asked, verdict: &Verdict) {
        let kept = match verdict {
            Verdict::Refused(..) => return,
            Verdict::Whole => 0,
            Verdict::From(cut) => cut.kept,
        };
        let mut records = asked.row.chunks_exact(STRIDE).take(asked.old as usize);
        let of_kept: Vec<u32> = records.by_ref().take(kept).map(|record| record[KIND]).collect();
        let later = records.any(|record| record[KIND] == NON_LOGICAL_NEWLINE && record[END] < asked.a);
        let mut add = |name, is_so| {
            if is_so {
                self.tallies.add("comments and newlines", name);
            }
        };
        add("kept", of_kept.iter().any(|kind| matches!(*kind, COMMENT | NON_LOGICAL_NEWLINE)));
        add("a comment right before the cut", of_kept.ends_with(&[COMMENT, 0]));
        add("a newline below A behind the cut", later && kept > 0);
        add("a newline below A and no cut", later && kept == 0);
    }

    /// The row after the last question.
    pub fn row(&self) -> &[u32] {
        &self.row[..self.row.len() - GUARD]
    }

    /// Counts a difference.
    pub fn differ(&mut self, asked: &Asked) {
        self.differences += 1;
        if self.smallest.as_ref().map_or(true, |kept| size(asked) < size(kept)) {
            self.smallest = Some(asked.clone());
        }
    }

    /// What document 01 and the original say of any question.
    pub fn expected(&self, asked: &Asked, verdict: &Verdict) -> Expected {
        let room = asked.row.len() / STRIDE;
        match verdict {
            Verdict::Refused(numbers, _) => Expected::refusal(*numbers),
            Verdict::Whole => Expected::of(0, &oracle::answer(&asked.text, asked.mode, 0), room),
            Verdict::From(cut) => {
                let rest = rest(&asked.text, asked.mode, cut);
                if rest.below == 0 {
                    Expected::of(cut.kept, &rest.answer, room)
                } else {
                    Expected::begins(cut.kept, &rest, cut.levels.len())
                }
            }
        }
    }

    fn reread(&mut self, asked: &Asked) -> [u32; ANSWER] {
        let Asked { text, mode, row, old, a } = asked;
        self.row.clear();
        self.row.extend(row);
        self.row.extend([BEHIND; GUARD]);
        ours::reread(text, *mode, &mut self.row[..row.len()], *old, *a)
    }

    fn as_expected(&self, asked: &Asked, expected: &Expected, got: [u32; ANSWER]) -> bool {
        let (after, behind) = self.row.split_at(asked.row.len());
        behind == [BEHIND; GUARD] && expected.met(got, &asked.row, after)
    }

    /// Takes over what another one counted and kept.
    pub fn join(&mut self, other: Rechecker) {
        self.questions += other.questions;
        self.differences += other.differences;
        self.tallies.join(other.tallies);
        let smaller = |kept: &Asked| other.smallest.as_ref().map_or(false, |asked| size(asked) < size(kept));
        if self.smallest.as_ref().map_or(true, smaller) {
            self.smallest = other.smallest;
        }
    }

    /// A question made smaller for as long as its outcome is not what document 01 and the original say: records, then
    /// bytes left out, large parts first.
    pub fn shrink(&mut self, mut asked: Asked) -> Asked {
        let mut left = SHRINKING;
        for of_text in [false, true, false] {
            let length = |asked: &Asked| if of_text { asked.text.len() } else { asked.row.len() / STRIDE };
            let mut part = length(&asked);
            while part > 0 {
                let mut at = 0;
                while at + part <= length(&asked) && left > asked.text.len() + asked.row.len() {
                    left -= asked.text.len() + asked.row.len();
                    let smaller =
                        if of_text { without_bytes(&asked, at, part) } else { without_records(&asked, at, part) };
                    if self.differs(&smaller) {
                        asked = smaller;
                    } else {
                        at += part;
                    }
                }
                part /= 2;
            }
        }
        asked
    }

    /// Whether the door's outcome is not what document 01 and the original say.
    fn differs(&mut self, asked: &Asked) -> bool {
        let expected = self.expected(asked, &verdict(asked));
        let got = self.reread(asked);
        !self.as_expected(asked, &expected, got)
    }

    /// A question with what was expected and what came, for people.
    pub fn show(&mut self, asked: &Asked) -> String {
        let expected = match self.expected(asked, &verdict(asked)) {
            Expected::Known { numbers, kept, records } => format!("{numbers:?}, {kept} records kept, then {records:?}"),
            Expected::Begins { kept, records } => format!("{kept} records kept, then at first {records:?}"),
        };
        let by = if self.differs(asked) { "expected" } else { "as the rules say, but not as a whole reading:" };
        let got = self.reread(asked);
        let Asked { text, mode, row, old, a } = asked;
        let text: String = text.iter().flat_map(|&byte| std::ascii::escape_default(byte)).map(char::from).collect();
        format!(
            "    text \"{text}\" mode {mode} old count {old} A {a} row {row:?}\n    {by} {expected}\n    ours     {got:?} {:?}",
            self.row()
        )
    }
}

fn without_bytes(asked: &Asked, at: usize, part: usize) -> Asked {
    let text = [&asked.text[..at], &asked.text[at + part..]].concat();
    let a = asked.a.min(text.len() as u32);
    Asked { text, a, ..asked.clone() }
}

fn without_records(asked: &Asked, at: usize, part: usize) -> Asked {
    let row = [&asked.row[..STRIDE * at], &asked.row[STRIDE * (at + part)..]].concat();
    let old = asked.old - (asked.old as usize).saturating_sub(at).min(part) as u32;
    Asked { row, old, ..asked.clone() }
}

/// Shorter texts first, then shorter rows.
fn size(asked: &Asked) -> (usize, usize, &[u8], u32, u32) {
    (asked.text.len(), asked.row.len(), &asked.text, asked.old, asked.a)
}
