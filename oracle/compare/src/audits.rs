//! The bracket audit (document 02 item 3), against the rule of rules.rs: of every row of up to ten brackets, and of
//! random rows, some of them nested around the limit of 200.
use crate::{
    ours,
    parts::Share,
    reread::Rechecker,
    rules::{self, Found, MOST_OPEN},
};
use oracle::{
    answer,
    texts::{random, Alphabet},
    Numbers, Record, KIND, STRIDE,
};

const OPENERS: [u32; 3] = [57, 59, 61];
const CLOSERS: [u32; 3] = [58, 60, 62];
const OTHERS: [u32; 10] = [0, 1, 2, 3, 56, 63, 142, 256 + 57, 65536 + 58, u32::MAX];

/// All short rows, and so many random ones.
pub fn audits(share: Share, count: usize, seed: u64, checker: &mut Rechecker) {
    let mut auditor = Auditor { checker, open: Vec::new(), before: Vec::new() };
    short_rows(share, &mut auditor);
    random_rows(share, count, seed, &mut auditor);
}

/// Every row of up to ten brackets, with all its records counted. Its places and lines are numbers of a closer: taken
/// for kinds, they would show.
fn short_rows(share: Share, auditor: &mut Auditor) {
    let brackets = Alphabet::of_bytes("brackets", 57..=62, 10);
    let (mut kinds, mut row) = (Vec::new(), Vec::new());
    for number in share.of(0..brackets.size()) {
        brackets.text(number, &mut kinds);
        row.clear();
        row.extend(kinds.iter().flat_map(|&kind| record(kind.into(), 58)));
        let (found, _) = auditor.ask(&row, kinds.len() as u32);
        auditor.checker.tallies.add("all short rows", name(found));
    }
}

/// So many random rows, each with all its records counted, and with another count.
fn random_rows(share: Share, count: usize, seed: u64, auditor: &mut Auditor) {
    let mut numbers = Numbers::new(seed ^ 0xa0d ^ (share.thread as u64) << 32);
    for turn in 0..count / share.threads {
        let (sort, row) = match turn % 5 {
            0 => ("rows of a text", of_a_text(&mut numbers)),
            1 => ("nested rows", nested(&mut numbers)),
            2 => ("deep rows, fewer open", deep(&mut numbers)),
            _ => ("rows of any brackets", any(&mut numbers)),
        };
        let records = (row.len() / STRIDE) as u32;
        let (found, place) = auditor.ask(&row, records);
        let sort = if most_open(&row, place) == MOST_OPEN { "deep rows, 200 open" } else { sort };
        auditor.checker.tallies.add(sort, name(found));
        let (found, _) = auditor.ask(&row, other_count(&mut numbers, records, place));
        auditor.checker.tallies.add("rows with another count", name(found));
    }
}

/// A record of a kind, whose other numbers are all the same.
fn record(kind: u32, other: u32) -> Record {
    let mut record = [other; STRIDE];
    record[KIND] = kind;
    record
}

/// Asks the door, and counts; it has memory for all rows, so that none is taken for each.
struct Auditor<'a> {
    checker: &'a mut Rechecker,
    open: Vec<u32>,
    before: Vec<u32>,
}

impl Auditor<'_> {
    /// Asks and compares; what is found by the rule, and its place.
    fn ask(&mut self, row: &[u32], old: u32) -> (Found, u32) {
        self.before.clear();
        self.before.extend(row);
        let (found, expected) = rules::audit(&self.before, old, &mut self.open);
        let got = ours::audit(row, old);
        self.checker.questions += 1;
        if got != expected || row != self.before {
            if self.checker.differences == 0 {
                println!("  old count {old} row {:?}\n    expected {expected:?}, ours {got:?}", self.before);
            }
            self.checker.differences += 1;
        }
        (found, expected[2])
    }
}

fn name(found: Found) -> &'static str {
    match found {
        Found::Nothing => "nothing wrong",
        Found::Unopened => "a closer with nothing open",
        Found::Mismatched => "a closer of another kind",
        Found::TooMany => "a 201st opener",
        Found::Refused => "refused",
    }
}

/// The most brackets that are open among the records before a place, whose closers are all right.
fn most_open(row: &[u32], place: u32) -> usize {
    let (mut open, mut most) = (0, 0);
    for record in row.chunks_exact(STRIDE).take(place as usize) {
        if OPENERS.contains(&record[KIND]) {
            open += 1;
        } else if CLOSERS.contains(&record[KIND]) {
            open -= 1;
        }
        most = most.max(open);
    }
    most
}

/// Records up to the place of what was found, or with it; any number of them; or more than there are.
fn other_count(numbers: &mut Numbers, records: u32, place: u32) -> u32 {
    match numbers.below(6) {
        0 => place,
        1 => place + 1,
        2..=3 => numbers.below(records as usize + 1) as u32,
        4 => records + 1 + numbers.below(3) as u32,
        _ => numbers.next() as u32,
    }
}

fn of_a_text(numbers: &mut Numbers) -> Vec<u32> {
    let mut text = Vec::new();
    random(numbers, &mut text);
    answer(&text, numbers.mode(), 0).records.concat()
}

/// Brackets of all kinds, and other kinds next to them; the row's length in numbers is any.
fn any(numbers: &mut Numbers) -> Vec<u32> {
    let length = numbers.below(STRIDE * 40);
    let others = numbers.once_in(2);
    let kind = |numbers: &mut Numbers| match numbers.below(10) {
        0 if others => numbers.next() as u32,
        1 if others => numbers.of(&OTHERS),
        _ => 57 + numbers.below(6) as u32,
    };
    (0..length).map(|at| if at % STRIDE == KIND { kind(numbers) } else { 57 + numbers.below(6) as u32 }).collect()
}

/// Openers, and closers of the latest that is open; rarely any closer.
fn nested(numbers: &mut Numbers) -> Vec<u32> {
    let mut nest = Nest::default();
    for _ in 0..numbers.below(200) {
        match numbers.below(400) {
            0 => nest.kinds.push(numbers.of(&CLOSERS)),
            1..=199 => nest.close(),
            _ => nest.open(numbers),
        }
    }
    nest.row(numbers)
}

/// Brackets opened and closed until so many are open, one to four times: 199, 200, 201 or any number up to 250. In one
/// row of two any closer is put in, mostly wrong; often right before or behind the first opener that is too many.
fn deep(numbers: &mut Numbers) -> Vec<u32> {
    let mut nest = Nest::default();
    for _ in 0..1 + numbers.below(4) {
        let any = numbers.below(251);
        nest.go_to(numbers.of(&[199, 200, 201, any]), numbers);
    }
    if numbers.once_in(2) {
        let at = match (nest.too_many, numbers.below(3)) {
            (Some(opener), beside @ (0 | 1)) => opener + beside,
            _ => numbers.below(nest.kinds.len() + 1),
        };
        nest.kinds.insert(at, numbers.of(&CLOSERS));
    }
    nest.row(numbers)
}

/// Kinds of brackets, the openers that are still open, and the index of the first that is too many.
#[derive(Default)]
struct Nest {
    kinds: Vec<u32>,
    open: Vec<u32>,
    too_many: Option<usize>,
}

impl Nest {
    fn open(&mut self, numbers: &mut Numbers) {
        if self.open.len() == MOST_OPEN {
            self.too_many.get_or_insert(self.kinds.len());
        }
        let opener = numbers.of(&OPENERS);
        self.open.push(opener);
        self.kinds.push(opener);
    }

    /// Closes the latest that is open, if there is one.
    fn close(&mut self) {
        self.kinds.extend(self.open.pop().map(|opener| opener + 1));
    }

    /// Opens or closes until so many are open.
    fn go_to(&mut self, depth: usize, numbers: &mut Numbers) {
        while self.open.len() < depth {
            self.open(numbers);
        }
        while self.open.len() > depth {
            self.close();
        }
    }

    /// The row, with other kinds between and numbers left over; places and lines may be numbers of brackets too.
    fn row(self, numbers: &mut Numbers) -> Vec<u32> {
        let mut row = Vec::new();
        for kind in self.kinds {
            if numbers.once_in(8) {
                row.extend(record(numbers.of(&OTHERS), numbers.of(&[57, 58])));
            }
            row.extend(record(kind, 50 + numbers.below(20) as u32));
        }
        row.resize(row.len() + numbers.below(STRIDE), 58);
        row
    }
}
