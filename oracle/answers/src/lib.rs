//! The original's answers to whole questions: document 01's refusals around its reading, with the detail of document 02
//! item 2 and the lines of item 4.

pub mod chosen;
pub mod lines;
pub mod texts;
pub mod utf8;

use lines::Lines;
use utf8::Fault;

/// The most bytes that a text may have.
pub const MOST_BYTES: usize = 16_777_216;

/// How many numbers a record has in a row, and where each of them stands; `Lines::record` puts them together.
pub const STRIDE: usize = 4;
pub const KIND: usize = 0;
pub const START: usize = 1;
pub const END: usize = 2;
pub const LINE: usize = 3;

/// A record as a row holds it.
pub type Record = [u32; STRIDE];

/// How many numbers an answer has: code, count, place, detail.
pub const ANSWER: usize = 4;

/// How many modes there are.
pub const MODES: u32 = 6;

/// The first mode with comments and all newlines in the list (document 02 item 1): it and those after it read as mode 0
/// and those after it, by the original with its feature full-lexer.
pub const FULL: u32 = 3;

/// Code, count, place and detail, with the records that are written.
#[derive(Clone, Debug, PartialEq, Eq)]
pub struct Answer {
    pub code: u32,
    pub count: u32,
    pub place: u32,
    pub detail: u32,
    pub records: Vec<Record>,
}

impl Answer {
    fn refusal(code: u32) -> Answer {
        Answer { code, count: 0, place: 0, detail: 0, records: Vec::new() }
    }

    /// Where the first ill-formed sequence starts, and its fault.
    fn ill_formed(place: u32, fault: Fault) -> Answer {
        Answer { place, detail: fault as u32, ..Answer::refusal(3) }
    }

    /// Its numbers.
    pub fn numbers(&self) -> [u32; ANSWER] {
        [self.code, self.count, self.place, self.detail]
    }

    /// Its numbers and the records written where there is room for so many records.
    pub fn in_room(&self, room: usize) -> ([u32; ANSWER], &[Record]) {
        if room < self.records.len() {
            return ([4, self.count, 0, 0], &[]);
        }
        (self.numbers(), &self.records)
    }
}

/// The answer where there is room enough.
pub fn answer(text: &[u8], mode: u32, start: u32) -> Answer {
    if text.len() > MOST_BYTES || start.checked_add(text.len() as u32).is_none() {
        return Answer::refusal(1);
    }
    if mode >= MODES {
        return Answer::refusal(2);
    }
    match utf8::text(text) {
        Ok(text) => reading(text, mode, start),
        Err((place, fault)) => Answer::ill_formed(start + place, fault),
    }
}

/// The original's reading, with the line of each record; `start` and the text's length together fit 32 bits.
fn reading(text: &str, mode: u32, start: u32) -> Answer {
    let lines = Lines::of(text.as_bytes(), start);
    let mut records = Vec::new();
    let out = |kind, from, to| records.push(lines.record(kind, from, to));
    let (code, place, detail) = if mode < FULL {
        let e = original::read(text, mode, start, out);
        (e.code, e.place, e.detail)
    } else {
        let e = original_full::read(text, mode - FULL, start, out);
        (e.code, e.place, e.detail)
    };
    Answer { code, count: records.len() as u32, place, detail, records }
}

/// Numbers for tests that have to come out the same every time (SplitMix64).
pub struct Numbers(u64);

impl Numbers {
    pub fn new(seed: u64) -> Self {
        Numbers(seed)
    }

    pub fn next(&mut self) -> u64 {
        self.0 = self.0.wrapping_add(0x9e37_79b9_7f4a_7c15);
        let mut z = self.0;
        z = (z ^ (z >> 30)).wrapping_mul(0xbf58_476d_1ce4_e5b9);
        z = (z ^ (z >> 27)).wrapping_mul(0x94d0_49bb_1331_11eb);
        z ^ (z >> 31)
    }

    /// A number below `limit`.
    pub fn below(&mut self, limit: usize) -> usize {
        (self.next() % limit as u64) as usize
    }

    /// True once in so many times.
    pub fn once_in(&mut self, times: usize) -> bool {
        self.below(times) == 0
    }

    /// One of the modes.
    pub fn mode(&mut self) -> u32 {
        self.below(MODES as usize) as u32
    }

    /// One of the things.
    pub fn of<T: Copy>(&mut self, things: &[T]) -> T {
        things[self.below(things.len())]
    }
}
