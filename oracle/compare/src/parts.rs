//! The parts of the comparison: which texts are asked about, and how.
use crate::check::Checker;
use oracle::{
    chosen,
    texts::{alphabets, blanks, damage, line_ends, nested, random, tails},
    Numbers, FULL, MODES, MOST_BYTES, STRIDE,
};
use std::{fs, path::PathBuf};

/// Of the work of a part, one thread's share.
#[derive(Clone, Copy)]
pub struct Share {
    pub thread: usize,
    pub threads: usize,
}

impl Share {
    pub fn of<T>(self, things: impl IntoIterator<Item = T>) -> impl Iterator<Item = T> {
        things.into_iter().skip(self.thread).step_by(self.threads)
    }
}

/// All short texts over each alphabet; `more` letters longer than in the gate.
pub fn short(share: Share, more: usize, checker: &mut Checker) {
    let mut text = Vec::new();
    for alphabet in alphabets(more) {
        for number in share.of(0..alphabet.size()) {
            alphabet.text(number, &mut text);
            let mut numbers = Numbers::new(number);
            let start = start(&mut numbers, text.len());
            let one = numbers.mode();
            for mode in if alphabet.each_mode { 0..MODES } else { one..one + 1 } {
                checker.ask(&text, mode, start, |need| rows(&mut numbers, need));
            }
        }
    }
}

/// Every character by itself, and after a letter.
pub fn characters(share: Share, checker: &mut Checker) {
    for c in share.of((0..=0x10_ffff).filter_map(char::from_u32)) {
        for text in [c.to_string(), format!("x{c}")] {
            checker.ask(text.as_bytes(), 0, 0, |need| [need + 2]);
        }
    }
}

/// The chosen texts in every mode, at several starts, with every length of row up to the need and beyond.
pub fn chosen(share: Share, checker: &mut Checker) {
    for text in share.of(chosen_texts()) {
        for mode in 0..MODES + 1 {
            for start in [0, 1, u32::MAX - text.len() as u32, (u32::MAX - text.len() as u32).saturating_add(1)] {
                checker
                    .ask(&text, mode, start, |need| [0, 1, STRIDE - 1, STRIDE, 2 * STRIDE + 1].map(|more| need + more));
            }
            for room in 0..33 * STRIDE {
                checker.ask(&text, mode, 7, |need| [room.min(need)]);
            }
        }
    }
}

fn chosen_texts() -> Vec<Vec<u8>> {
    let lists = [chosen::BY_RULE.concat(), chosen::WORKED.to_vec(), chosen::RECIPES.to_vec()];
    let texts = lists.concat().into_iter().map(|text| text.as_bytes().to_vec());
    let bytes = [chosen::BYTES, chosen::ILL_FORMED].concat();
    let texts = texts.chain(line_ends().into_iter().map(String::into_bytes));
    texts.chain(bytes.into_iter().map(<[u8]>::to_vec)).collect()
}

/// So many random texts.
pub fn random_texts(share: Share, count: usize, seed: u64, checker: &mut Checker) {
    let mut numbers = Numbers::new(seed ^ (share.thread as u64) << 32);
    let mut text = Vec::new();
    for _ in 0..count / share.threads {
        random(&mut numbers, &mut text);
        ask_somehow(&text, &mut numbers, checker);
    }
}

/// So many texts of several lines with bytes from 0x80 up put in, changed or cut.
pub fn damaged(share: Share, count: usize, seed: u64, checker: &mut Checker) {
    let mut numbers = Numbers::new(!seed ^ (share.thread as u64) << 32);
    let (mut text, mut more) = (Vec::new(), Vec::new());
    for _ in 0..count / share.threads {
        random(&mut numbers, &mut text);
        random(&mut numbers, &mut more);
        text.extend("\u{e9}\u{4e2d}\u{1f600}".as_bytes());
        text.extend(&more);
        let at = numbers.below(text.len());
        match numbers.below(4) {
            0 => text[at] = 0x80 + numbers.below(0x80) as u8,
            1 => text.insert(at, 0x80 + numbers.below(0x80) as u8),
            2 => drop(text.remove(at)),
            _ => damage(&mut numbers, &mut text),
        }
        ask_somehow(&text, &mut numbers, checker);
    }
}

/// 98 to 102 levels, of tabs, of spaces and of both, with all that can come next.
pub fn deep(share: Share, checker: &mut Checker) {
    let tabs = [0, 1, 50, 99, 100, 101, 200];
    let shapes = (98..=102).flat_map(|depth| tabs.map(|tabs| (depth, tabs)));
    for (depth, tabs) in share.of(shapes) {
        for tail in tails(depth, tabs) {
            let text = nested(depth, tabs, "a:") + &tail;
            for mode in 0..MODES {
                checker.ask(text.as_bytes(), mode, 0, |need| [need, need.saturating_sub(1)]);
            }
        }
        let widened = nested(depth, tabs, "a:#c\n") + &blanks(2 * depth, tabs) + "x";
        for mode in [0, FULL] {
            checker.ask(widened.as_bytes(), mode, 1, |need| [need + 1]);
        }
    }
}

/// Texts as long as allowed, and a byte longer; starts as far as allowed, and one further.
pub fn limits(share: Share, checker: &mut Checker) {
    for length in share.of([MOST_BYTES - 1, MOST_BYTES, MOST_BYTES + 1]) {
        let mut text = vec![b'#'; length];
        text[length - 2..].copy_from_slice(b"\nx");
        for start in [0, u32::MAX - length as u32, u32::MAX - length as u32 + 1, u32::MAX] {
            for mode in [0, FULL] {
                checker.ask(&text, mode, start, |need| [need, 0]);
            }
        }
        checker.ask(&text, u32::MAX, 0, |need| [need]);
    }
}

/// Every file, whole, in a mode of each form; small ones also cut and damaged.
pub fn files(share: Share, files: &[PathBuf], checker: &mut Checker) {
    for (number, file) in share.of(files.iter().enumerate()) {
        // A file that cannot be read, or is gone since, counts as empty.
        let mut text = fs::read(file).unwrap_or_default();
        let mut numbers = Numbers::new(number as u64);
        for mode in [number as u32 % FULL, FULL + numbers.mode() % FULL] {
            checker.ask(&text, mode, 0, |need| [need + 2]);
        }
        let mode = numbers.mode();
        if text.len() < 20_000 {
            text.truncate(numbers.below(text.len() + 1));
            checker.ask(&text, mode, 5, |need| rows(&mut numbers, need));
            damage(&mut numbers, &mut text);
            checker.ask(&text, mode, 0, |need| rows(&mut numbers, need));
        }
    }
}

/// A text in some mode, rarely an unknown one, at some start, with some rows.
fn ask_somehow(text: &[u8], numbers: &mut Numbers, checker: &mut Checker) {
    let mode = if numbers.once_in(100) { numbers.next() as u32 } else { numbers.mode() };
    let start = start(numbers, text.len());
    checker.ask(text, mode, start, |need| rows(numbers, need));
}

/// Mostly small starts, some at the limit, a few past it.
fn start(numbers: &mut Numbers, length: usize) -> u32 {
    let furthest = u32::MAX - length as u32;
    match numbers.below(32) {
        0..=15 => 0,
        16..=23 => numbers.below(100_000) as u32,
        24..=30 => furthest,
        _ => furthest.saturating_add(1 + numbers.below(3) as u32),
    }
}

/// A row that is long enough, and one of any length up to a little more than the need.
fn rows(numbers: &mut Numbers, need: usize) -> [usize; 2] {
    [need + numbers.below(STRIDE + 1), numbers.below(need + STRIDE + 2)]
}
