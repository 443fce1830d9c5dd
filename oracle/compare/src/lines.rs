//! Lines where line ends are of every sort (document 02 item 4): the machine's Python files with their LFs made CR, made
//! CR LF, or each made any of LF, CR, CR LF and LF CR; some behind a BOM. Each is read in every mode, and edited and read
//! again, against the original and the lines that oracle::lines adds to it.
//!
//! Before that, what oracle::lines says of a place is held against what was read by hand, and its quick form against the
//! plain one.
use crate::{check::Checker, edits::Edited, parts::Share, reread::Rechecker, tallies::Tallies};
use oracle::{
    lines::{line_at, Lines},
    texts::Alphabet,
    Answer, Numbers, END, KIND, LINE, MODES, STRIDE,
};
use std::{fs, path::PathBuf};

/// Files longer than this are left out; of the others so many are taken that they have so many bytes, about.
const LONGEST: u64 = 1 << 16;
const BYTES: u64 = 8 << 20;

/// So many edits of each text.
const EDITS: usize = 3;

/// What an LF becomes.
const SORTS: [(&str, &[&str]); 3] = [("CR", &["\r"]), ("CR LF", &["\r\n"]), ("mixed", &["\n", "\r", "\r\n", "\n\r"])];

/// The topic by which line ends are counted, and what is counted of them.
const LINE_ENDS: &str = "line ends";
const COUNTED: [&str; 4] = ["LF", "CR", "CR LF", "in strings"];

/// Texts, a place in each, and its line, as document 02 says it.
#[rustfmt::skip]
const BY_HAND: &[(&str, usize, u32)] = &[
    ("", 0, 0), ("x", 1, 0), ("x\ny", 1, 0), ("x\ny", 2, 1), ("x\ry", 1, 0), ("x\ry", 2, 1), ("x\r\ny", 1, 0),
    ("x\r\ny", 2, 0), ("x\r\ny", 3, 1), ("x\n\ry", 3, 2), ("x\r\r\ny", 2, 1), ("x\r\r\ny", 3, 1), ("x\r\r\ny", 4, 2),
    ("'''\n\r\n''' x", 9, 2), ("(#c\n\n)", 5, 2), ("\u{feff}x", 3, 0), ("x\n", 2, 1), ("x\n", 9, 1), ("x\r", 9, 1),
];

/// The rule says what was read by hand, and of all short texts the same in both forms, or the program ends here.
pub fn by_hand() {
    for &(text, place, line) in BY_HAND {
        assert_eq!(line_at(text.as_bytes(), place), line, "{text:?} at {place}");
    }
    let short = Alphabet::of_bytes("line ends", b"\n\rx".iter().copied(), 8);
    let mut text = Vec::new();
    for number in 0..short.size() {
        short.text(number, &mut text);
        for start in [0, 7, u32::MAX - text.len() as u32] {
            let lines = Lines::of(&text, start);
            for place in 0..=text.len() {
                assert_eq!(lines.at(start + place as u32), line_at(&text, place), "{text:?} at {place}");
            }
        }
    }
}

/// As many of the files as have so many bytes, one in so many; the seed says with which to begin.
pub fn some_files(mut files: Vec<PathBuf>, seed: u64) -> Vec<PathBuf> {
    // A file that is gone since has no bytes.
    let size = |file: &PathBuf| fs::metadata(file).map_or(0, |data| data.len());
    files.retain(|file| size(file) <= LONGEST);
    let step = files.iter().map(size).sum::<u64>() / BYTES + 1;
    files.into_iter().skip((seed % step) as usize).step_by(step as usize).collect()
}

/// Every file with line ends of each sort: read in every mode, then edited.
pub fn files(share: Share, files: &[PathBuf], seed: u64, checker: &mut Checker, rechecker: &mut Rechecker) {
    for (number, file) in share.of(files.iter().enumerate()) {
        let mut numbers = Numbers::new(seed ^ 0x11e ^ (number as u64) << 32);
        let file = fs::read(file).unwrap_or_default();
        for (name, ends) in SORTS {
            let text = with_line_ends(&file, ends, &mut numbers);
            ask(&text, &mut numbers, checker);
            edit(text, name, &mut numbers, rechecker);
        }
    }
}

/// A text with each LF made one of these; one in eight behind a BOM.
fn with_line_ends(text: &[u8], ends: &[&str], numbers: &mut Numbers) -> Vec<u8> {
    let mut made = if numbers.once_in(8) { "\u{feff}".into() } else { Vec::new() };
    for &byte in text {
        match byte {
            b'\n' => made.extend(numbers.of(ends).bytes()),
            _ => made.push(byte),
        }
    }
    made
}

/// A text in every mode, at some start.
fn ask(text: &[u8], numbers: &mut Numbers, checker: &mut Checker) {
    for mode in 0..MODES {
        let start = numbers.of(&[0, 7, u32::MAX - text.len() as u32]);
        checker.ask(text, mode, start, |need| [need + numbers.below(STRIDE + 1)]);
    }
}

/// A text in some mode, edited several times.
fn edit(text: Vec<u8>, name: &'static str, numbers: &mut Numbers, rechecker: &mut Rechecker) {
    let mode = numbers.mode();
    let mut edited = Edited::new(text.clone(), mode, numbers, rechecker);
    let ended = if edited.whole.code == 0 { "read to the end" } else { "not read to the end" };
    rechecker.tallies.add(ended, name);
    count(&text, &edited.whole, &mut rechecker.tallies);
    for _ in 0..EDITS {
        edited.edit(numbers, rechecker);
    }
}

/// Counts a text's line ends, of each sort and in its strings.
fn count(text: &[u8], whole: &Answer, tallies: &mut Tallies) {
    let many = |bytes: &[u8]| text.windows(bytes.len()).filter(|window| *window == bytes).count() as u64;
    let lines = Lines::of(text, 0);
    let strings = whole.records.iter().filter(|record| (10..=23).contains(&record[KIND]));
    let in_strings: u32 = strings.map(|record| lines.at(record[END]) - record[LINE]).sum();
    let both = many(b"\r\n");
    let counts = [many(b"\n") - both, many(b"\r") - both, both, in_strings.into()];
    COUNTED.into_iter().zip(counts).for_each(|(name, many)| tallies.add_many(LINE_ENDS, name, many));
}

/// Whether line ends of every sort came up, in strings too.
pub fn of_all_sorts(tallies: &Tallies) -> bool {
    COUNTED.iter().all(|name| tallies.of(LINE_ENDS, name) > 0)
}
