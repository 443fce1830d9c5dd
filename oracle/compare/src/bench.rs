//! Both readers over the same texts in the same run: nanoseconds a byte, and how many times faster ours is.
//!
//! The original's own iterator hands out tokens and stores nothing; the text is known to be UTF-8. Ours validates,
//! measures and writes every record. Times are the processor's, so that other work on the machine does not count;
//! each figure is the best of ROUNDS turns, the two readers taking turns.
use crate::{classes, files::python_files, keystrokes, ours};
use oracle::{answer, Numbers, FULL, MOST_BYTES, STRIDE};
use sroviemat::{tokenize, Mode};
use std::{ops::Range, path::Path};

pub const ROUNDS: usize = 7;

/// False if a reading that is timed does not end with code 0, or a re-reading does not end as a whole one.
pub fn run(below: &Path) -> bool {
    let (text, tops) = library_text(below);
    let mut fine = library(&text, &tops) & names();
    match pieces(&tops, 1 << 20).first() {
        Some(part) => fine &= keystrokes::time(&text[part.clone()]),
        None => println!("bench: no keystrokes: the texts are too short"),
    }
    look_ups();
    fine
}

/// The machine's Python library as one text, and where it may be cut.
pub fn library_text(below: &Path) -> (String, Vec<usize>) {
    let text = gather(below);
    let tops = top_lines(&text);
    (text, tops)
}

/// The machine's Python library, whole and cut into smaller texts; with comments and all newlines in the list too.
fn library(text: &str, tops: &[usize]) -> bool {
    println!("bench: {:<27} {:>9} {:>9} {:>8}", "text", "original", "ours", "ratio");
    let whole = time("16 MB", text, &[0..text.len()]);
    let large = time("1 MB each", text, &pieces(tops, 1 << 20));
    let full = time_rows("1 MB each, mode 3", text, &pieces(tops, 1 << 20), FULL);
    let small = time("4 KB each", text, &pieces(tops, 1 << 12));
    whole & large & full & small
}

/// Python files that read with code 0, after one another, as many as fit a text.
fn gather(below: &Path) -> String {
    let mut text = String::new();
    let mut count = 0;
    for file in python_files(below).iter().filter(|file| file.to_string_lossy().contains("/lib/python3")) {
        let more = std::fs::read_to_string(file).unwrap_or_default();
        if text.len() + more.len() + 1 > MOST_BYTES {
            break;
        }
        // A BOM is skipped only at a text's own start.
        if !more.starts_with('\u{feff}') && answer(more.as_bytes(), 0, 0).code == 0 {
            text += &more;
            text += "\n";
            count += 1;
        }
    }
    println!("bench: {count} files of the Python library, {} bytes", text.len());
    text
}

/// The places where a line starts outside every block: a text can be cut there and both parts read well.
fn top_lines(text: &str) -> Vec<usize> {
    let mut tops = vec![0];
    let (mut levels, mut line_start) = (0, true);
    for [kind, start, ..] in answer(text.as_bytes(), 0, 0).records {
        match kind {
            0 => line_start = true,
            1 => levels += 1,
            2 => levels -= 1,
            _ => {
                if line_start && levels == 0 {
                    tops.push(start as usize);
                }
                line_start = false;
            }
        }
    }
    tops.push(text.len());
    tops
}

/// Parts between tops, each of three quarters of a size up to the size; what gives no such part is left out.
pub fn pieces(tops: &[usize], size: usize) -> Vec<Range<usize>> {
    let mut pieces = Vec::new();
    let mut first = 0;
    while first < tops.len() {
        let start = tops[first];
        let after = tops.partition_point(|&top| top <= start + size);
        let end = tops[after - 1];
        if end - start >= size / 4 * 3 {
            pieces.push(start..end);
            first = after - 1;
        } else {
            first += 1;
        }
    }
    pieces
}

/// Times both readers over parts of a text in mode 0.
fn time(name: &str, text: &str, parts: &[Range<usize>]) -> bool {
    time_rows(name, text, parts, 0) & time_tokens(&format!("{name}, as tokens"), text, parts)
}

/// Times both with a row that just fits and with one that is long enough for any text of its length, which is not
/// measured first; the mode is 0 or 3.
fn time_rows(name: &str, text: &str, parts: &[Range<usize>], mode: u32) -> bool {
    let needs = parts.iter().map(|part| answer(text[part.clone()].as_bytes(), mode, 0).records.len());
    let needs: Vec<usize> = needs.collect();
    let [fits, long] = rooms(&needs, parts.iter().map(|part| part.len()).max().unwrap_or(0));
    let fits = time_into(name, text, parts, mode, &needs, fits);
    let ample = time_into(&format!("{name}, long row"), text, parts, mode, &needs, long);
    fits & ample
}

/// The rooms, in records, of a row that just fits texts with these needs, and of one for any texts of so many bytes.
pub fn rooms(needs: &[usize], longest: usize) -> [usize; 2] {
    [needs.iter().max().copied().unwrap_or(0), 2 * longest + 1]
}

/// The same with the Rust crate's types: a list of tokens, made anew for each text, which is what its users have.
fn time_tokens(name: &str, text: &str, parts: &[Range<usize>]) -> bool {
    let bytes: usize = parts.iter().map(|part| part.len()).sum();
    let original = || parts.iter().map(|part| original::count_tokens(&text[part.clone()]).0 as u64).sum();
    let mut fine = true;
    let ours = || {
        let lists = parts.iter().map(|part| tokenize(&text[part.clone()], Mode::Module));
        let lists: Result<Vec<usize>, _> = lists.map(|list| list.map(|tokens| tokens.len())).collect();
        fine &= lists.is_ok();
        lists.map_or(0, |lengths| lengths.iter().sum::<usize>() as u64)
    };
    print_best(name, bytes, original, ours);
    if !fine {
        println!("bench: {name}: a reading of ours did not end with code 0");
    }
    fine
}

/// Prints a line of figures and a line on what the buffers held.
fn time_into(name: &str, text: &str, parts: &[Range<usize>], mode: u32, needs: &[usize], room: usize) -> bool {
    let mut row = vec![0; STRIDE * room];
    let bytes: usize = parts.iter().map(|part| part.len()).sum();
    let count_tokens = if mode < FULL { original::count_tokens } else { original_full::count_tokens };
    let original = || parts.iter().map(|part| count_tokens(&text[part.clone()]).0 as u64).sum();
    let mut codes = 0;
    let ours = || {
        let read = |part: &Range<usize>| ours::read(text[part.clone()].as_bytes(), mode, 0, &mut row)[0] as u64;
        codes = parts.iter().map(read).sum();
        codes
    };
    print_best(name, bytes, original, ours);
    let records: usize = needs.iter().sum();
    println!("       {} texts, {bytes} bytes, {records} records; a row of {} numbers", parts.len(), row.len());
    if codes != 0 {
        println!("bench: {name}: a reading of ours did not end with code 0");
    }
    codes == 0
}

/// Prints the best time of each, per unit, and their ratio.
fn print_best(name: &str, units: usize, mut original: impl FnMut() -> u64, mut ours: impl FnMut() -> u64) {
    let (mut theirs, mut own) = (f64::MAX, f64::MAX);
    for _ in 0..ROUNDS {
        theirs = theirs.min(nanoseconds(&mut original));
        own = own.min(nanoseconds(&mut ours));
    }
    let [theirs, own] = [theirs, own].map(|time| time / units as f64);
    println!("bench: {name:<27} {theirs:>6.2} ns {own:>6.2} ns {:>7.2}x", theirs / own);
}

/// The processor's time for some work; what the work gives is looked at, so that none of it can be left out.
pub fn nanoseconds(work: &mut impl FnMut() -> u64) -> f64 {
    let began = processor_time();
    assert_ne!(work(), u64::MAX);
    processor_time() - began
}

#[repr(C)]
struct Timespec {
    seconds: i64,
    nanoseconds: i64,
}

extern "C" {
    fn clock_gettime(clock: i32, time: *mut Timespec) -> i32;
}

/// How long this thread has run, in nanoseconds.
fn processor_time() -> f64 {
    const CLOCK_THREAD_CPUTIME_ID: i32 = 3;
    let mut time = Timespec { seconds: 0, nanoseconds: 0 };
    // The C library's function, with its own struct, which it only writes.
    let status = unsafe { clock_gettime(CLOCK_THREAD_CPUTIME_ID, &mut time) };
    assert_eq!(status, 0);
    time.seconds as f64 * 1e9 + time.nanoseconds as f64
}

/// Letters of three scripts beyond ASCII.
const SCRIPTS: [(&str, Range<u32>); 3] = [("CJK", 0x4e00..0x9fa6), ("Cyrillic", 0x430..0x450), ("Greek", 0x3b1..0x3ca)];

/// Texts of names in those scripts.
fn names() -> bool {
    let mut fine = true;
    for (script, letters) in SCRIPTS {
        let text = name_text(letters);
        fine &= time(&format!("names, {script}"), &text, &[0..text.len()]);
    }
    fine
}

/// A megabyte of names of two to eight letters, eight names a line.
fn name_text(letters: Range<u32>) -> String {
    let mut numbers = Numbers::new(1);
    let mut text = String::new();
    while text.len() < 1 << 20 {
        for _ in 0..8 {
            text.extend((0..2 + numbers.below(7)).map(|_| letter(&mut numbers, &letters)));
            text.push(' ');
        }
        text.push('\n');
    }
    text
}

fn letter(numbers: &mut Numbers, letters: &Range<u32>) -> char {
    char::from_u32(letters.start + numbers.below(letters.len()) as u32).unwrap()
}

/// All three classes of a character, as one look-up of ours and as the original's three.
fn look_ups() {
    for (script, letters) in SCRIPTS {
        let mut numbers = Numbers::new(1);
        let letters: Vec<char> = (0..1 << 16).map(|_| letter(&mut numbers, &letters)).collect();
        let original = || letters.iter().map(|&c| classes::theirs(c) as u64).sum();
        let ours = || letters.iter().map(|&c| ours::class(c) as u64).sum();
        print_best(&format!("look-up, {script}"), letters.len(), original, ours);
    }
}
