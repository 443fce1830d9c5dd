//! make-list: writes the fixed list of the original's answers to standard output.
//!
//! The questions are made here, from the chosen texts and from numbers with a fixed seed; every answer is the
//! original's. The run fails unless the list reaches every code and every kind of documents 01 and 02 item 1, every
//! fault of document 02 item 2, and several lines of item 4.
//!
//! The list is a row of frames, each below 16,384 bytes:
//!
//!   nine 32-bit numbers, little endian:
//!       mode, start, the row's length in numbers, the text's length in bytes, the number of records written,
//!       code, count, place, detail
//!   the text
//!   the records, each its kind, start, end and line as 32-bit numbers, little endian
//!
//! What the row holds behind the records is to stay as it was. No row is longer than 4,096 numbers.
//!
//!   make-list --random N SEED
//!       so many frames of random texts instead, no two alike.
use oracle::{answer, chosen, texts, utf8, Numbers, Record, ANSWER, FULL, KIND, LINE, MODES, STRIDE};
use std::{
    collections::HashSet,
    env,
    io::{self, Write},
};

const MOST_FRAME: usize = 16_384;
const MOST_ROW: usize = 4_096;
const RANDOM_TEXTS: usize = 1_600;

/// Every line up to this one is to be reached.
const LAST_LINE: u32 = 5;

#[derive(Default)]
struct List {
    bytes: Vec<u8>,
    seen: HashSet<Vec<u8>>,
    codes: HashSet<u32>,
    kinds: HashSet<u32>,
    /// Each fault, with whether it is at the text's start, and whether the start is 0.
    faults: HashSet<(u32, bool, bool)>,
    /// Each line of a record, with whether the start is 0.
    lines: HashSet<(u32, bool)>,
}

impl List {
    /// Asks the original and adds a frame.
    fn ask(&mut self, text: &[u8], mode: u32, start: u32, row: usize) {
        let answer = answer(text, mode, start);
        let (numbers, records) = answer.in_room(row / STRIDE);
        let frame = frame(text, [mode, start, row as u32], numbers, records);
        assert!(frame.len() < MOST_FRAME && row <= MOST_ROW, "too long for the list: {text:?}");
        if self.seen.insert(frame.clone()) {
            self.codes.insert(numbers[0]);
            self.kinds.extend(records.iter().map(|record| record[KIND]));
            self.lines.extend(records.iter().map(|record| (record[LINE], start == 0)));
            if let [3, _, place, fault] = numbers {
                self.faults.insert((fault, place == start, start == 0));
            }
            self.bytes.extend(frame);
        }
    }

    /// Several questions on one text; `turn` varies the mode, the start and the row from text to text. Where there may
    /// be a comment or a newline to list, both forms of the mode are asked.
    fn text(&mut self, text: &[u8], turn: usize) {
        let mode = turn as u32 % FULL;
        self.in_mode(text, mode, turn);
        if text.iter().any(|byte| b"#\r\n".contains(byte)) {
            self.in_mode(text, mode + FULL, turn);
        }
    }

    fn in_mode(&mut self, text: &[u8], mode: u32, turn: usize) {
        let need = STRIDE * answer(text, mode, 0).records.len();
        let furthest = u32::MAX - text.len() as u32;
        self.ask(text, mode, 0, need + turn % STRIDE);
        match turn % 8 {
            1 => self.ask(text, mode, 1000, need + 2 * STRIDE + 1),
            3 => self.ask(text, mode, furthest, need),
            4 => self.ask(text, mode, furthest.saturating_add(1), need),
            2 | 5 if need > 0 => self.ask(text, mode, turn as u32, need - 1 - turn % STRIDE),
            7 => self.ask(text, mode, 3, turn % (STRIDE + 2)),
            _ => {}
        }
    }

    /// Each text in each mode.
    fn in_all_modes(&mut self, texts: &[&str]) {
        for text in texts {
            for mode in 0..MODES {
                let need = STRIDE * answer(text.as_bytes(), mode, 0).records.len();
                self.ask(text.as_bytes(), mode, 0, need + mode as usize);
            }
        }
    }

    fn texts(&mut self, texts: &[&str]) {
        for (turn, text) in texts.iter().enumerate() {
            self.text(text.as_bytes(), turn);
        }
    }
}

/// A question (text; mode, start and the row's length) and its answer as the list holds them.
fn frame(text: &[u8], asked: [u32; 3], numbers: [u32; ANSWER], records: &[Record]) -> Vec<u8> {
    let head = [&asked[..], &[text.len() as u32, records.len() as u32], &numbers].concat();
    let mut bytes: Vec<u8> = head.iter().flat_map(|number| number.to_le_bytes()).collect();
    bytes.extend(text);
    bytes.extend(records.iter().flatten().flat_map(|number| number.to_le_bytes()));
    bytes
}

fn main() -> io::Result<()> {
    let words: Vec<String> = env::args().skip(1).collect();
    let list = match words.iter().map(String::as_str).collect::<Vec<_>>()[..] {
        [] => fixed_list(),
        ["--random", count, seed] => random_list(count.parse().expect("N"), seed.parse().expect("SEED")),
        _ => panic!("make-list, or make-list --random N SEED"),
    };
    io::stdout().write_all(&list.bytes)
}

fn fixed_list() -> List {
    let mut list = List::default();
    for texts in [chosen::WORKED, chosen::SOFT, chosen::COMMENTS, chosen::DROPPED, chosen::SOFT_OVER_LINES] {
        list.in_all_modes(texts);
    }
    for texts in [chosen::LINES, chosen::INDENTATION, chosen::NAMES, chosen::NUMBERS, chosen::STRINGS] {
        list.texts(texts);
    }
    list.texts(chosen::OPERATORS);
    list.texts(chosen::RECIPES);
    line_ends(&mut list);
    bytes(&mut list);
    words(&mut list);
    operators(&mut list);
    prefixes(&mut list);
    refusals(&mut list);
    rooms(&mut list);
    depths(&mut list);
    faults(&mut list);
    let mut numbers = Numbers::new(1);
    for _ in 0..RANDOM_TEXTS {
        random(&mut list, &mut numbers);
    }
    check_reach(&list);
    list
}

fn random_list(count: usize, seed: u64) -> List {
    let mut list = List::default();
    let mut numbers = Numbers::new(seed);
    while list.seen.len() < count {
        random(&mut list, &mut numbers);
    }
    list
}

/// Line ends of every sort, in strings, comments, brackets and continuations too.
fn line_ends(list: &mut List) {
    for (turn, text) in texts::line_ends().iter().enumerate() {
        list.text(text.as_bytes(), turn);
    }
}

/// Ill-formed sequences and their neighbours, alone and inside a text.
fn bytes(list: &mut List) {
    for (turn, sequence) in chosen::BYTES.iter().enumerate() {
        list.text(sequence, turn);
        list.text(&[b"ab = '", *sequence, b"'\n"].concat(), turn + 1);
    }
}

/// Keywords, and words that are nearly one.
fn words(list: &mut List) {
    for (turn, word) in chosen::WORDS.split(' ').enumerate() {
        list.text(word.as_bytes(), turn);
        list.text(format!("{word}_ {} {}", word.to_uppercase(), &word[1..]).as_bytes(), turn);
        list.text(format!("a.{word}\u{e9}({word})").as_bytes(), turn + 1);
    }
}

/// Every pair of characters of operators, and each operator between names.
fn operators(list: &mut List) {
    let characters = chosen::OPERATOR_CHARACTERS;
    for (turn, a) in characters.chars().enumerate() {
        list.text(format!("a{a}b").as_bytes(), turn);
        for b in characters.chars() {
            list.text(format!("{a}{b}").as_bytes(), turn);
        }
    }
    for op in ["**", "**=", "//", "//=", "<<", "<<=", ">>", ">>=", "..."] {
        list.text(format!("a{op}b{op}=c").as_bytes(), 0);
    }
}

/// Every prefix of one or two letters, with both quotes, tripled or not.
fn prefixes(list: &mut List) {
    let letters = ["", "r", "R", "u", "U", "b", "B", "f", "F", "x"];
    for (turn, first) in letters.iter().enumerate() {
        for second in letters {
            for (quote, more) in [("'", 0), ("\"", 1), ("'''", 2), ("\"\"\"", 3)] {
                list.text(format!("{first}{second}{quote}a{quote}").as_bytes(), turn + more);
            }
        }
    }
}

/// The refusals' order, and their edges.
fn refusals(list: &mut List) {
    let texts: [&[u8]; 4] = [b"", b"x", b"x\xff", b"x)"];
    for mode in [0, 1, 2, 3, 4, 5, 6, 255, 1 << 31, u32::MAX] {
        for text in texts {
            for start in [0, 1, u32::MAX - 2, u32::MAX - 1, u32::MAX] {
                for row in [0, 2 * STRIDE] {
                    list.ask(text, mode, start, row);
                }
            }
        }
    }
}

/// Every length of a row from none to more than enough, for readings that end well and for ones that do not.
fn rooms(list: &mut List) {
    for text in
        ["", "x", "if a:\n b\nc", "if a:\n b\n!", "x = (1,\n2)\n", "match x: y\n", "x\n y\n  $", "x)", "a:\n b:\n  c"]
    {
        rooms_of(list, text, 0);
    }
    for text in ["#a", "#a\n\n b #c\n", "(#a\n\n)\n#b", "a:\n b\n#c\nd", "a:\n b\n#c\n$", "(\n#a\n!"] {
        rooms_of(list, text, FULL);
    }
}

fn rooms_of(list: &mut List, text: &str, mode: u32) {
    let need = STRIDE * answer(text.as_bytes(), mode, 0).records.len();
    for row in 0..=need + STRIDE + 1 {
        list.ask(text.as_bytes(), mode, 5, row);
    }
}

/// 99 to 102 levels; at last with comments and newlines before the level that is too many, and no room for Dedents.
fn depths(list: &mut List) {
    let [of_levels, with_dedents] = [STRIDE * 334, STRIDE * 420];
    for (depth, tabs, tail) in
        [(99, 0, "x"), (100, 0, ""), (100, 100, "x"), (101, 0, ""), (101, 50, "x"), (102, 200, ""), (100, 1, "$")]
    {
        let text = texts::nested(depth, tabs, "a") + tail;
        list.ask(text.as_bytes(), depth as u32 % MODES, 0, with_dedents);
    }
    for tail in ["x", "$", "#c", "\u{c}x", "!"] {
        let text = texts::nested(100, 100, "") + &texts::nested(100, 100, "a") + &texts::blanks(101, 100) + tail;
        list.ask(text.as_bytes(), 0, 0, of_levels);
        let text = texts::nested(100, 100, "a") + "#a\n\r\n\t#b\r" + &texts::blanks(101, 100) + tail;
        list.ask(text.as_bytes(), FULL, 0, of_levels);
    }
}

/// Ill-formed sequences at a text's start and behind lines and characters, each where the text starts at 0 and further on.
fn faults(list: &mut List) {
    for (turn, sequence) in chosen::ILL_FORMED.iter().enumerate() {
        let behind = [chosen::WELL_FORMED.as_bytes(), sequence].concat();
        let mode = turn as u32 % MODES;
        for start in [0, 1000 + turn as u32] {
            list.ask(sequence, mode, start, turn % (STRIDE + 1));
            list.ask(&behind, mode, start, 20 * STRIDE + turn);
        }
    }
}

/// A random text, with a mode, a start and a row that mostly suit it.
fn random(list: &mut List, numbers: &mut Numbers) {
    let mut text = Vec::new();
    texts::random(numbers, &mut text);
    let mode = if numbers.once_in(50) { numbers.next() as u32 } else { numbers.mode() };
    let start = numbers.of(&[0, 0, 0, 1, 1000, u32::MAX - text.len() as u32]);
    let need = STRIDE * answer(&text, mode, start).records.len();
    let row = if numbers.once_in(4) { numbers.below(need + 2 * STRIDE) } else { need + numbers.below(STRIDE) };
    list.ask(&text, mode, start, row);
}

/// Every code, every kind, every fault and the first lines are in the list.
fn check_reach(list: &List) {
    for code in (0..=4).chain(20..=33) {
        assert!(list.codes.contains(&code), "no frame has code {code}");
    }
    for kind in (0..=8).chain(10..=23).chain(30..=76).chain(100..=134).chain(140..=142) {
        assert!(list.kinds.contains(&kind), "no record has kind {kind}");
    }
    for fault in utf8::FAULTS {
        for (at_start, from_0) in [(true, true), (true, false), (false, true), (false, false)] {
            let found = list.faults.contains(&(fault, at_start, from_0));
            assert!(found, "no frame has fault {fault}, at its text's start: {at_start}, at start 0: {from_0}");
        }
    }
    for line in 0..=LAST_LINE {
        for from_0 in [true, false] {
            assert!(list.lines.contains(&(line, from_0)), "no record is on line {line}, at start 0: {from_0}");
        }
    }
    let (frames, bytes) = (list.seen.len(), list.bytes.len());
    eprintln!("the list has {frames} frames, {bytes} bytes, every code, kind and fault, lines 0 to {LAST_LINE}");
}
