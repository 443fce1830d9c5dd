//! Which fault our doors name in bytes that are not UTF-8 (document 02 item 2), against the RFC's rows in oracle::utf8.
//! Rust's own reader of UTF-8 must stop at the same place, and of fault 3 alone say that the text might go on.
//!
//! Asked are all texts of up to three bytes, and those of up to two between other bytes; and between other bytes, from
//! a first byte E0 to FF on, all of up to four over the edges of the RFC's ranges. Each is asked in one mode, at one
//! start, of all doors that take a text.
use crate::{check::smaller, ours, parts::Share, tallies::Tallies};
use oracle::{
    chosen,
    texts::{Alphabet, UTF8_EDGES},
    utf8::{first_fault, Fault, FAULTS},
    Numbers, ANSWER,
};

/// The topic by which texts are counted.
const FAULT: &str = "fault";

/// What document 02 says of a few sequences at the end of a text, read by hand.
#[rustfmt::skip]
const BY_HAND: &[(&[u8], u32)] = &[
    (b"\x80", 1), (b"\xbf", 1), (b"\xc0", 2), (b"\xc1\x80", 2), (b"\xf5", 2), (b"\xff", 2),
    (b"\xc2", 3), (b"\xe0", 3), (b"\xe1\x80", 3), (b"\xed", 3), (b"\xed\x9f", 3), (b"\xf0", 3), (b"\xf0\x90\x80", 3), (b"\xf4\x8f", 3),
    (b"\xc2A", 4), (b"\xe0A", 4), (b"\xe1\x80A", 4), (b"\xed\xc0", 4), (b"\xf0\xc0", 4), (b"\xf4\xff", 4), (b"\xf0\x90\x80A", 4),
    (b"\xe0\x80", 5), (b"\xe0\x9f\xbf", 5), (b"\xe0\x80A", 5), (b"\xf0\x80", 5), (b"\xf0\x8f\xbf\xbf", 5),
    (b"\xed\xa0", 6), (b"\xed\xa0\x80", 6), (b"\xed\xa0A", 6), (b"\xed\xbf\xff", 6),
    (b"\xf4\x90", 7), (b"\xf4\x90\x80\x80", 7), (b"\xf4\xbfA", 7),
];

/// What may stand before bytes, and behind them.
const BEFORE: [&str; 4] = ["", "x", "\u{e9}", chosen::WELL_FORMED];
const BEHIND: [&[u8]; 5] = [b"", b"x", b"\x80", b"\xff", "\u{4e2d}".as_bytes()];

/// The rows say what was read by hand, or the program ends here.
pub fn by_hand() {
    for (bytes, number) in BY_HAND {
        for before in BEFORE {
            let found = first_fault(&[before.as_bytes(), bytes].concat());
            let found = found.map(|(place, fault)| (place as usize, fault as u32));
            assert_eq!(found, Some((before.len(), *number)), "\"{}\" behind {before:?}", bytes.escape_ascii());
        }
    }
}

/// All texts of up to three bytes.
pub fn short_texts(share: Share, faults: &mut Faults) {
    each(share, all_bytes(3), |text, numbers| faults.ask_somehow(text, numbers));
}

/// All texts of up to two bytes between other bytes.
pub fn pairs(share: Share, faults: &mut Faults) {
    each(share, all_bytes(2), |text, numbers| faults.ask_between(text, numbers));
}

/// First bytes that need two more at least, or are none; then up to three bytes at the edges; between other bytes.
pub fn edges(share: Share, faults: &mut Faults) {
    each(share, Alphabet::of_bytes("edges", UTF8_EDGES.into_iter(), 3), |rest, numbers| {
        for first in 0xe0..=0xff {
            faults.ask_between(&[&[first], rest].concat(), numbers);
        }
    });
}

fn all_bytes(longest: usize) -> Alphabet {
    Alphabet::of_bytes("all bytes", 0..=255, longest)
}

/// A thread's share of the texts over an alphabet, each with numbers of its own.
fn each(share: Share, alphabet: Alphabet, mut ask: impl FnMut(&[u8], &mut Numbers)) {
    let mut text = Vec::new();
    for number in share.of(0..alphabet.size()) {
        alphabet.text(number, &mut text);
        ask(&text, &mut Numbers::new(number));
    }
}

/// A text, a mode and a start.
type Question = (Vec<u8>, u32, u32);

/// Asks, counts, and keeps the smallest question on which the sides differ.
#[derive(Default)]
pub struct Faults {
    pub texts: u64,
    pub differences: u64,
    pub smallest: Option<Question>,
    pub tallies: Tallies,
}

impl Faults {
    /// Bytes with all that may stand before and behind them.
    fn ask_between(&mut self, bytes: &[u8], numbers: &mut Numbers) {
        for before in BEFORE {
            for behind in BEHIND {
                self.ask_somehow(&[before.as_bytes(), bytes, behind].concat(), numbers);
            }
        }
    }

    /// A text in some mode, at some start.
    fn ask_somehow(&mut self, text: &[u8], numbers: &mut Numbers) {
        let start = numbers.of(&[0, 1, 1000, u32::MAX - text.len() as u32]);
        self.ask(text, numbers.mode(), start);
    }

    fn ask(&mut self, text: &[u8], mode: u32, start: u32) {
        self.texts += 1;
        match compared(text, mode, start) {
            Ok(None) => self.tallies.add(FAULT, "none"),
            Ok(Some(fault)) => self.tallies.add_number(FAULT, fault as u32),
            Err(_) => {
                self.differences += 1;
                self.keep((text.to_vec(), mode, start));
            }
        }
    }

    fn keep(&mut self, question: Question) {
        if self.smallest.as_ref().map_or(true, |kept| question.0.len() < kept.0.len()) {
            self.smallest = Some(question);
        }
    }

    /// Takes over what another one counted and kept.
    pub fn join(&mut self, other: Faults) {
        self.texts += other.texts;
        self.differences += other.differences;
        self.tallies.join(other.tallies);
        other.smallest.into_iter().for_each(|question| self.keep(question));
    }

    /// Whether every fault came up.
    pub fn of_all_sorts(&self) -> bool {
        FAULTS.into_iter().all(|fault| self.tallies.of_number(FAULT, fault) > 0)
    }
}

/// The first ill-formed sequence's place and fault.
type Found = Option<(u32, Fault)>;

/// The fault of a text, if all sides agree on it; else who does not.
fn compared(text: &[u8], mode: u32, start: u32) -> Result<Option<Fault>, &'static str> {
    let found = first_fault(text);
    if !as_rust_says(text, found) {
        return Err("Rust's reader of UTF-8 differs from the RFC's rows");
    }
    let mut doors = answers(text, mode, start).into_iter().zip([start, start, 0]);
    if !doors.all(|(answer, start)| is_right(answer, start, found)) {
        return Err("a door of ours differs from the RFC's rows");
    }
    Ok(found.map(|(_, fault)| fault))
}

/// Whether Rust's own reader of UTF-8 stops at the same place, and misses bytes at the text's end in fault 3 alone.
fn as_rust_says(text: &[u8], found: Found) -> bool {
    match (std::str::from_utf8(text), found) {
        (Ok(_), None) => true,
        (Err(error), Some((place, fault))) => {
            error.valid_up_to() == place as usize && error.error_len().is_none() == (fault == Fault::CutByEnd)
        }
        _ => false,
    }
}

/// What measuring, reading and re-reading answer, without a row to write to; re-reading knows no start.
fn answers(text: &[u8], mode: u32, start: u32) -> [[u32; ANSWER]; 3] {
    [ours::measure(text, mode, start), ours::read(text, mode, start, &mut []), ours::reread(text, mode, &mut [], 0, 0)]
}

/// Whether an answer names what was found; what else it may say of a well-formed text is for the other parts.
fn is_right(answer: [u32; ANSWER], start: u32, found: Found) -> bool {
    match found {
        Some((place, fault)) => answer == [3, 0, start + place, fault as u32],
        None => answer[0] != 3,
    }
}

/// A question on which the sides differ, made smaller, for people.
pub fn show((text, mode, start): Question) -> String {
    let text = smaller(text, |part| compared(part, mode, start).is_err());
    let why = compared(&text, mode, start).err().unwrap_or("nothing");
    let (found, rust) = (first_fault(&text), std::str::from_utf8(&text).err());
    let answers = answers(&text, mode, start);
    format!(
        "    text \"{}\" mode {mode} start {start}: {why}\n    rows {found:?}\n    Rust {rust:?}\n    ours, measure read reread {answers:?}",
        text.escape_ascii()
    )
}
