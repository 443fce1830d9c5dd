//! Random texts and edits for the properties in tests/.
use quickcheck::{Arbitrary, Gen};
use sroviemat::{ffi::STRIDE, Mode};

pub mod plain;
#[path = "../../tests/plain/mod.rs"]
pub mod plain_lines;

/// Pieces that meet each other's rules: levels, newlines, brackets, strings, numbers, soft keywords, wide characters.
const PIECES: [&str; 64] = [
    "\n",
    "\n",
    "\n",
    "\n ",
    "\n  ",
    "\n\t",
    "\n\t\t",
    "\r",
    "\r\n",
    "\r\n\t",
    "\\\n",
    "\\",
    " ",
    "  ",
    "\t",
    "\x0c",
    "(",
    ")",
    "[",
    "]",
    "{",
    "}",
    ":",
    ":",
    "=",
    "==",
    ",",
    ".",
    "...",
    "!",
    "!=",
    "?",
    "'",
    "\"",
    "'''",
    "\"\"\"",
    "f'",
    "rb\"",
    "'x'",
    "#",
    "# c\n",
    "0",
    "00",
    "07",
    "1_",
    "1.",
    "1e",
    "1.e",
    "0x",
    "2j",
    "match ",
    "case ",
    "type ",
    "lambda",
    "if x:\n",
    "if x:\n ",
    "else:\n\t",
    "x",
    "y ",
    "é",
    "\u{1f40d}",
    "\u{feff}",
    "\u{301}",
    "\u{2028}",
];

/// Lines that read well after one another, so that an edit has something to keep.
const LINES: [&str; 21] = [
    "x = 1\n",
    "if x:\n  y\n",
    "if x:\n\ty\n",
    "while é:\r\n  if z:\r\n    ...\r\n",
    "match x:\n  case (1, 2): pass\n",
    "type X[T] = int\n",
    "type = match\n",
    "f(a,\n  b)\n",
    "'''a\nb'''\n",
    "rb'x' ; f\"y\"\n",
    "# a comment\n",
    "# a run\n  # of comments\r\n",
    "if x:\n  y\n  # deeper\n",
    "f(a, # b\n\n# c\r\n  d)\n",
    "type X[T, # the type\n] = int\n",
    "type X[(]\n=1)\n",
    "\n",
    "x\r",
    "a \\\n  + 0x1f\n",
    "if x:\n  if y:\n# at the margin\n    z\n",
    "\u{1f40d} != 1e5\r\n",
];

/// What a line of a program says behind its blanks; the last five are faulty, alone or together.
const STATEMENTS: [&str; 15] = [
    "x = 1",
    "y  # c",
    "f(a, b)",
    "f(\n  1,\n# c\n  # d\n 2)",
    "'''s\n# t\n'''",
    "x \\\n  + 1",
    "x \\\n # c",
    "é(a)(\n)",
    "[{\n}]",
    "pass",
    "h([\n",
    "])",
    "\\",
    "$",
    ")",
];

/// A program of blocks within blocks, with comments at any indentation between its lines.
#[derive(Clone, Debug)]
pub struct Program(pub Text);

impl Arbitrary for Program {
    fn arbitrary(g: &mut Gen) -> Program {
        let (mut levels, mut lines) = (vec![String::new()], Vec::new());
        for _ in 0..usize::arbitrary(g) % (g.size() + 1) {
            let level = levels[levels.len() - 1].clone();
            match u8::arbitrary(g) % 16 {
                0..=3 => {
                    let inner = level.clone() + one_of(g, &[" ", "  ", "    ", "\t"]);
                    lines.push(level + one_of(g, &["if a:", "with b:  # c", "def f(\n  x\n):"]));
                    lines.push(inner.clone() + one_of(g, &["x", "# c"]));
                    levels.push(inner);
                }
                4..=6 => levels.truncate(1 + usize::arbitrary(g) % levels.len()),
                7 | 8 => lines.push(one_of(g, &["", "   ", "\x0c"]).to_owned()),
                9 | 10 => lines.push(" ".repeat(usize::arbitrary(g) % 9) + "# c"),
                11 | 12 => lines.push(levels[usize::arbitrary(g) % levels.len()].clone() + "# c"),
                13 => lines.push(level + one_of(g, &STATEMENTS)),
                _ => lines.push(level + one_of(g, &STATEMENTS[..10])),
            }
        }
        let end = one_of(g, &["\n", "\n", "\r\n", "\r"]);
        let text = lines.join("\n") + one_of(g, &["", "\n"]);
        Program(Text(text.replace('\n', end)))
    }

    fn shrink(&self) -> Box<dyn Iterator<Item = Program>> {
        Box::new(self.0.shrink().map(Program))
    }
}

fn one_of(g: &mut Gen, choices: &[&'static str]) -> &'static str {
    g.choose(choices).copied().unwrap_or_default()
}

/// A text of such lines and pieces, or now and then one of any characters.
#[derive(Clone, Debug)]
pub struct Text(pub String);

impl Arbitrary for Text {
    fn arbitrary(g: &mut Gen) -> Text {
        // Of eight parts, how many are lines: none, seven or all.
        let lines = match g.choose(&[0, 1, 1, 2, 2, 2]) {
            Some(0) => return Text(String::arbitrary(g)),
            Some(1) => 0,
            _ => *g.choose(&[7, 8]).unwrap_or(&8),
        };
        let parts = usize::arbitrary(g) % (g.size() + 1);
        let part = |_| if u8::arbitrary(g) % 8 < lines { g.choose(&LINES) } else { g.choose(&PIECES) };
        Text((0..parts).filter_map(part).copied().collect())
    }

    /// The same without a part of its characters, smaller parts later.
    fn shrink(&self) -> Box<dyn Iterator<Item = Text>> {
        Box::new(shorter(self.0.chars().collect()).map(|letters: Vec<char>| Text(letters.into_iter().collect())))
    }
}

/// A list without a part of it, smaller parts later.
fn shorter<T: Clone + 'static>(list: Vec<T>) -> impl Iterator<Item = Vec<T>> {
    let halves = std::iter::successors(Some(list.len()), |&size| Some(size / 2)).take_while(|&size| size > 0);
    halves.flat_map(move |size| {
        let list = list.clone();
        (0..list.len()).step_by(size).map(move |from| {
            let kept = list.iter().enumerate().filter(|(i, _)| !(from..from + size).contains(i));
            kept.map(|(_, item)| item.clone()).collect()
        })
    })
}

/// A row of records of which most are brackets: runs of openers up to some more than 200, of closers that are right for
/// them, a closer of any kind, and records that are no brackets.
#[derive(Clone, Debug)]
pub struct Brackets(pub Vec<u32>);

impl Arbitrary for Brackets {
    fn arbitrary(g: &mut Gen) -> Brackets {
        const OPENERS: [u32; 3] = [57, 59, 61];
        let (mut kinds, mut open) = (Vec::new(), Vec::new());
        for _ in 0..usize::arbitrary(g) % 16 {
            let run = *g.choose(&[1, 1, 2, 3, 7, 60, 130, 199, 200]).unwrap_or(&1);
            match u8::arbitrary(g) % 8 {
                0..=2 => {
                    let run: Vec<u32> = (0..run).filter_map(|_| g.choose(&OPENERS).copied()).collect();
                    kinds.extend(&run);
                    open.extend(run);
                }
                3..=5 => kinds.extend(open.drain(open.len().saturating_sub(run)..).rev().map(|opener| opener + 1)),
                6 => kinds.extend(g.choose(&OPENERS).map(|opener| opener + 1)),
                _ => kinds.push(*g.choose(&[0, 3, 8, 9, 56, 63, u32::MAX]).unwrap_or(&0)),
            }
        }
        let record = |kind| [kind, u32::arbitrary(g) % 99, u32::arbitrary(g) % 99, u32::arbitrary(g) % 99];
        Brackets(kinds.into_iter().flat_map(record).collect())
    }

    /// The same without some of its records.
    fn shrink(&self) -> Box<dyn Iterator<Item = Brackets>> {
        let records: Vec<Vec<u32>> = self.0.chunks_exact(STRIDE).map(<[u32]>::to_vec).collect();
        Box::new(shorter(records).map(|records| Brackets(records.concat())))
    }
}

/// Bytes of which many begin, continue or break a character.
#[derive(Clone, Debug)]
pub struct Bytes(pub Vec<u8>);

impl Arbitrary for Bytes {
    fn arbitrary(g: &mut Gen) -> Bytes {
        let of_utf8 = |g: &mut Gen| {
            let first =
                *g.choose(&[b'x', b'\n', 0x80, 0xa0, 0xc0, 0xc3, 0xe0, 0xe9, 0xed, 0xf0, 0xf4, 0xf5]).unwrap_or(&0);
            first.wrapping_add(*g.choose(&[0, 0, 1, 0xf, 0x10, 0x1f]).unwrap_or(&0))
        };
        let length = usize::arbitrary(g) % 8;
        Bytes((0..length).map(|_| if bool::arbitrary(g) { of_utf8(g) } else { u8::arbitrary(g) }).collect())
    }

    fn shrink(&self) -> Box<dyn Iterator<Item = Bytes>> {
        Box::new(self.0.shrink().map(Bytes))
    }
}

/// Any of the modes.
#[derive(Clone, Copy, Debug)]
pub struct AnyMode(pub Mode);

impl Arbitrary for AnyMode {
    fn arbitrary(g: &mut Gen) -> AnyMode {
        AnyMode(*g.choose(&Mode::ALL).unwrap_or(&Mode::Module))
    }
}

/// An edit: two places, as parts of a text of any length, and what is put between them. Some do not fit the text.
#[derive(Clone, Debug)]
pub struct Edit {
    from: u16,
    to: u16,
    with: Text,
}

impl Edit {
    /// The range within a text of so many bytes; one in 64 lies outside it.
    pub fn range(&self, bytes: usize) -> std::ops::Range<usize> {
        let place = |part: u16| part as usize * (bytes + 1) / 64_512;
        let (from, to) = (place(self.from), place(self.to));
        from.min(to)..from.max(to)
    }

    /// What is put there.
    pub fn with(&self) -> &str {
        &self.with.0
    }
}

impl Arbitrary for Edit {
    fn arbitrary(g: &mut Gen) -> Edit {
        let from = u16::arbitrary(g);
        // Most edits are short, as those of someone who types.
        let near = u16::arbitrary(g) % 4096;
        let to = if u8::arbitrary(g) < 200 { from.saturating_add(near) } else { u16::arbitrary(g) };
        let mut few = Gen::new(4);
        let with = if bool::arbitrary(g) { Text::arbitrary(&mut few) } else { Text::arbitrary(g) };
        Edit { from, to, with }
    }

    fn shrink(&self) -> Box<dyn Iterator<Item = Edit>> {
        let edit = self.clone();
        Box::new(self.with.shrink().map(move |with| Edit { with, ..edit.clone() }))
    }
}
