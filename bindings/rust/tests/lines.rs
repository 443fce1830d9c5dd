//! Lines and columns, against counting them from the text's start.
use plain::{lines, misplaced};
use sroviemat::{read, read_part, Document, Lines, Mode, Position};
use std::path::Path;

mod plain;

/// Texts with each line end, wide characters, a BOM, and lines longer than the index's steps.
fn texts() -> Vec<String> {
    let short = ["", "\n", "a", "a\rb\r\nc\n\nd", "\u{feff}a\n\u{feff}b", "é\u{1f40d}\r\u{4e2d}\r\n", "\r\r\n\n\r"];
    let long = ["é", "\u{1f40d}a", "abc", "\u{4e2d}\r\n", "0123456789abcdef"].map(|part| part.repeat(300));
    let mixed = long.concat() + "\u{1f40d}\n" + &long.concat();
    short.iter().map(|&text| text.to_owned()).chain(long).chain([mixed]).collect()
}

fn counts(position: Position) -> (u32, u32, u32, u32) {
    (position.line, position.bytes, position.chars, position.utf16)
}

#[test]
fn every_place() {
    for text in texts() {
        let (index, plain) = (Lines::new(&text), lines(&text));
        let (reading, document) = (read(&text, Mode::Module).unwrap(), Document::new(&*text, Mode::Module).unwrap());
        assert_eq!(index.count(), plain.len());
        for (number, &(start, line)) in plain.iter().enumerate() {
            assert_eq!(index.line(number), Some(start..start + line.len()));
            for at in (0..=line.len()).filter(|&at| line.is_char_boundary(at)) {
                let before = &line[..at];
                let seen = if start == 0 { before.trim_start_matches('\u{feff}') } else { before };
                let expected =
                    [number, at, seen.chars().count(), before.encode_utf16().count()].map(|count| count as u32);
                let position = index.position(start + at);
                assert_eq!(counts(position), (expected[0], expected[1], expected[2], expected[3]), "{at} in {line:?}");
                assert_eq!(position.to_string(), format!("{}:{}", expected[0] + 1, expected[2] + 1));
                assert_eq!(index.at_utf16(position.line, position.utf16), Some(start + at));
                assert_eq!([reading.position(&text, start + at), document.position(start + at)], [position; 2]);
            }
        }
        assert_eq!((index.line(plain.len()), index.at_utf16(plain.len() as u32, 0)), (None, None));
        let end = index.position(text.len());
        let behind = [index.position(usize::MAX), reading.position(&text, usize::MAX), document.position(usize::MAX)];
        assert_eq!(behind, [end; 3]);
    }
}

/// A text with each of its line ends written in each way.
fn mixed(text: &str) -> Vec<String> {
    let mut texts = vec![String::new()];
    for (index, part) in text.split('\n').enumerate() {
        let ends: &[&str] = if index == 0 { &[""] } else { &["\n", "\r", "\r\n"] };
        texts = texts.iter().flat_map(|text| ends.iter().map(move |end| [text, *end, part].concat())).collect();
    }
    texts
}

/// Line ends behind comments and backslashes, of blank lines, in strings and in brackets, and before a fault.
const PROGRAM: &str = "if a:  # b\n\n\t'''c\nd''' \\\n + [\n# é\n]\nf $";

#[test]
fn tokens_have_their_lines() {
    for text in mixed(PROGRAM) {
        for text in [text.clone(), "\u{feff}".to_owned() + &text] {
            for mode in Mode::ALL {
                let reading = read(&text, mode).unwrap();
                assert_eq!(misplaced(&text, reading.tokens()), None, "{text:?} as {mode}");
            }
        }
    }
}

/// A part is read by itself, and its tokens have the whole text's lines, also where it begins or ends within a CR LF.
#[test]
fn tokens_of_parts_have_the_whole_texts_lines() {
    for text in mixed("(a\n\n)\nif b:\n c\nd") {
        let lines = Lines::new(&text);
        for (start, end) in (0..=text.len()).flat_map(|start| (start..=text.len()).map(move |end| (start, end))) {
            for mode in [Mode::Module, Mode::ModuleWithComments] {
                let reading = read_part(&text, mode, start..end).unwrap();
                assert_eq!(misplaced(&text, reading.tokens()), None, "{start}..{end} of {text:?} as {mode}");
                let ending = reading.ending();
                assert_eq!(ending.position(&text), lines.position(ending.place() as usize));
                assert_eq!(reading.position(&text, end), lines.position(end), "{start}..{end} of {text:?} as {mode}");
            }
        }
    }
}

/// Tokens of another text: the position of their places in this one, and no panic.
#[test]
fn tokens_of_another_text() {
    let texts = texts();
    let readings: Vec<_> = texts.iter().map(|text| read(text, Mode::ModuleWithComments).unwrap()).collect();
    for text in &texts {
        let lines = Lines::new(text);
        for reading in &readings {
            for token in reading.tokens().take(100) {
                assert_eq!(lines.position_of(token), lines.position(token.range().start));
                let moved = token.moved(-1).moved_lines(-1);
                assert_eq!(lines.position_of(moved), lines.position(moved.range().start));
                reading.position(text, token.range().end);
                moved.position(text);
            }
        }
    }
}

#[test]
fn positions_in_files() {
    let position = Lines::new("gold\n\tleaf").position(6);
    assert_eq!(position.in_file("a.py").to_string(), "a.py:2:2");
    assert_eq!(position.in_file(Path::new("b c/a.py").display()).to_string(), "b c/a.py:2:2");
    assert_eq!(Position::default().in_file(String::new()).to_string(), ":1:1");
    assert_eq!(position.in_file("a.py"), position.in_file("a.py"));
}

#[test]
fn places_between() {
    let text = "é\u{1f40d}\r\nb";
    let lines = Lines::new(text);
    // Within a character, and between the two bytes of a line end.
    assert_eq!(counts(lines.position(3)), (0, 3, 2, 3));
    assert_eq!(counts(lines.position(7)), (0, 7, 3, 4));
    assert_eq!(counts(lines.position(8)), (1, 0, 0, 0));
    // Between the two units of a character, and behind a line's end.
    assert_eq!((lines.at_utf16(0, 2), lines.at_utf16(0, 9), lines.at_utf16(1, 9)), (Some(2), Some(6), Some(9)));
    assert_eq!(lines.at_utf16(u32::MAX, u32::MAX), None);
}

/// Bytes of an old encoding: each that continues nothing counts.
#[test]
fn bytes_that_are_not_utf8() {
    let lines = Lines::new(b"caf\xe9 \xff\nx");
    assert_eq!(lines.position(5).to_string(), "1:6");
    assert_eq!(lines.position(7).to_string(), "2:1");
}
