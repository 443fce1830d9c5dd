//! Whole readings: the definition's examples, the original's answers from the fixed list, refusals.
use sroviemat::{
    audit, ffi, measure, read, read_into, read_part, tokenize, Cause, EditError, Ending, Error, Kind, Lines, Mode,
    Refusal, Row, Utf8Fault, WrongBracket, MOST_BYTES,
};
use std::{fs, ops::Range, path::Path};

/// A reading as numbers: code, count, place, and the records.
fn numbers(text: &str) -> (u32, usize, u32, Vec<u32>) {
    let reading = read(text, Mode::Module).unwrap();
    let ending = reading.ending();
    (ending.code(), reading.tokens().len(), ending.place(), reading.row().numbers().to_vec())
}

/// The definition's table of readings to be checked by eye, but for its last row, of which it gives only the first record.
#[test]
fn the_table_checked_by_eye() {
    let table: [(&str, u32, usize, u32, &[u32]); 11] = [
        ("", 0, 0, 0, &[]),
        ("x", 0, 2, 1, &[3, 0, 1, 0, 0, 1, 1, 0]),
        ("x\r\ny", 0, 4, 4, &[3, 0, 1, 0, 0, 1, 3, 0, 3, 3, 4, 1, 0, 4, 4, 1]),
        ("00", 0, 2, 2, &[4, 0, 2, 0, 0, 2, 2, 0]),
        ("0_7", 31, 0, 3, &[]),
        ("1e", 0, 3, 2, &[4, 0, 1, 0, 3, 1, 2, 0, 0, 2, 2, 0]),
        ("1.e", 30, 0, 3, &[]),
        (" \t\n", 25, 0, 1, &[]),
        ("x)", 22, 1, 2, &[3, 0, 1, 0]),
        (
            "if a:\n b\n!",
            26,
            7,
            9,
            &[120, 0, 2, 0, 3, 3, 4, 0, 63, 4, 5, 0, 0, 5, 6, 0, 1, 6, 7, 1, 3, 7, 8, 1, 0, 8, 9, 1],
        ),
        ("\u{feff}\u{feff}", 26, 0, 6, &[]),
    ];
    for (text, code, count, place, records) in table {
        assert_eq!(numbers(text), (code, count, place, records.to_vec()), "{text:?}");
    }
    let (code, count, place, records) = numbers("type X[(]][=1]");
    assert_eq!((code, count, place, &records[..ffi::STRIDE]), (0, 11, 14, &[142, 0, 4, 0][..]));
    let fault = |text| read(text, Mode::Module).unwrap().ending().fault();
    let bang = fault("if a:\n b\n!").unwrap();
    assert_eq!((bang.cause, bang.place), (Cause::UnrecognizedToken('!'), 9));
    assert_eq!(fault("\u{feff}\u{feff}").unwrap().char(), Some('\u{feff}'));
    assert_eq!(fault("x"), None);
}

fn levels(count: usize) -> String {
    (0..count).map(|level| format!("{}if a:\n", " ".repeat(level))).collect::<String>() + &" ".repeat(count) + "b\n"
}

#[test]
fn a_hundred_levels_pass() {
    assert!(read(levels(100), Mode::Module).unwrap().ending().is_end());
    let ending = read(levels(101), Mode::Module).unwrap().ending();
    assert_eq!(ending.fault().unwrap().cause, Cause::TooManyLevels);
}

/// The next 32-bit number of a list, little endian.
fn number(list: &mut &[u8]) -> u32 {
    let (head, rest) = list.split_at(4);
    *list = rest;
    u32::from_le_bytes([head[0], head[1], head[2], head[3]])
}

/// The fixed list holds the original's answers; its form is said in oracle/README.md. Each is asked through the
/// numbers, into a row of the length that the frame says, and where mode and start allow through the types too.
#[test]
fn the_originals_answers() {
    const LEFT: u32 = 0x5555_5555;
    let file = Path::new(env!("CARGO_MANIFEST_DIR")).join("../../crates/replay/stdin");
    let list = fs::read(&file).unwrap_or_else(|error| panic!("{}: {error}", file.display()));
    let mut list = &list[..];
    let mut frames = 0;
    while !list.is_empty() {
        let [mode, start, length, bytes, written] = [(); 5].map(|()| number(&mut list));
        let answer = [(); ffi::ANSWER].map(|()| number(&mut list));
        let (text, rest) = list.split_at(bytes as usize);
        list = rest;
        let written = ffi::STRIDE * written as usize;
        let mut expected: Vec<u32> = (0..written).map(|_| number(&mut list)).collect();
        expected.resize(length as usize, LEFT);
        let mut row = vec![LEFT; length as usize];
        let asked = format!("{text:?} mode {mode} start {start} row {length}");
        assert_eq!((ffi::read(text, mode, start, &mut row), &row), (answer, &expected), "{asked}");
        if let Ok(mode) = Mode::try_from(mode) {
            through_types(text, mode, start, answer, &expected[..written], &asked);
        }
        frames += 1;
    }
    assert!(frames > 5000, "{frames} frames");
}

/// What the types say where the numbers say this. A text at a start is a part of a longer one.
fn through_types(text: &[u8], mode: Mode, start: u32, answer: [u32; ffi::ANSWER], records: &[u32], asked: &str) {
    let [code, count, place, detail] = answer;
    let start = start as usize;
    if start > MOST_BYTES {
        return;
    }
    let whole = [&vec![b'?'; start], text].concat();
    match read_part(whole, mode, start..) {
        // A row that is made long enough has no code 4.
        Ok(reading) if code == 4 => assert_eq!(reading.tokens().len(), count as usize, "{asked}"),
        Ok(reading) => {
            let ending = reading.ending();
            assert_eq!((ending.code(), ending.place()), (code, place), "{asked}");
            assert_eq!(ending.char().map_or(0, u32::from), detail, "{asked}");
            let back: Vec<u32> = reading.tokens().flat_map(|token| token.record()).collect();
            assert_eq!((back.as_slice(), reading.row().numbers()), (records, records), "{asked}");
        }
        Err(Refusal::BadUtf8 { at, fault, .. }) => assert_eq!([3, 0, at, fault.number()], answer, "{asked}"),
        Err(refusal) => assert_eq!(refusal.code(), code, "{asked}"),
    }
}

#[test]
fn what_is_not_read_is_refused() {
    assert_eq!(tokenize(vec![b' '; MOST_BYTES + 1], Mode::Module), Err(Error::Refusal(Refusal::TooLong)));
    assert_eq!(read(vec![b' '; MOST_BYTES + 1], Mode::Module), Err(Refusal::TooLong));
    assert_eq!(measure(vec![b' '; MOST_BYTES + 1], Mode::Module), Err(Refusal::TooLong));
    let mut row = [7; 8];
    assert_eq!(read_into("x + y", Mode::Module, &mut row), Err(Refusal::NoRoom { needed: 4 }));
    assert_eq!(row, [7; 8]);
    assert_eq!(ffi::read(b"x", 6, 0, &mut row), [2, 0, 0, 0]);
    assert_eq!(ffi::measure(b"x", 6, 0), [2, 0, 0, 0]);
    assert_eq!(ffi::reread(b"x", 6, &mut row, 0, 0), [2, 0, 0, 0]);
    assert_eq!(row, [7; 8]);
}

/// The longest text, and one with a record a byte and one.
#[test]
fn long_texts() {
    let comments = "#23456789abcdef\n".repeat(MOST_BYTES / 16);
    let reading = read(&comments, Mode::Module).unwrap();
    assert_eq!((reading.row().len(), reading.ending()), (0, Ending::End { place: MOST_BYTES as u32 }));
    let listed = read(&comments, Mode::ModuleWithComments).unwrap();
    assert_eq!((listed.row().len(), listed.ending()), (MOST_BYTES / 8, reading.ending()));
    let (half, bytes) = (1 << 20, 2 << 20);
    let brackets = "(".repeat(half) + &")".repeat(half);
    let reading = read(&brackets, Mode::Module).unwrap();
    assert_eq!((reading.tokens().len(), reading.ending()), (bytes + 1, Ending::End { place: bytes as u32 }));
    assert_eq!(measure(&brackets, Mode::Module), Ok((bytes + 1, reading.ending())));
    assert_eq!(reading.row().audit(), Ok(Some(WrongBracket::TooMany { opener: 200 })));
    let pairs = read("()".repeat(half), Mode::Module).unwrap();
    assert_eq!(pairs.row().audit(), Ok(None));
}

#[test]
fn tokens_from_both_ends_and_by_index() {
    let text = "if a:\n\tb = f'{x}'\n";
    let reading = read(text, Mode::Module).unwrap();
    let row = reading.row();
    let tokens: Vec<_> = row.iter().collect();
    assert_eq!(tokens, tokenize(text, Mode::Module).unwrap());
    assert_eq!(tokens, reading.clone().into_tokens().unwrap());
    assert_eq!(tokens.len(), row.len());
    let mut back: Vec<_> = row.iter().rev().collect();
    back.reverse();
    assert_eq!(back, tokens);
    for (index, &token) in tokens.iter().enumerate() {
        assert_eq!((row.get(index), row.iter().nth(index)), (Some(token), Some(token)));
    }
    assert_eq!((row.get(tokens.len()), row.get(usize::MAX)), (None, None));
    for range in [0..0, 2..5, 0..tokens.len(), tokens.len()..tokens.len()] {
        assert!(row.slice(range.clone()).unwrap().iter().eq(tokens[range].iter().copied()));
    }
    assert_eq!((row.slice(tokens.len() + 1..), row.slice(..=tokens.len())), (None, None));
    assert_eq!((tokens[1].moved(4).range(), tokens[1].moved(-3).range()), (7..8, 0..1));
    assert_eq!((tokens[5].line(), tokens[5].moved(4).line()), (1, 1));
    assert_eq!(tokens[5].moved_lines(2).moved_lines(-3).record(), [3, 7, 8, 0]);
    assert_eq!(tokens[5].to_string(), "name 7..8 in line 1");
    assert!(row.iter().next_back().unwrap().is_empty());
    assert_eq!(tokens[0].text("i"), None);
    assert_eq!(Row::new(row.numbers()), Ok(row));
    assert!(format!("{row:?}").contains("Keyword(If)"));
}

/// What the audit finds in a text that was read.
fn audited(text: &str) -> Option<WrongBracket> {
    read(text, Mode::Module).unwrap().row().audit().unwrap()
}

const fn mismatched(closer: usize, opener: usize) -> Option<WrongBracket> {
    Some(WrongBracket::Mismatched { closer, opener })
}

const fn unopened(closer: usize) -> Option<WrongBracket> {
    Some(WrongBracket::Unopened { closer })
}

const fn too_many(opener: usize) -> Option<WrongBracket> {
    Some(WrongBracket::TooMany { opener })
}

#[test]
fn audits() {
    for right in ["", "()", "([{}])", "{[()]}", "()[]{}", "f(a[1], {b: (c)})[0]", "([", "x = '(]' # )"] {
        assert_eq!(audited(right), None, "{right}");
    }
    for (text, wrong) in [
        ("([)]", mismatched(2, 1)),
        ("([)", mismatched(2, 1)),
        ("a(b}", mismatched(3, 1)),
        ("[)]", mismatched(1, 0)),
        ("{[()]]", mismatched(5, 0)),
        ("f({'a': [1, 2], 'b': (3]})", mismatched(15, 13)),
        ("(\n[\n)\n]\n", mismatched(2, 1)),
        // The first of two, and before a fault.
        ("(] [)", mismatched(1, 0)),
        ("(]\n$", mismatched(1, 0)),
        ("([} 'a", mismatched(2, 1)),
    ] {
        assert_eq!((text, audited(text)), (text, wrong));
        assert_eq!(wrong.unwrap().index(), ffi_audited(text)[2] as usize);
    }
    // Comments and newlines within brackets are records too.
    let listed = read("( # [\n[\n)", Mode::ModuleWithComments).unwrap();
    assert_eq!(listed.row().audit(), Ok(mismatched(5, 3)));
}

/// The audit's numbers for a text that was read.
fn ffi_audited(text: &str) -> [u32; ffi::ANSWER] {
    let reading = read(text, Mode::Module).unwrap();
    ffi::audit(reading.row().numbers(), reading.row().len() as u32)
}

/// A row of records with these kinds.
fn row_of(kinds: impl IntoIterator<Item = u32>) -> Vec<u32> {
    kinds.into_iter().flat_map(|kind| [kind, 7, 8, 9]).collect()
}

#[test]
fn audits_of_altered_rows() {
    let found = |kinds: &[u32]| audit(&row_of(kinds.iter().copied())).unwrap();
    for closer in [58, 60, 62] {
        assert_eq!(found(&[closer]), unopened(0));
        assert_eq!(found(&[closer - 1, closer, closer]), unopened(2));
        assert_eq!(found(&[3, 57, 59, 60, 0, 58, closer, 57]), unopened(6));
    }
    // Numbers that are no kind's are no brackets.
    assert_eq!(found(&[9, 57, u32::MAX, 59, 77, 58, 60]), mismatched(5, 3));
    // What is left over behind the last record is none.
    assert_eq!(audit(&[60, 9, 0, 1, 60]), Ok(unopened(0)));
    assert_eq!((audit(&[]), audit(&[58, 0])), (Ok(None), Ok(None)));

    // Only so many records are looked at.
    let row = row_of([57, 59, 58, 62]);
    let answers = [[0, 0, 0, 0], [0, 0, 1, 0], [0, 0, 2, 0], [0, 0, 2, 0], [0, 0, 2, 0], [5, 0, 0, 0]];
    assert_eq!([0, 1, 2, 3, 4, 5].map(|old| ffi::audit(&row, old)), answers);
    assert_eq!(ffi::audit(&row, u32::MAX), [5, 0, 0, 0]);
    assert_eq!(ffi::audit(&[60, 9, 0, 1, 60], 2), [5, 0, 0, 0]);
}

#[test]
fn two_hundred_open_brackets_pass() {
    let open = "([{".repeat(67);
    let (most, last) = (&open[..200], &open[200..]);
    let closed: String =
        most.chars().rev().map(|opener| ")]}".as_bytes()["([{".find(opener).unwrap()] as char).collect();
    assert_eq!((audited(most), ffi_audited(most)), (None, [0, 0, 200, 0]));
    assert_eq!((audited(&open), ffi_audited(&open)), (too_many(200), [34, 0, 200, 0]));
    assert_eq!(audited(&[most, &closed].concat()), None);
    // Again and again, with others between.
    assert_eq!(audited(&[most, "x", &closed, "+", most, &closed].concat()), None);
    assert_eq!(audited(&[most, "x", &closed, "+", most, last].concat()), too_many(602));
    // A bracket that has closed is no longer open.
    assert_eq!(audited(&[most, &closed[..1], last].concat()), None);
    assert_eq!(audited(&[most, &closed[..1], last, "("].concat()), too_many(202));

    // Whichever comes first.
    assert_eq!(audited(&["()([)]", most, last].concat()), mismatched(4, 3));
    assert_eq!(audited(&[most, ")"].concat()), mismatched(200, 199));
    assert_eq!(audited(&[most, ")", last].concat()), mismatched(200, 199));
    assert_eq!(audited(&[most, last, ")"].concat()), too_many(200));
    // The opener that is met is found from the deepest, and from far behind it.
    let right = &closed[..closed.len() - 1];
    assert_eq!(audited(&[most, right, "]"].concat()), mismatched(399, 0));
    let long = ["{", &"([])".repeat(10_000), ")"].concat();
    assert_eq!(audited(&long), mismatched(40_001, 0));
}

/// What a byte is of, by going through all tokens.
#[test]
fn the_token_at_a_byte() {
    let text = "if a:\n\tb = 'é'  # c\n\n\td\n";
    for mode in Mode::ALL {
        let reading = read(text, mode).unwrap();
        let row = reading.row();
        for byte in 0..text.len() + 3 {
            let index = row.iter().position(|token| token.range().contains(&byte));
            assert_eq!((row.index_at(byte), row.token_at(byte)), (index, index.and_then(|index| row.get(index))));
            let behind = row.iter().take_while(|token| token.range().end <= byte).count();
            assert_eq!(row.index_behind(byte), behind, "{byte}");
        }
        assert_eq!((row.index_at(usize::MAX), row.index_behind(usize::MAX)), (None, row.len()));
    }
    let empty = Row::new(&[]).unwrap();
    assert_eq!((empty.token_at(0), empty.index_behind(0)), (None, 0));
}

/// A part is read as a text of its own, whatever stands around it; its places are the whole text's.
#[test]
fn parts() {
    let (before, after) = ("'''é", "  0?)\n");
    for text in ["\u{feff}if a:\n\tb = '\u{1f40d}' \\\n", "a = 1\n", "", "$", "'a", "0x", " \t", "(\\", "[#", "\"\"\""]
    {
        let whole = [before, text, after].concat();
        let part = before.len()..before.len() + text.len();
        for mode in Mode::ALL {
            let (alone, reading) = (read(text, mode).unwrap(), read_part(&whole, mode, part.clone()).unwrap());
            assert_eq!((alone.part(), reading.part()), (0..text.len(), part.clone()));
            assert!(reading.tokens().map(|token| token.text(&whole)).eq(alone.tokens().map(|token| token.text(text))));
            assert_eq!(reading.ending().place() as usize, before.len() + alone.ending().place() as usize);
            let moved = |span: Range<usize>| before.len() + span.start..before.len() + span.end;
            let expected = alone.explain(text).map(|said| (said.subject, moved(said.span)));
            let said = reading.explain(&whole);
            assert_eq!(said.as_ref().map(|said| (said.subject, said.span.clone())), expected, "{text:?}");
            let position = |span: &Range<usize>| Lines::new(&whole).position(span.start);
            assert!(said.map_or(true, |said| said.position == position(&said.span)), "{text:?}");
        }
    }
    let refused = |range| read_part("aé", Mode::Module, range).unwrap_err();
    assert_eq!((refused(0..4), refused(4..4)), (Refusal::BadEdit, Refusal::BadEdit));
    #[allow(clippy::reversed_empty_ranges)]
    let backwards = 2..1;
    assert_eq!(refused(backwards), Refusal::BadEdit);
    assert!(matches!(refused(0..2), Refusal::BadUtf8 { at: 1, fault: Utf8Fault::CutByEnd, .. }));
    assert!(matches!(refused(2..3), Refusal::BadUtf8 { at: 2, fault: Utf8Fault::Stray, .. }));
    assert_eq!(read_part("aé", Mode::Module, 3..).unwrap().ending(), Ending::End { place: 3 });
}

#[test]
fn errors_are_errors() {
    fn said(error: impl std::error::Error) -> (String, Option<String>) {
        (error.to_string(), error.source().map(|source| source.to_string()))
    }
    let alone = |words: &str| (words.to_owned(), None);
    let (sentence, source) = said(tokenize("x)", Mode::Module).unwrap_err());
    assert_eq!(sentence, "`)` at 1:2 closes no bracket.");
    assert_eq!(source.unwrap(), "a bracket closes that was not opened (the reader gave up at byte 2)");
    let (_, source) = said(tokenize("a ? b", Mode::Module).unwrap_err());
    assert_eq!(source.unwrap(), "unrecognised character '?' (the reader gave up at byte 3)");
    let (sentence, source) = said(tokenize(b"\xed\xa0\x80", Mode::Module).unwrap_err());
    assert_eq!(sentence, "Bytes ED A0 at 1:1 are not UTF-8: they begin a surrogate, which is no character.");
    assert_eq!(source.unwrap(), "ill-formed UTF-8 at byte 0: a surrogate");
    let refused = Refusal::NoRoom { needed: 3 };
    assert_eq!(said(refused), alone("no room for the records: 3 are to be written"));
    assert_eq!(said(EditError::from(refused)), said(refused));
    assert_eq!(said(Error::from(refused)), said(refused));
    assert_eq!(said(Kind::try_from(9).unwrap_err()), alone("9 is no kind's number"));
    assert_eq!(read("x", Mode::Module).unwrap().ending().to_string(), "read to the end at byte 1");
    let error = tokenize("x)", Mode::Module).unwrap_err();
    assert_eq!((error.code(), error.fault().map(|fault| fault.place)), (22, Some(2)));
    assert_eq!(read("x)", Mode::Module).unwrap().into_tokens().unwrap_err().cause, Cause::NestingError);
}
