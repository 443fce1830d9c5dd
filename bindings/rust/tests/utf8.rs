//! Bytes that are not UTF-8: which fault every door says, what is said of it, and when Latin-1 is guessed.
use sroviemat::{ffi, measure, read, read_into, read_part, tokenize, Error, Mode, Refusal, Utf8Fault};
use std::{error::Error as _, str};

/// Ill-formed bytes, each with its fault. The first seven are one of each; those that follow tell neighbours apart.
const ILL_FORMED: &[(&[u8], Utf8Fault)] = &[
    (b"\x80", Utf8Fault::Stray),
    (b"\xff", Utf8Fault::Unused),
    (b"\xe0", Utf8Fault::CutByEnd),
    (b"\xe0A", Utf8Fault::CutByByte),
    (b"\xe0\x80", Utf8Fault::Overlong),
    (b"\xed\xa0", Utf8Fault::Surrogate),
    (b"\xf4\x90", Utf8Fault::TooLarge),
    (b"\xbf\x80", Utf8Fault::Stray),
    (b"\xc0\x80", Utf8Fault::Unused),
    (b"\xc1", Utf8Fault::Unused),
    (b"\xf5\x80\x80\x80", Utf8Fault::Unused),
    (b"\xe1\x80", Utf8Fault::CutByEnd),
    (b"\xf4\x8f\xbf", Utf8Fault::CutByEnd),
    (b"\xc3(", Utf8Fault::CutByByte),
    (b"\xe1\x80A", Utf8Fault::CutByByte),
    (b"\xf0\xc0", Utf8Fault::CutByByte),
    (b"\xf1\x80\x80\xff", Utf8Fault::CutByByte),
    (b"\xe0\x9f\xbf", Utf8Fault::Overlong),
    (b"\xf0\x80", Utf8Fault::Overlong),
    (b"\xf0\x8f\xbf\xbf", Utf8Fault::Overlong),
    (b"\xed\xbf\xbf", Utf8Fault::Surrogate),
    (b"\xf4\xbf\xbf\xbf", Utf8Fault::TooLarge),
];

/// Bytes on either side of every border that the rules of UTF-8 draw.
const BORDERS: [u8; 24] = [
    0x41, 0x7f, 0x80, 0x8f, 0x90, 0x9f, 0xa0, 0xbf, 0xc0, 0xc1, 0xc2, 0xdf, 0xe0, 0xe1, 0xec, 0xed, 0xee, 0xef, 0xf0,
    0xf1, 0xf3, 0xf4, 0xf5, 0xff,
];

/// The place and the fault of a refusal.
fn refused<T>(said: Result<T, Refusal>) -> Option<(usize, Utf8Fault)> {
    match said {
        Err(Refusal::BadUtf8 { at, fault, .. }) => Some((at as usize, fault)),
        _ => None,
    }
}

#[test]
fn every_door_says_the_fault() {
    for &(bytes, fault) in ILL_FORMED {
        let text = [b"x = 1\n'\xc3\xa9", bytes].concat();
        let (at, expected) = (9, Some((9, fault)));
        for mode in Mode::ALL {
            let mut row = [7; 60];
            assert_eq!(refused(read(&text, mode)), expected, "{bytes:x?}");
            assert_eq!(refused(measure(&text, mode)), expected, "{bytes:x?}");
            assert_eq!(refused(read_into(&text, mode, &mut row)), expected, "{bytes:x?}");
            assert_eq!(refused(read_part(&text, mode, 6..)), expected, "{bytes:x?}");
            let answer = [3, 0, at, fault.number()];
            assert_eq!(ffi::read(&text, mode.number(), 0, &mut row), answer);
            assert_eq!(ffi::read(&text, mode.number(), 100, &mut row), [3, 0, 100 + at, fault.number()]);
            assert_eq!(ffi::measure(&text, mode.number(), 0), answer);
            assert_eq!(row, [7; 60]);
            // The first line's records are kept; what is refused is the text behind it.
            let [_, old, ..] = ffi::read(b"x = 1\n", mode.number(), 0, &mut row);
            let before = row;
            assert_eq!(ffi::reread(&text, mode.number(), &mut row, old, 6), answer);
            assert_eq!(row, before);
        }
    }
}

/// The place and the fault, from what the standard library says of where the bytes stop being UTF-8.
fn by_the_standard_library(bytes: &[u8]) -> Option<(usize, Utf8Fault)> {
    let error = str::from_utf8(bytes).err()?;
    let rest = &bytes[error.valid_up_to()..];
    let fault = match (rest, error.error_len()) {
        (_, None) => Utf8Fault::CutByEnd,
        ([0x80..=0xbf, ..], _) => Utf8Fault::Stray,
        ([0xc0 | 0xc1 | 0xf5..=0xff, ..], _) => Utf8Fault::Unused,
        ([0xe0 | 0xf0, 0x80..=0xbf, ..], Some(1)) => Utf8Fault::Overlong,
        ([0xed, 0x80..=0xbf, ..], Some(1)) => Utf8Fault::Surrogate,
        ([0xf4, 0x80..=0xbf, ..], Some(1)) => Utf8Fault::TooLarge,
        _ => Utf8Fault::CutByByte,
    };
    Some((error.valid_up_to(), fault))
}

/// All of up to four bytes at the borders.
#[test]
fn faults_are_where_the_standard_library_sees_them() {
    let mut last: Vec<Vec<u8>> = vec![Vec::new()];
    for _ in 0..4 {
        last = last.iter().flat_map(|bytes| BORDERS.map(|byte| [&bytes[..], &[byte]].concat())).collect();
        for bytes in &last {
            assert_eq!(refused(measure(bytes, Mode::Module)), by_the_standard_library(bytes), "{bytes:x?}");
        }
    }
}

/// A byte is a letter of Latin-1 if it can be seen and no continuation byte follows.
#[test]
fn when_latin1_is_guessed() {
    let guessed = |bytes: &[u8]| read(bytes, Mode::Module).unwrap_err().explain(bytes).unwrap().latin1();
    for byte in 0x80..=0xff_u8 {
        let letter = Some(char::from(byte)).filter(|_| byte > 0xa0 && byte != 0xad);
        for behind in [&b""[..], b"\n", b"(", b"\xc3\xa9", b"\xff"] {
            assert_eq!(guessed(&[b"x", &[byte], behind].concat()), letter, "{byte:x} {behind:x?}");
        }
        // Two make a character, or show a fault together.
        let two = [byte, 0xa9];
        if str::from_utf8(&two).is_err() {
            assert_eq!(guessed(&two), None, "{byte:x}");
        }
    }
}

/// The mark of UTF-16 is one at the text's start alone.
#[test]
fn when_utf16_is_guessed() {
    let error = |bytes: &[u8]| tokenize(bytes, Mode::Module).unwrap_err().to_string();
    let sentence = "is not UTF-8: no character has this byte.";
    let hint = "A text in UTF-16 begins so: is the file in that encoding?";
    assert_eq!(error(b"\xff\xfex\0"), format!("Byte FF at 1:1 {sentence} {hint}"));
    assert_eq!(error(b"\xfe\xff\0x"), format!("Byte FE at 1:1 {sentence} {hint}"));
    for bytes in [&b"\xff"[..], b"\xff\xffx", b"\xfe\xfex", b"x\xff\xfex", b"\n\xfe\xffx"] {
        assert!(!error(bytes).contains("UTF-16"), "{bytes:x?}");
    }
}

#[test]
fn the_sentence_comes_with_the_error() {
    let bytes = b"with gold:\n  caf\xe9\n";
    let error = tokenize(bytes, Mode::Module).unwrap_err();
    let sentence = "Byte E9 at 2:6 is not UTF-8: it begins a character that byte 0A cuts off.";
    let hint = "Byte E9 alone is é in Latin-1: is the file in that encoding?";
    assert_eq!(error.to_string(), format!("{sentence} {hint}"));
    assert_eq!((error.code(), error.fault()), (3, None));
    let words = "ill-formed UTF-8 at byte 16: a sequence that another byte cuts";
    assert_eq!(error.source().unwrap().to_string(), words);
    let refusal = read(bytes, Mode::Module).unwrap_err();
    assert_eq!(refusal.to_string(), words);
    assert_eq!(error, Error::Fault(refusal.explain(bytes).unwrap()));
    assert_eq!((Utf8Fault::CutByByte.name(), Utf8Fault::CutByByte.number()), ("cut-by-byte", 4));
}

/// What a part's end cuts is marked whole: in the whole text it is a character.
#[test]
fn a_part_that_cuts_a_character() {
    for (text, first) in [("a\néé\n", "C3"), ("a\n€€\n", "E2"), ("a\n\u{1f40d}\u{1f40d}\n", "F0")] {
        let width = (text.len() - 3) / 2;
        for cut in 1..width {
            let refusal = read_part(text, Mode::Module, 2..2 + width + cut).unwrap_err();
            assert_eq!(refused::<()>(Err(refusal)), Some((2 + width, Utf8Fault::CutByEnd)));
            let explanation = refusal.explain(text).unwrap();
            assert_eq!(explanation.span, 2 + width..2 + 2 * width);
            let sentence = "at 2:2 is not UTF-8: it begins a character that the end of the text cuts off.";
            assert_eq!(explanation.to_string(), format!("Byte {first} {sentence}"));
            let refusal = read_part(text, Mode::Module, 2 + cut..).unwrap_err();
            assert_eq!(refused::<()>(Err(refusal)), Some((2 + cut, Utf8Fault::Stray)));
        }
    }
}

/// Of another text something is said, of a part of it, and nothing panics.
#[test]
fn a_refusal_of_another_text() {
    for &(bytes, fault) in ILL_FORMED {
        for before in 0..4 {
            let text = [&b"xyz"[..before], bytes].concat();
            let refusal = read(&text, Mode::Module).unwrap_err();
            for length in 0..text.len() {
                let explanation = refusal.explain(&text[..length]).unwrap();
                let span = explanation.span.clone();
                assert!(span.start <= span.end && span.end <= length, "{bytes:x?}");
                assert_eq!((explanation.code, explanation.utf8_fault()), (3, Some(fault)));
                let said = explanation.to_string();
                assert!(!said.contains('{') && said.contains(" UTF-8"), "{said}");
            }
            let said = refusal.explain("").unwrap();
            assert_eq!((said.to_string(), said.latin1()), ("ill-formed UTF-8".to_owned(), None));
            assert!(refusal.explain("x\u{e9}\u{20ac}\u{1f40d}").is_some());
        }
    }
}
