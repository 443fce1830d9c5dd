//! Documents: after each edit, what a whole reading of the new text gives.
use plain::misplaced;
use sroviemat::{read, Change, Document, EditError, Ending, Mode, Refusal, Token, MOST_BYTES};
use std::ops::{Bound, Range};

mod plain;

fn document(text: &str) -> Document {
    Document::new(text, Mode::Module).unwrap()
}

/// That the document says what a whole reading of its text says, and that its tokens have their lines.
fn assert_whole(document: &Document) {
    let whole = read(document.text(), document.mode()).unwrap();
    assert_eq!((document.row(), document.ending()), (whole.row(), whole.ending()), "{:?}", document.text());
    assert_eq!(misplaced(document.text(), document.tokens()), None, "{:?}", document.text());
}

/// That the change of an edit says which tokens stayed, and that no shorter one does. A token that stays is of the same
/// kind over the same bytes of the text, and those bytes are none that the edit changed.
fn assert_change(before: &Document, after: &Document, range: Range<usize>, with: &str, change: &Change) {
    let (old, new): (Vec<Token>, Vec<Token>) = (before.tokens().collect(), after.tokens().collect());
    let what = format!("{:?} {range:?} {with:?} {change:?}", before.text());
    assert_eq!(change.moved, with.len() as isize - range.len() as isize, "{what}");
    assert_eq!(
        (change.old.start, old.len() - change.old.end),
        (change.new.start, new.len() - change.new.end),
        "{what}"
    );
    let same = |old: &Token, new: &Token, moved: isize, lines: isize| {
        let places = [(old.start, new.start, moved), (old.end, new.end, moved), (old.line(), new.line(), lines)];
        old.kind == new.kind && places.iter().all(|&(old, new, moved)| old as isize + moved == new as isize)
    };
    let count = |document: &Document| document.lines().count() as isize;
    assert_eq!(change.moved_lines, count(after) - count(before), "{what}");
    // Bytes that the edit puts where the same ones were have not changed.
    let (taken, put) = (&before.text().as_bytes()[range.clone()], with.as_bytes());
    let first = taken.iter().zip(put).take_while(|(old, new)| old == new).count();
    let last = taken[first..].iter().rev().zip(put[first..].iter().rev()).take_while(|(old, new)| old == new).count();
    let (start, end) = (range.start + first, range.end - last);
    let stays = |i: usize| same(&old[i], &new[i], 0, 0) && old[i].end as usize <= start;
    let moves = |i: usize| {
        let (old, new) = (&old[old.len() - 1 - i], &new[new.len() - 1 - i]);
        same(old, new, change.moved, change.moved_lines) && old.start as usize >= end
    };
    let (front, back) = (change.old.start, old.len() - change.old.end);
    assert!((0..front).all(stays) && (0..back).all(moves), "{what}");
    if !change.old.is_empty() && !change.new.is_empty() {
        assert!(!stays(front) && !moves(back), "{what}");
    }
}

#[test]
fn a_text_typed_and_taken_back_letter_by_letter() {
    let text = "def f(é):\r\n\tif x:\n\t\t'''a\n''' ; match(x)\n# end\n\tmatch y: 0x\r  return\n\u{1f40d}\\\n!";
    for mode in Mode::ALL {
        let mut document = Document::new("", mode).unwrap();
        for letter in text.chars() {
            let end = document.text().len();
            document.replace(end.., letter.encode_utf8(&mut [0; 4])).unwrap();
            assert_whole(&document);
        }
        assert_eq!(document.text(), text);
        while let Some(letter) = document.text().chars().next() {
            document.replace(..letter.len_utf8(), "").unwrap();
            assert_whole(&document);
        }
    }
}

#[test]
fn every_cut_of_a_text_replaced() {
    let text = "if a:\r\n\tb\r\n  \u{feff}(\n)\n'é'\n";
    for start in 0..=text.len() {
        for end in 0..=text.len() {
            for with in ["", "\n", "\r", "(", "\"\"\"", " x:\n  y"] {
                let mut document = document(text);
                let before = document.clone();
                let edited = document.replace(start..end, with);
                match text.get(start..end) {
                    Some(_) => assert_change(&before, &document, start..end, with, &edited.unwrap()),
                    None => {
                        assert!(matches!(edited, Err(EditError::NotABoundary { .. } | EditError::OutOfRange { .. })));
                        assert_eq!((document.text(), document.row()), (before.text(), before.row()));
                    }
                }
                assert_whole(&document);
                let lines = document.lines();
                assert!((0..=document.text().len()).all(|at| document.position(at) == lines.position(at)));
            }
        }
    }
}

/// Comments and the newlines around them come and go with edits, in the modes that list them.
#[test]
fn comments_cut_and_put() {
    let text = "with a:  # b\n\tc\n# d\r\n\r\n\t(e,\n# f\n g)\n\t# h\ni\n";
    for mode in Mode::ALL.into_iter().filter(|mode| mode.has_comments()) {
        let before = Document::new(text, mode).unwrap();
        assert_whole(&before);
        for start in 0..=text.len() {
            for end in start..=text.len() {
                for with in ["", "#", "\n", "# x\r", "\\\n", "$"] {
                    let mut document = before.clone();
                    let change = document.replace(start..end, with).unwrap();
                    assert_whole(&document);
                    assert_change(&before, &document, start..end, with, &change);
                }
            }
        }
    }
}

/// An LF typed after a CR joins it to one newline; a cut there would keep the CR's.
#[test]
fn an_lf_after_a_cr() {
    let mut document = document("x\ry");
    document.replace(2..2, "\n").unwrap();
    assert_whole(&document);
    assert_eq!(document.row().get(1).unwrap().record(), [0, 1, 3, 0]);
}

#[test]
fn bad_ranges() {
    let mut document = document("aé\n");
    let length = 4;
    let out = Err(EditError::OutOfRange { length });
    assert_eq!(document.replace(0..5, ""), out);
    assert_eq!(document.replace(5.., ""), out);
    #[allow(clippy::reversed_empty_ranges)]
    let backwards = 3..1;
    assert_eq!(document.replace(backwards, ""), out);
    assert_eq!(document.replace(..=usize::MAX, ""), out);
    assert_eq!(document.replace((Bound::Excluded(usize::MAX), Bound::Unbounded), ""), out);
    assert_eq!(document.replace(0..2, ""), Err(EditError::NotABoundary { at: 2 }));
    assert_eq!(document.replace(2..4, ""), Err(EditError::NotABoundary { at: 2 }));
    assert_eq!(document.text(), "aé\n");
    assert_whole(&document);
    document.replace((Bound::Excluded(0), Bound::Included(2)), "b").unwrap();
    assert_eq!(document.into_text(), "ab\n");
}

/// Rows grow where an edit brings more records than there is room for, again and again.
#[test]
fn a_row_that_grows() {
    let mut document = document("x");
    for turn in 0..14 {
        let twice = document.text().to_owned() + "\nif y:\n z";
        document.replace(.., &twice.repeat(1 + turn % 3)).unwrap();
        assert_whole(&document);
    }
    assert!(document.tokens().len() > 1000);
}

#[test]
fn too_long_a_text_is_refused_and_nothing_changes() {
    let text = "x\n".to_owned() + &"#23456789abcdef\n".repeat(MOST_BYTES / 16 - 1);
    let mut document = document(&text);
    let room = MOST_BYTES - text.len();
    assert_eq!(document.replace(2..2, &"y".repeat(room + 1)), Err(EditError::Refused(Refusal::TooLong)));
    assert_eq!((document.text() == text, document.tokens().len()), (true, 2));
    document.replace(2..2, &"y".repeat(room)).unwrap();
    assert_eq!((document.ending(), document.tokens().len()), (Ending::End { place: MOST_BYTES as u32 }, 4));
    let refusal = Document::new("x".repeat(MOST_BYTES + 1), Mode::Module).unwrap_err();
    assert_eq!(refusal, Refusal::TooLong);
}

/// A copy has no room behind its records; it gets some with the first edit that needs it.
#[test]
fn a_copy_goes_its_own_way() {
    let first = document("a\nb\n");
    let mut copy = first.clone();
    assert_whole(&copy);
    copy.replace(4.., "(c)").unwrap();
    assert_whole(&copy);
    assert_eq!((first.text(), first.tokens().len()), ("a\nb\n", 4));
}

/// A fault in the middle of a text comes and goes with an edit.
#[test]
fn faults_come_and_go() {
    let mut document = document("a\nb\nc\n");
    document.replace(2..3, "?").unwrap();
    assert_eq!((document.ending().code(), document.tokens().len()), (26, 2));
    document.replace(2..3, "b").unwrap();
    assert_eq!((document.ending().code(), document.tokens().len()), (0, 6));
    document.replace(0..0, ")").unwrap();
    assert_eq!((document.ending().code(), document.tokens().len()), (22, 0));
    document.replace(0..1, "(").unwrap();
    assert_eq!((document.ending().code(), document.tokens().len()), (21, 4));
    assert!(format!("{document:?}").contains("Eof"));
}

/// What an edit says of tokens that it does not change, or whose text it changes and not their numbers.
#[test]
fn changes() {
    let change = |text: &str, range: Range<usize>, with: &str| {
        let change = document(text).replace(range, with).unwrap();
        (change.old, change.new, change.moved)
    };
    let lines = |text: &str, range: Range<usize>, with: &str| document(text).replace(range, with).unwrap().moved_lines;
    let text = "a = 1\nb = 2\n";
    assert_eq!(change(text, 8..8, "  "), (5..5, 5..5, 2));
    assert_eq!(change(text, 6..7, "c"), (4..5, 4..5, 0));
    assert_eq!(change(text, 6..7, "b"), (5..5, 5..5, 0));
    assert_eq!(change(text, 0..12, "a = 1\nb = 3\n"), (6..7, 6..7, 0));
    assert_eq!(change(text, 0..0, "# c\n"), (0..0, 0..0, 4));
    assert_eq!(change("if a:\n b", 8..8, ""), (8..8, 8..8, 0));
    assert_eq!(change(text, 6..6, "c\n"), (4..4, 4..6, 2));
    assert_eq!(change(text, 0..6, ""), (0..4, 0..0, -6));
    // A text that is read to a fault has other tokens behind the edit, or none.
    assert_eq!(change(text, 4..4, "("), (2..8, 2..7, 1));
    assert_eq!(change(text, 6..6, "'"), (4..8, 4..4, 1));
    // The colon makes the first word a keyword.
    assert_eq!(change("match x\n", 7..7, ":1"), (0..2, 0..4, 2));
    assert!(document(text).replace(12..12, "\n").unwrap().is_empty());
    assert_eq!([lines(text, 8..8, "\n"), lines(text, 5..6, ""), lines(text, 0..12, "")], [1, -1, -2]);
    // A CR and an LF that come together are one line end, and two where they are parted.
    assert_eq!([lines("a\r\nb", 2..2, " "), lines("a\r \nb", 2..3, ""), lines("a\nb", 1..1, "\r")], [1, -1, 0]);
}

#[test]
fn documents_with_the_same_text_and_mode_are_equal() {
    let mut edited = document("a\nb\n");
    assert_eq!(edited, edited.clone());
    assert_ne!(edited, Document::new("a\nb\n", Mode::Expression).unwrap());
    edited.replace(2..3, "c").unwrap();
    assert_eq!(edited, document("a\nc\n"));
    assert_ne!(edited, document("a\nb\n"));
    assert_eq!((&edited).into_iter().len(), edited.row().into_iter().count());
    assert_eq!(edited.position(3).to_string(), "2:2");
    assert_eq!(edited.lines().count(), 3);
}
