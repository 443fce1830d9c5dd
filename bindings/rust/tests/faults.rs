//! What is said of faults and of wrong brackets: the tables that the bindings share, and what they cannot draw.
use plain::misplaced;
use sroviemat::{explain, read, tokenize, Document, Error, Explanation, Lines, Mode, Row, Subject, WrongBracket};
use std::{
    collections::{BTreeSet, HashMap},
    fs,
    ops::Range,
    path::Path,
    str,
};

mod plain;

/// A character of a drawn line, or a byte that is none, and the columns that it is drawn in.
struct Drawn {
    letter: Vec<u8>,
    columns: Range<usize>,
}

/// A line and a character of it; behind the last one stands the line's end.
type Place = (usize, usize);

/// A case of a table: what its text is, which part of it is marked, and what is said.
struct Case {
    title: String,
    lines: Vec<Vec<Drawn>>,
    marked: Option<(Place, Place)>,
    /// A code, or what is found of brackets.
    name: String,
    sentence: String,
}

impl Case {
    /// The marks below the last line.
    fn mark(&mut self, marks: &str) {
        let line = self.lines.len() - 1;
        let letters = &self.lines[line];
        let end = letters.last().map_or(0, |last| last.columns.end);
        for (column, sign) in marks.chars().enumerate().filter(|&(_, sign)| sign != ' ') {
            let letter = letters.iter().position(|letter| letter.columns.contains(&column));
            let letter = letter.or((column == end).then_some(letters.len()));
            let place = (line, letter.unwrap_or_else(|| panic!("{}: a mark below nothing", self.title)));
            self.marked = match (self.marked, sign) {
                (None, '^') => Some((place, place)),
                (Some((first, _)), '~') => Some((first, place)),
                _ => panic!("{}: {marks:?}", self.title),
            };
        }
    }

    /// The text with its line ends and a BOM or none, and which bytes of it are marked.
    fn written(&self, end: &str, bom: &str) -> (Vec<u8>, Range<usize>) {
        let mut text = bom.as_bytes().to_owned();
        let mut places = HashMap::new();
        for (number, line) in self.lines.iter().enumerate() {
            for (index, drawn) in line.iter().enumerate() {
                places.insert((number, index), text.len()..text.len() + drawn.letter.len());
                text.extend(&drawn.letter);
            }
            if number + 1 < self.lines.len() {
                places.insert((number, line.len()), text.len()..text.len() + end.len());
                text.extend(end.as_bytes());
            }
        }
        let (first, last) = self.marked.unwrap_or_else(|| panic!("{}: no mark", self.title));
        (text, places[&first].start..places[&last].end)
    }

    /// The text with each line end, with and without a BOM.
    fn texts(&self) -> impl Iterator<Item = (Vec<u8>, Range<usize>)> + '_ {
        let ends = ["\n", "\r\n", "\r"].into_iter();
        ends.flat_map(|end| ["", "\u{feff}"].map(|bom| (end, bom))).map(|(end, bom)| self.written(end, bom))
    }
}

/// The characters of a line: an arrow is a tab, ␌ a form feed, a number between angle brackets that character, one between
/// double ones that byte.
fn drawn(line: &str) -> Vec<Drawn> {
    let mut drawn: Vec<Drawn> = Vec::new();
    let mut rest = line;
    while let Some(first) = rest.chars().next() {
        let last = match first {
            '⟨' => '⟩',
            '⟪' => '⟫',
            _ => first,
        };
        let piece = &rest[..rest.find(last).unwrap_or_else(|| panic!("{line}")) + last.len_utf8()];
        let number = || {
            let digits = piece.trim_matches(&[first, last][..]);
            u32::from_str_radix(digits, 16).unwrap_or_else(|_| panic!("{line}"))
        };
        let letter = match first {
            '→' => b"\t".to_vec(),
            '␌' => b"\x0c".to_vec(),
            '⟨' => char::from_u32(number()).unwrap_or_else(|| panic!("{line}")).to_string().into_bytes(),
            '⟪' => vec![u8::try_from(number()).unwrap_or_else(|_| panic!("{line}"))],
            _ => piece.as_bytes().to_vec(),
        };
        let start = drawn.last().map_or(0, |last| last.columns.end);
        drawn.push(Drawn { letter, columns: start..start + piece.chars().count() });
        rest = &rest[piece.len()..];
    }
    drawn
}

/// A table; its form stands at its head.
fn cases(name: &str) -> Vec<Case> {
    let file = Path::new(env!("CARGO_MANIFEST_DIR")).join("..").join(name);
    let table = fs::read_to_string(&file).unwrap_or_else(|error| panic!("{}: {error}", file.display()));
    let mut cases: Vec<Case> = Vec::new();
    for line in table.lines().filter(|line| !line.is_empty() && !line.starts_with('#')) {
        let (sign, rest) = (&line[..1], line.get(2..).unwrap_or_default());
        match (sign, cases.last_mut()) {
            ("|", Some(case)) => case.lines.push(drawn(rest)),
            (" ", Some(case)) => case.mark(rest),
            ("!", Some(case)) => {
                let (name, sentence) = rest.split_once(' ').unwrap();
                (case.name, case.sentence) = (name.to_owned(), sentence.to_owned());
            }
            _ => {
                let (title, name, sentence) = (line.to_owned(), String::new(), String::new());
                cases.push(Case { title, lines: Vec::new(), marked: None, name, sentence });
            }
        }
    }
    cases
}

fn numbers(explanation: &Explanation) -> (u32, Range<usize>, String) {
    (explanation.code, explanation.span.clone(), explanation.to_string())
}

/// What is said of a text, whether it is read or refused.
fn explained(text: &[u8], mode: Mode) -> Option<Explanation> {
    read(text, mode).map_or_else(|refusal| refusal.explain(text), |reading| reading.explain(text))
}

#[test]
fn the_table() {
    let cases = cases("faults-cases.txt");
    assert!(cases.len() > 70, "{} cases", cases.len());
    let mut of_bytes = BTreeSet::new();
    for case in &cases {
        let code = case.name.parse().unwrap();
        for (text, span) in case.texts() {
            for mode in Mode::ALL {
                let what = format!("{}: {:?} as {mode}", case.title, String::from_utf8_lossy(&text));
                let explanation = explained(&text, mode).unwrap_or_else(|| panic!("{what}"));
                assert_eq!(numbers(&explanation), (code, span.clone(), case.sentence.clone()), "{what}");
                let begins = matches!(explanation.subject, Subject::String | Subject::Tripled | Subject::Bracket);
                assert_eq!(explanation.origin, begins.then_some(span.start), "{what}");
                of_bytes.extend(explanation.utf8_fault());
                let position = Lines::new(&text).position(span.start);
                assert_eq!(explanation.position, position, "{what}");
                if let Ok(text) = str::from_utf8(&text) {
                    let document = Document::new(text, mode).unwrap();
                    assert_eq!(document.explain().as_ref(), Some(&explanation), "{what}");
                    assert_eq!(misplaced(text, document.tokens()), None, "{what}");
                    let (ending, fault) = (document.ending(), explanation.fault().unwrap());
                    let gave_up = document.lines().position(fault.place as usize);
                    assert_eq!([ending.position(text), fault.position(text)], [gave_up; 2], "{what}");
                }
                let error = tokenize(&text, mode).unwrap_err();
                assert_eq!(error.position(), Some(position), "{what}");
                assert_eq!(error, Error::Fault(explanation), "{what}");
            }
        }
    }
    assert_eq!(of_bytes.len(), 7, "{of_bytes:?}");
}

#[test]
fn the_table_of_brackets() {
    let cases = cases("brackets-cases.txt");
    assert!(cases.len() > 10, "{} cases", cases.len());
    for case in &cases {
        for (text, span) in case.texts() {
            let text = String::from_utf8(text).unwrap();
            let lines = Lines::new(&text);
            for mode in Mode::ALL {
                let what = format!("{}: {text:?} as {mode}", case.title);
                let reading = read(&text, mode).unwrap();
                let explanation = reading.explain_brackets(&text).unwrap_or_else(|| panic!("{what}"));
                let said = (explanation.found.name(), explanation.to_string());
                assert_eq!(said, (case.name.as_str(), case.sentence.clone()), "{what}");
                assert_eq!((&explanation.span, explanation.position), (&span, lines.position(span.start)), "{what}");
                assert_eq!(reading.row().get(explanation.found.index()).unwrap().range(), span, "{what}");
                let opener = match explanation.found {
                    WrongBracket::Mismatched { opener, .. } => reading.row().get(opener),
                    _ => None,
                };
                assert_eq!(explanation.opener, opener.map(|opener| opener.range()), "{what}");
                assert_eq!(explanation.opened, opener.map(|opener| lines.position(opener.range().start)), "{what}");
                assert_eq!(reading.row().audit(), Ok(Some(explanation.found)), "{what}");
                assert_eq!(misplaced(&text, reading.tokens()), None, "{what}");
                assert_eq!(Document::new(text.as_str(), mode).unwrap().explain_brackets(), Some(explanation), "{what}");
            }
        }
    }
}

#[test]
fn what_the_table_of_brackets_cannot_draw() {
    // A closer where none is open is no reading's.
    let row = [3, 0, 1, 0, 58, 2, 3, 0];
    let row = Row::new(&row).unwrap();
    let unopened = WrongBracket::Unopened { closer: 1 };
    assert_eq!(row.audit(), Ok(Some(unopened)));
    let explanation = unopened.explain("x )", row);
    assert_eq!((unopened.name(), explanation.to_string()), ("unopened", "`)` at 1:3 closes no bracket.".to_owned()));
    assert_eq!((explanation.span, explanation.opener, explanation.opened), (2..3, None, None));
    for right in ["", "x = 1", "([{}])\n", "f(", "x)"] {
        assert_eq!(read(right, Mode::Module).unwrap().explain_brackets(right), None, "{right}");
    }
}

#[test]
fn what_the_table_cannot_draw() {
    let levels: String = (0..102).map(|level| " ".repeat(level) + "if a:\n").collect();
    let explanation = read(&levels, Mode::Module).unwrap().explain(&levels).unwrap();
    let (line, end) = (levels[..levels.len() - 1].rfind('\n').unwrap() + 1, levels.len() - "if a:\n".len());
    let sentence = "Line 102 opens a 101st level of indentation; 100 are the most.";
    assert_eq!(numbers(&explanation), (33, line..end, sentence.to_owned()));

    // The byte that cuts is a line's end.
    for (end, shown) in [("\n", "0A"), ("\r\n", "0D"), ("\r", "0D")] {
        let bytes = [b"'\xc3\xa9\xe2\x82", end.as_bytes()].concat();
        let sentence = format!("Byte E2 at 1:3 is not UTF-8: it begins a character that byte {shown} cuts off.");
        let explanation = explained(&bytes, Mode::Module).unwrap();
        assert_eq!(numbers(&explanation), (3, 3..5, sentence));
        assert_eq!((explanation.subject, explanation.fault()), (Subject::Bytes, None));
    }

    assert_eq!(read("x = 1\n", Mode::Module).unwrap().explain("x = 1\n"), None);
    assert_eq!(sroviemat::Refusal::TooLong.explain(""), None);
}

/// Records and endings of another text: something is said, of a part of the text, and nothing panics.
#[test]
fn any_records() {
    let texts = ["", "x", "'", "é\r\n", "#", "(\\\n", "\u{feff}", "1e", "rb'''", "  \t!", "\n\n0x \u{1f40d}", "))"];
    let readings: Vec<_> = texts.iter().map(|text| read(text, Mode::Module).unwrap()).collect();
    for text in texts {
        for reading in &readings {
            for start in [0, 1, 5, u32::MAX - 9] {
                let records = [57, start, start.wrapping_add(3), start, 3, start, start, u32::MAX];
                let row = Row::new(&records).unwrap();
                for explanation in [reading.explain(text), explain(text, row, reading.ending())].iter().flatten() {
                    assert!(explanation.span.start <= explanation.span.end && explanation.span.end <= text.len());
                    assert!(explanation.to_string().ends_with('.'));
                }
            }
        }
    }
}

/// The same of wrong brackets, also where the row has no such records.
#[test]
fn any_brackets() {
    let rows = [vec![], vec![57, 0, 1, 0, 60, 1, 2, 9], vec![57, 5, 9, u32::MAX, 58, u32::MAX, 0, 0], vec![3; 40]];
    for text in ["", "x", "\u{feff}", "é\r\n", "([{"] {
        for row in rows.iter().map(|row| Row::new(row).unwrap()) {
            for (closer, opener) in [(0, 0), (1, 0), (0, 1), (9, 10), (usize::MAX, 0), (1, usize::MAX)] {
                for wrong in [
                    WrongBracket::Unopened { closer },
                    WrongBracket::Mismatched { closer, opener },
                    WrongBracket::TooMany { opener },
                ] {
                    let explanation = wrong.explain(text, row);
                    let spans = [Some(explanation.span.clone()), explanation.opener.clone()];
                    assert!(spans.iter().flatten().all(|span| span.start <= span.end && span.end <= text.len()));
                    assert!(explanation.to_string().ends_with('.'));
                }
            }
        }
    }
}
