//! What holds for every text and edit, tried on random ones.
use properties::{
    plain,
    plain_lines::{lines, misplaced},
    AnyMode, Brackets, Bytes, Edit, Program, Text,
};
use quickcheck::{Gen, QuickCheck, Testable};
use sroviemat::{
    audit, ffi, folding_ranges, measure, read, read_into, read_part, tokenize, Change, Document, EditError, Error,
    FoldingKind, FoldingRange, Kind, Lines, Mode, Reading, Refusal, Row, Subject, Token, Utf8Fault, WrongBracket,
};
use std::{
    cmp::Reverse,
    ops::Range,
    str::{from_utf8, Utf8Error},
};

/// Tries a property so many times, with texts of up to 40 pieces.
fn try_times(times: u64, property: impl Testable) {
    QuickCheck::new().gen(Gen::new(40)).tests(times).quickcheck(property)
}

/// The tokens stand in order within the text, cut it at characters, and say what stands there.
fn tokens_fit(text: Text, mode: AnyMode) -> bool {
    let (text, reading) = (&text.0, read(&text.0, mode.0).unwrap());
    let mut last = 0;
    let fits = reading.tokens().all(|token| {
        let ordered = last <= token.start && token.start <= token.end;
        last = token.end;
        let said = match (token.kind, token.text(text)) {
            (_, None) => false,
            (Kind::Newline, Some(said)) => ["", "\n", "\r", "\r\n"].contains(&said),
            (Kind::Indent, Some(said)) => !said.is_empty() && said.trim_matches(&['\t', ' '][..]).is_empty(),
            (Kind::Dedent, Some(said)) => said.is_empty(),
            (Kind::Comment, Some(said)) => said.starts_with('#') && !said.contains(&['\n', '\r'][..]),
            (Kind::NonLogicalNewline, Some(said)) => ["\n", "\r", "\r\n"].contains(&said),
            (kind, Some(said)) => kind.as_str().map_or(!said.is_empty(), |only| only == said),
        };
        ordered && said && (mode.0.has_comments() || !token.kind.is_trivia())
    });
    fits && last as usize <= text.len() && reading.ending().place() as usize <= text.len()
}

#[test]
fn tokens_fit_their_text() {
    try_times(50_000, tokens_fit as fn(Text, AnyMode) -> bool);
}

/// The tokens have the lines of their places, and each place of the text the position that an index finds.
fn lines_are_counted(text: Text, mode: AnyMode) -> bool {
    let (text, reading) = (&text.0, read(&text.0, mode.0).unwrap());
    let index = Lines::new(text);
    misplaced(text, reading.tokens()).is_none()
        && (0..=text.len()).all(|at| reading.position(text, at) == index.position(at))
        && reading.ending().position(text) == index.position(reading.ending().place() as usize)
}

#[test]
fn tokens_have_their_lines() {
    try_times(50_000, lines_are_counted as fn(Text, AnyMode) -> bool);
    let in_programs = |program: Program, mode| lines_are_counted(program.0, mode);
    try_times(20_000, in_programs as fn(Program, AnyMode) -> bool);
}

/// A row in which one record has another line is refused if that is the record where re-reading cuts. It stays so if it is
/// one before, and is read again if it is one behind.
fn cuts_have_their_line(text: Text, mode: AnyMode, a: usize, index: usize, lines: i32) -> bool {
    let (text, mode) = (&text.0, mode.0);
    let tokens: Vec<Token> = read(text, mode).unwrap().tokens().collect();
    let row = |tokens: &[Token]| -> Vec<u32> { tokens.iter().flat_map(|token| token.record()).collect() };
    let (count, a) = (tokens.len(), a % (text.len() + 1));
    if count == 0 {
        return true;
    }
    let cut = tokens.iter().rposition(|token| token.kind == Kind::Newline && token.range().end < a);
    let (index, mut altered) = (index % count, tokens.clone());
    altered[index] = altered[index].moved_lines(lines as isize);
    let mut after = row(&altered);
    let [code, ..] = ffi::reread(text.as_bytes(), mode.number(), &mut after, count as u32, a as u32);
    let kept = cut.map_or(false, |cut| index <= cut);
    (code == 6) == (cut == Some(index) && lines != 0) && after == row(if kept { &altered } else { &tokens })
}

#[test]
fn a_cut_has_its_line() {
    try_times(50_000, cuts_have_their_line as fn(Text, AnyMode, usize, usize, i32) -> bool);
    let near = |text, mode, a, index, lines: i32| cuts_have_their_line(text, mode, a, index, lines % 3);
    try_times(50_000, near as fn(Text, AnyMode, usize, usize, i32) -> bool);
}

/// Whether the word `type` begins a line: then the look ahead may meet a comment or a newline within brackets.
fn has_type_line(reading: &Reading, text: &str) -> bool {
    let mut at_start = true;
    reading.tokens().any(|token| {
        let begins = at_start && token.text(text) == Some("type");
        at_start = matches!(token.kind, Kind::Newline | Kind::Indent | Kind::Dedent);
        begins
    })
}

/// A mode with comments lists them beside the tokens of the mode without, and ends in the same way; where a line begins
/// with `type`, that word may be a soft keyword in one and a name in the other.
fn comments_only_add(text: Text, mode: AnyMode) -> bool {
    let (text, mode) = (&text.0, mode.0);
    let (plain, full) = (read(text, mode.without_comments()).unwrap(), read(text, mode.with_comments()).unwrap());
    let other: Vec<Token> = full.tokens().filter(|token| !token.kind.is_trivia()).collect();
    let searched = has_type_line(&plain, text);
    let same = |(one, other): (Token, Token)| {
        one == other || searched && one.range() == other.range() && one.text(text) == Some("type")
    };
    plain.row().len() == other.len() && plain.tokens().zip(other).all(same) && plain.ending() == full.ending()
}

#[test]
fn modes_with_comments_only_add() {
    try_times(50_000, comments_only_add as fn(Text, AnyMode) -> bool);
}

/// Whether any two ranges are one within the other, or share no more than so many lines. They stand in order.
fn nest<'a>(folds: impl IntoIterator<Item = &'a FoldingRange>, shared: u32) -> bool {
    let mut open: Vec<u32> = Vec::new();
    folds.into_iter().all(|fold| {
        while matches!(open.last(), Some(&end) if end < fold.start_line + shared) {
            open.pop();
        }
        let within = open.last().map_or(true, |&end| fold.end_line <= end);
        open.push(fold.end_line);
        within
    })
}

/// Ranges that fold are longer than a line and lie within the text's; they are in order, and each pair of lines stands
/// once. A bracket may end in the line where another range begins; else they are apart or one within the other.
fn folds_nest(text: Text, mode: AnyMode) -> bool {
    let folds = folding_ranges(&text.0, read(&text.0, mode.0).unwrap().tokens());
    let lines = lines(&text.0).len();
    let keys: Vec<_> = folds.iter().map(|fold| (fold.start_line, Reverse(fold.end_line))).collect();
    folds.iter().all(|fold| fold.start_line < fold.end_line && (fold.end_line as usize) < lines)
        && keys.windows(2).all(|pair| pair[0] < pair[1])
        && nest(&folds, 1)
        && nest(folds.iter().filter(|fold| fold.kind != FoldingKind::Bracket), 0)
        && (mode.0.has_comments() || folds.iter().all(|fold| fold.kind != FoldingKind::Comments))
}

#[test]
fn folds_are_in_order_and_nest() {
    try_times(50_000, folds_nest as fn(Text, AnyMode) -> bool);
}

/// They are those that a plainer statement of the rule finds.
fn folds_are_plain(text: Text, mode: AnyMode) -> bool {
    let tokens: Vec<Token> = read(&text.0, mode.0).unwrap().tokens().collect();
    folding_ranges(&text.0, tokens.iter().copied()) == plain::folds(&text.0, &tokens)
}

#[test]
fn folds_are_those_of_the_plain_rule() {
    try_times(20_000, folds_are_plain as fn(Text, AnyMode) -> bool);
    let in_programs = |program: Program, mode| folds_are_plain(program.0.clone(), mode) && folds_nest(program.0, mode);
    try_times(20_000, in_programs as fn(Program, AnyMode) -> bool);
}

/// Every way to ask gives the same, of the text alone and within a longer one.
fn ways_agree(text: Text, mode: AnyMode, around: (Text, Text), room: u8) -> bool {
    let (text, mode) = (&text.0, mode.0);
    let reading = read(text, mode).unwrap();
    let (row, ending) = (reading.row(), reading.ending());
    let start = around.0 .0.len();
    let longer = format!("{}{text}{}", around.0 .0, around.1 .0);
    let (part, lines) = (read_part(&longer, mode, start..start + text.len()).unwrap(), Lines::new(&longer));
    let moved = part.tokens().map(|token| (token.kind, token.start as usize, token.end as usize));
    let shifted = row.iter().map(|token| (token.kind, start + token.range().start, start + token.range().end));
    let within = |span: Range<usize>| start + span.start..start + span.end;
    let explained = match (reading.explain(text), part.explain(&longer)) {
        (None, None) => ending.is_end(),
        (Some(alone), Some(said)) => {
            (alone.code, alone.subject, within(alone.span)) == (said.code, said.subject, said.span)
        }
        _ => false,
    };
    let brackets = match (reading.explain_brackets(text), part.explain_brackets(&longer)) {
        (None, None) => true,
        (Some(alone), Some(said)) => {
            (alone.found, within(alone.span), alone.opener.map(within)) == (said.found, said.span, said.opener)
        }
        _ => false,
    };
    let mut numbers = vec![9; usize::from(room)];
    let into = match read_into(text, mode, &mut numbers) {
        Ok((borrowed, said)) => borrowed == row && said == ending,
        Err(Refusal::NoRoom { needed }) => needed as usize == row.len() && row.len() > usize::from(room) / ffi::STRIDE,
        Err(_) => false,
    };
    let whole = match tokenize(text, mode) {
        Ok(tokens) => ending.is_end() && tokens.iter().copied().eq(row.iter()),
        Err(Error::Fault(explanation)) => Some(explanation) == reading.explain(text),
        Err(_) => false,
    };
    measure(text, mode) == Ok((row.len(), ending))
        && moved.eq(shifted)
        && part.tokens().map(|token| token.text(&longer)).eq(row.iter().map(|token| token.text(text)))
        && part.ending().place() as usize == ending.place() as usize + start
        && misplaced(&longer, part.tokens()).is_none()
        && (0..=longer.len()).all(|at| part.position(&longer, at) == lines.position(at))
        && explained
        && brackets
        && into
        && whole
        && Row::new(row.numbers()) == Ok(row)
}

#[test]
fn every_way_to_read_gives_the_same() {
    try_times(30_000, ways_agree as fn(Text, AnyMode, (Text, Text), u8) -> bool);
}

/// A fault is about a part of the text that is not empty and begins before the place or at it, is cut at characters, and
/// is said in a sentence. With the comments listed it is the same, if the reading ends in the same way.
fn faults_are_of_the_text(text: Text, mode: AnyMode) -> bool {
    let (text, mode) = (&text.0, mode.0);
    let reading = read(text, mode).unwrap();
    let explanation = match reading.explain(text) {
        None => return reading.ending().is_end(),
        Some(explanation) => explanation,
    };
    let (span, said) = (explanation.span.clone(), explanation.to_string());
    let with_comments = read(text, mode.with_comments()).unwrap();
    let part = text.get(span.clone()).unwrap_or_default();
    let fits = match explanation.subject {
        Subject::String | Subject::Tripled => part.starts_with(&['\'', '"'][..]),
        Subject::Bracket => ["(", "[", "{"].contains(&part),
        Subject::Closer => [")", "]", "}"].contains(&part),
        Subject::Backslash => part == "\\",
        Subject::Blanks => part.trim_matches(&['\t', ' ', '\x0c'][..]).is_empty(),
        Subject::Character => part.chars().eq(reading.ending().char()),
        Subject::Number => part.starts_with(|first: char| first.is_ascii_digit() || first == '.'),
        _ => false,
    };
    fits && !part.is_empty()
        && span.start <= reading.ending().place() as usize
        && explanation.position == Lines::new(text).position(span.start)
        && said.ends_with('.')
        && !said.contains("{at}")
        && (with_comments.ending() != reading.ending() || with_comments.explain(text) == Some(explanation))
}

#[test]
fn faults_are_explained() {
    try_times(100_000, faults_are_of_the_text as fn(Text, AnyMode) -> bool);
}

/// Any bytes are read, or refused where the standard library says that they are not UTF-8.
fn bytes_are_read_or_refused(bytes: Bytes, text: Text, mode: AnyMode, at: usize) -> bool {
    let mut damaged = text.0.into_bytes();
    let place = at % (damaged.len() + 1);
    damaged.splice(place..place, bytes.0.iter().copied().take(3));
    [bytes.0, damaged].iter().all(|bytes| match (read(bytes, mode.0), from_utf8(bytes)) {
        (Ok(_), Ok(_)) => true,
        (Err(refusal), Err(error)) => is_said(bytes, mode.0, refusal, error),
        _ => false,
    })
}

/// A refusal says what the standard library does: where, and whether more bytes could have followed. What is to be mended
/// begins there and is as long as the library's ill-formed sequence, or the two bytes that show a fault together.
fn is_said(bytes: &[u8], mode: Mode, refusal: Refusal, error: Utf8Error) -> bool {
    let (at, fault) = match refusal {
        Refusal::BadUtf8 { at, fault, .. } => (at as usize, fault),
        _ => return false,
    };
    let explanation = refusal.explain(bytes).unwrap();
    let (said, position) = (explanation.to_string(), Lines::new(bytes).position(at));
    let sequence = error.error_len().unwrap_or(bytes.len() - at);
    let marked = match fault {
        Utf8Fault::Overlong | Utf8Fault::Surrogate | Utf8Fault::TooLarge => 2,
        _ => sequence,
    };
    at == error.valid_up_to()
        && (fault == Utf8Fault::CutByEnd) == error.error_len().is_none()
        && explanation.span == (at..at + marked)
        && (explanation.utf8_fault(), explanation.position) == (Some(fault), position)
        && said.contains(&format!(" {:02X} ", bytes[at]))
        && said.contains(&format!(" at {position} "))
        && said.ends_with("Latin-1: is the file in that encoding?") == explanation.latin1().is_some()
        && !said.contains('{')
        && tokenize(bytes, mode) == Err(Error::Fault(explanation))
}

#[test]
fn any_bytes() {
    try_times(50_000, bytes_are_read_or_refused as fn(Bytes, Text, AnyMode, usize) -> bool);
}

/// The tokens with their texts, where those in a change are put and those behind it moved.
fn changed(mut tokens: Vec<(Token, String)>, change: Change, now: &[(Token, String)]) -> Vec<(Token, String)> {
    tokens.splice(change.old, now[change.new.clone()].iter().cloned());
    for (token, _) in &mut tokens[change.new.end..] {
        *token = token.moved(change.moved).moved_lines(change.moved_lines);
    }
    tokens
}

/// The tokens of a document with their texts.
fn with_texts(document: &Document) -> Vec<(Token, String)> {
    document.tokens().map(|token| (token, token.text(document.text()).unwrap().to_owned())).collect()
}

/// After each edit a document says what a whole reading says, with right lines, and which tokens changed; an edit that does
/// not fit changes nothing.
fn documents_follow(text: Text, mode: AnyMode, edits: Vec<Edit>) -> bool {
    let mut document = Document::new(text.0, mode.0).unwrap();
    edits.iter().take(30).all(|edit| {
        let range = edit.range(document.text().len());
        let mut expected = document.text().to_owned();
        let before = with_texts(&document);
        let said = document.replace(range.clone(), edit.with());
        let right = if expected.get(range.clone()).is_some() {
            expected.replace_range(range, edit.with());
            let now = with_texts(&document);
            said.map_or(false, |change| changed(before, change, &now) == now)
        } else if range.end > expected.len() {
            said == Err(EditError::OutOfRange { length: expected.len() })
        } else {
            matches!(said, Err(EditError::NotABoundary { .. }))
        };
        let whole = read(&expected, mode.0).unwrap();
        right
            && document.text() == expected
            && (document.row(), document.ending()) == (whole.row(), whole.ending())
            && misplaced(&expected, document.tokens()).is_none()
    })
}

#[test]
fn documents_follow_their_edits() {
    try_times(20_000, documents_follow as fn(Text, AnyMode, Vec<Edit>) -> bool);
}

/// Rows of any numbers: what is no kind is said, and re-reading and auditing them answers or refuses, and no more.
fn any_numbers(text: Text, mode: u8, row: Vec<u32>, old: u8, a: u8) -> bool {
    let row: Vec<u32> = row.iter().map(|number| number % 144).collect();
    let known = row.chunks_exact(ffi::STRIDE).all(|record| Kind::try_from(record[0]).is_ok());
    let mut after = row.clone();
    let [code, count, place, _] = ffi::reread(text.0.as_bytes(), u32::from(mode % 7), &mut after, old.into(), a.into());
    let refused = (1..=6).contains(&code);
    Row::new(&row).is_ok() == known
        && (!refused || after == row)
        && (refused || count as usize <= row.len() / ffi::STRIDE && place as usize <= text.0.len())
        && ffi::audit(&row, old.into()) == stacked(&row, old.into()).0
}

#[test]
fn rows_of_any_numbers() {
    try_times(50_000, any_numbers as fn(Text, u8, Vec<u32>, u8, u8) -> bool);
}

/// The rule of the audit said once more, with a stack of 200: the answer for the first `old` records, and what is wrong.
fn stacked(row: &[u32], old: u32) -> ([u32; ffi::ANSWER], Option<WrongBracket>) {
    if old as usize > row.len() / ffi::STRIDE {
        return ([5, 0, 0, 0], None);
    }
    let mut stack = Vec::new();
    for (place, record) in (0..old).zip(row.chunks_exact(ffi::STRIDE)) {
        let index = place as usize;
        match record[0] {
            57 | 59 | 61 if stack.len() == 200 => {
                return ([34, 0, place, 0], Some(WrongBracket::TooMany { opener: index }))
            }
            kind @ (57 | 59 | 61) => stack.push((kind, index)),
            kind @ (58 | 60 | 62) => match stack.pop() {
                Some((opener, _)) if opener + 1 == kind => {}
                Some((_, opener)) => {
                    return ([0, 0, place, 0], Some(WrongBracket::Mismatched { closer: index, opener }))
                }
                None => return ([0, 0, place, 0], Some(WrongBracket::Unopened { closer: index })),
            },
            _ => {}
        }
    }
    ([0, 0, old, 0], None)
}

/// The audit of a row, and of its first records, is that of the stack; what it finds is said, whatever the text.
fn audits_are_stacked(row: Vec<u32>, old: u16, text: Text) -> bool {
    let records = (row.len() / ffi::STRIDE) as u32;
    let (answer, wrong) = stacked(&row, records);
    let some = u32::from(old) % (records + 2);
    let said = |row| wrong.iter().all(|wrong| wrong.explain(&text.0, row).to_string().ends_with('.'));
    (ffi::audit(&row, records), audit(&row)) == (answer, Ok(wrong))
        && ffi::audit(&row, some) == stacked(&row, some).0
        && wrong.iter().all(|wrong| wrong.index() == answer[2] as usize)
        && Row::new(&row).into_iter().all(said)
}

#[test]
fn audits_are_those_of_a_stack() {
    let of_brackets = |row: Brackets, old, text| audits_are_stacked(row.0, old, text);
    try_times(50_000, of_brackets as fn(Brackets, u16, Text) -> bool);
    try_times(20_000, audits_are_stacked as fn(Vec<u32>, u16, Text) -> bool);
}

/// What is said of a text's brackets is about two of them, in their order and of different kinds. With the comments listed
/// it is the same.
fn brackets_are_of_the_text(text: Text, mode: AnyMode) -> bool {
    let (text, mode) = (&text.0, mode.0);
    let reading = read(text, mode).unwrap();
    let with_comments = read(text, mode.with_comments()).unwrap().explain_brackets(text);
    let explanation = match reading.explain_brackets(text) {
        None => return reading.row().audit() == Ok(None) && with_comments.is_none(),
        Some(explanation) => explanation,
    };
    let (closer, opener) = (explanation.span.clone(), explanation.opener.clone().unwrap());
    let (closes, opens) = (&text[closer.clone()], &text[opener.clone()]);
    let [at, opened] = [&closer, &opener].map(|span| Lines::new(text).position(span.start));
    let words = format!("`{closes}` at {at} does not close `{opens}` at {opened}, the latest bracket that is open.");
    opener.end <= closer.start
        && ["(]", "(}", "[)", "[}", "{)", "{]"].contains(&[opens, closes].concat().as_str())
        && (explanation.position, explanation.opened) == (at, Some(opened))
        && explanation.to_string() == words
        && reading.row().audit() == Ok(Some(explanation.found))
        && with_comments.map(|said| (said.span, said.opener)) == Some((closer, Some(opener)))
        && Document::new(text.as_str(), mode).unwrap().explain_brackets() == Some(explanation)
}

#[test]
fn brackets_are_explained() {
    try_times(50_000, brackets_are_of_the_text as fn(Text, AnyMode) -> bool);
}
