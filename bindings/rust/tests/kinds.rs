//! Kinds and modes: their numbers, and that the reader gives each text the kind that says it.
use sroviemat::{ffi, read, Keyword, Kind, Mode, Operator, Prefix, Soft, UnknownKind, UnknownMode};
use std::{fs, mem::size_of, path::Path};

/// The first token's kind in a text.
fn first(text: &str) -> Kind {
    read(text, Mode::Module).unwrap().tokens().next().unwrap().kind
}

#[test]
fn every_number_goes_there_and_back() {
    for number in 0..1000 {
        match Kind::try_from(number) {
            Ok(kind) => assert_eq!((kind.number(), u32::from(kind)), (number, number)),
            Err(UnknownKind(unknown)) => assert_eq!(unknown, number),
        }
    }
    assert_eq!(Kind::try_from(u32::MAX), Err(UnknownKind(u32::MAX)));
    // 9 plain kinds, 14 of strings, 47 operators, 35 keywords, 3 soft ones.
    assert_eq!(Kind::all().count(), 108);
    assert_eq!((Kind::Comment.number(), Kind::NonLogicalNewline.number()), (7, 8));
    let trivia: Vec<Kind> = Kind::all().filter(|kind| kind.is_trivia()).collect();
    assert_eq!(trivia, [Kind::Comment, Kind::NonLogicalNewline]);
    assert_eq!((Operator::ALL.len(), Keyword::ALL.len(), Soft::ALL.len(), Prefix::ALL.len()), (47, 35, 3, 7));
    assert_eq!((Keyword::If.number(), Keyword::Yield.number(), Soft::Type.number()), (120, 134, 142));
}

#[test]
fn the_reader_knows_each_operator_and_keyword_by_its_text() {
    for &operator in Operator::ALL {
        // A closer needs its opener before it.
        let text = match operator.as_str() {
            closer @ (")" | "]" | "}") => format!("({closer}"),
            text => text.to_owned(),
        };
        let reading = read(&text, Mode::Module).unwrap();
        let token = reading.tokens().find(|token| token.end as usize == text.len()).unwrap();
        assert_eq!(token.kind, Kind::Operator(operator));
        assert_eq!(token.text(&text), token.kind.as_str());
    }
    for &keyword in Keyword::ALL {
        assert_eq!(first(keyword.as_str()), Kind::Keyword(keyword));
    }
    for (text, soft) in [("match x: y", Soft::Match), ("case x: y", Soft::Case), ("type X = Y", Soft::Type)] {
        assert_eq!(first(text), Kind::Soft(soft));
        assert!(text.starts_with(soft.as_str()));
        assert_eq!(first(soft.as_str()), Kind::Name);
    }
}

#[test]
fn the_reader_knows_each_prefix_in_either_case_and_order() {
    for &prefix in Prefix::ALL {
        let letters = prefix.as_str();
        let backwards: String = letters.chars().rev().collect();
        for letters in [letters.to_owned(), letters.to_uppercase(), backwards] {
            assert_eq!(first(&format!("{letters}'x'")), Kind::Str { prefix, triple: false });
            assert_eq!(first(&format!("{letters}\"\"\"x\"\"\"")), Kind::Str { prefix, triple: true });
        }
    }
}

#[test]
fn modes() {
    for (number, mode) in (0..).zip(Mode::ALL) {
        assert_eq!((mode.number(), u32::from(mode), Mode::try_from(number)), (number, number, Ok(mode)));
    }
    assert_eq!(Mode::try_from(6), Err(UnknownMode(6)));
    for mode in Mode::ALL {
        assert_eq!((mode.to_string().parse(), mode.number().to_string().parse()), (Ok(mode), Ok(mode)));
    }
    for word in ["", "6", "-1", "Module", "module ", "with-comments"] {
        let said = word.parse::<Mode>().unwrap_err().to_string();
        assert!(said.starts_with("no such mode; there are module, interactive, expression, module-with-"), "{said}");
    }
    assert_eq!(format!("{:>8}", Mode::Module), "  module");
    assert_eq!(Mode::default(), Mode::Module);
    // Only an expression has no line start at its first token.
    let begins = |mode| read("match x: y", mode).unwrap().tokens().next().unwrap().kind;
    let soft = Kind::Soft(Soft::Match);
    assert_eq!(Mode::ALL.map(begins), [soft, soft, Kind::Name, soft, soft, Kind::Name]);
}

#[test]
fn modes_with_comments() {
    let (plain, full) = Mode::ALL.split_at(3);
    for (&plain, &full) in plain.iter().zip(full) {
        assert_eq!(full.number(), plain.number() + 3);
        for mode in [plain, full] {
            assert_eq!((mode.with_comments(), mode.without_comments()), (full, plain));
            assert_eq!(mode.has_comments(), mode == full);
        }
    }
}

/// Which bytes the records of a mode with comments cover, and where they stand.
#[test]
fn the_reader_lists_comments_and_newlines() {
    let listed = |text: &str| -> Vec<(Kind, String)> {
        let reading = read(text, Mode::ModuleWithComments).unwrap();
        reading.tokens().map(|token| (token.kind, token.text(text).unwrap().to_owned())).collect()
    };
    let trivia = |text| -> Vec<String> {
        listed(text).into_iter().filter(|(kind, _)| kind.is_trivia()).map(|(_, said)| said).collect()
    };
    assert_eq!(trivia("a # b\r\n\r\n  # é\n[\r]\n#"), ["# b", "\r\n", "# é", "\n", "\r", "#"]);
    // Before an Indent, and before the Dedents of the next line.
    let kinds = |text| -> Vec<Kind> { listed(text).into_iter().map(|(kind, _)| kind).collect() };
    use Kind::{Comment, Dedent, Indent, Name, Newline, NonLogicalNewline};
    assert_eq!(kinds("a\n#\n b\n"), [Name, Newline, Comment, NonLogicalNewline, Indent, Name, Newline, Dedent]);
    assert_eq!(kinds("a\n b\n\n #\nc")[5..], [NonLogicalNewline, Comment, NonLogicalNewline, Dedent, Name, Newline]);
    // A fault at the start of the next line takes them along.
    assert_eq!(kinds("a\n#\n$"), [Name, Newline]);
    assert_eq!(kinds("a\n#\nb $"), [Name, Newline, Comment, NonLogicalNewline, Name]);
}

#[test]
fn kinds_are_said_in_words() {
    let said = |kind: Kind| kind.to_string();
    assert_eq!(said(Kind::Operator(Operator::PlusEqual)), "operator `+=`");
    assert_eq!(said(Kind::Str { prefix: Prefix::Rb, triple: true }), "triple-quoted string `rb`");
    assert_eq!(said(Kind::Str { prefix: Prefix::None, triple: false }), "string");
    assert_eq!([said(Kind::Comment), said(Kind::NonLogicalNewline)], ["comment", "non-logical newline"]);
    let mut all: Vec<String> = Kind::all().map(said).collect();
    all.sort_unstable();
    all.dedup();
    assert_eq!(all.len(), 108);
}

/// The names are those of the table that all bindings have theirs from.
#[test]
fn kinds_have_the_tables_names() {
    let file = Path::new(env!("CARGO_MANIFEST_DIR")).join("../words.txt");
    let table = fs::read_to_string(&file).unwrap_or_else(|error| panic!("{}: {error}", file.display()));
    let mut names = Vec::new();
    for line in table.lines().skip_while(|&line| line != "kinds").skip(1).take_while(|line| !line.is_empty()) {
        let words: Vec<&str> = line.split_whitespace().collect();
        let (before, after) = match words[2].strip_suffix(':') {
            Some(before) => (before, &words[3..]),
            None => ("", &words[2..]),
        };
        let name = |word: &&str| format!("{before} {}", word.trim_matches('"')).trim().to_owned();
        names.extend((words[0].parse::<u32>().unwrap()..).zip(after.iter().map(name)));
    }
    let ours: Vec<(u32, String)> = Kind::all().map(|kind| (kind.number(), kind.name())).collect();
    assert_eq!(ours, names);
}

/// A token is no larger than its record.
#[test]
fn tokens_are_small() {
    assert!(size_of::<sroviemat::Token>() <= size_of::<[u32; ffi::STRIDE]>());
}

#[test]
fn the_library_has_the_interface_that_the_crate_is_written_for() {
    assert_eq!(ffi::version(), ffi::VERSION);
}

#[test]
fn classes() {
    let class = |c: char| ffi::class(c as u32);
    assert_eq!([class('a'), class('7'), class(' '), class('\u{1f40d}')], [3, 2, 0, 4]);
    assert_eq!(ffi::class(u32::MAX), 0);
}
