//! Which lines fold: the table that the ES module's test goes through too, and texts too long to be drawn.
use plain::misplaced;
use sroviemat::{folding_ranges, read, tokenize, FoldingKind, FoldingRange, Kind, Mode, Row, Token};
use std::{fs, path::Path};

mod plain;

/// A file of the repository.
fn file(path: &str) -> String {
    let file = Path::new(env!("CARGO_MANIFEST_DIR")).join("../..").join(path);
    fs::read_to_string(&file).unwrap_or_else(|error| panic!("{}: {error}", file.display()))
}

/// A case of the table: its title, the lines of its text, and what folds, as drawn in the margin.
#[derive(Default)]
struct Case {
    title: String,
    lines: Vec<String>,
    folds: Vec<FoldingRange>,
    /// What has begun in each column of the margin.
    open: Vec<Option<FoldingRange>>,
}

impl Case {
    /// The next line of the text, with its margin.
    fn line(&mut self, margin: &str, text: &str) {
        let line = self.lines.len() as u32;
        self.open.resize(self.open.len().max(margin.len()), None);
        for (open, letter) in self.open.iter_mut().zip(margin.chars()) {
            match kind(letter.to_ascii_uppercase()) {
                Some(kind) if letter.is_uppercase() => {
                    *open = Some(FoldingRange { start_line: line, end_line: line, kind });
                }
                Some(kind) => {
                    let fold = open.take().unwrap_or_else(|| panic!("{}: {letter} closes nothing", self.title));
                    assert_eq!(fold.kind, kind, "{}", self.title);
                    self.folds.push(FoldingRange { end_line: line, ..fold });
                }
                None => assert!(letter == ' ' || letter == ':' && open.is_some(), "{}: {margin:?}", self.title),
            }
        }
        self.lines.push(text.replace('→', "\t").replace('␌', "\x0c"));
    }
}

fn kind(letter: char) -> Option<FoldingKind> {
    match letter {
        'B' => Some(FoldingKind::Block),
        'K' => Some(FoldingKind::Bracket),
        'C' => Some(FoldingKind::Comments),
        _ => None,
    }
}

/// The table; its form stands at its head.
fn cases() -> Vec<Case> {
    let mut cases: Vec<Case> = Vec::new();
    let table = file("bindings/folds-cases.txt");
    for line in table.lines().filter(|line| !line.is_empty() && !line.starts_with('#')) {
        match line.split_once('|') {
            Some((margin, text)) => cases.last_mut().unwrap().line(margin, text.strip_prefix(' ').unwrap_or(text)),
            None => cases.push(Case { title: line.to_owned(), ..Case::default() }),
        }
    }
    for case in &mut cases {
        assert!(case.open.iter().all(Option::is_none), "{}: something is not closed", case.title);
        case.folds.sort_by_key(|fold| (fold.start_line, u32::MAX - fold.end_line));
    }
    cases
}

/// The text with each line end, with and without one at its end, with and without a BOM.
fn texts(lines: &[String]) -> Vec<String> {
    let mut texts = Vec::new();
    for end in ["\n", "\r\n", "\r"] {
        for last in ["", end] {
            for bom in ["", "\u{feff}"] {
                texts.push(format!("{bom}{}{last}", lines.join(end)));
            }
        }
    }
    texts
}

#[test]
fn the_table() {
    let cases = cases();
    assert!(cases.len() > 30, "{} cases", cases.len());
    for Case { title, lines, folds, .. } in cases {
        if title.ends_with(".py") {
            assert_eq!(lines.join("\n") + "\n", file(&title), "{title}");
        }
        for text in texts(&lines) {
            for mode in [Mode::Module, Mode::Interactive, Mode::Expression] {
                let reading = read(&text, mode.with_comments()).unwrap();
                assert_eq!(folding_ranges(&text, reading.tokens()), folds, "{title}: {text:?} {mode:?}");
                assert_eq!(misplaced(&text, reading.tokens()), None, "{title}: {text:?} {mode:?}");
            }
        }
    }
}

/// Without comments in the list, what is left folds to the last token.
#[test]
fn a_mode_without_comments() {
    let text = "# a\n# b\nwith c:\n    f(\n# d\n    )\n    # e\n";
    let said = |mode| -> Vec<String> {
        folding_ranges(text, tokenize(text, mode).unwrap()).iter().map(FoldingRange::to_string).collect()
    };
    assert_eq!(said(Mode::Module), ["2..=5 block", "3..=5 bracket"]);
    assert_eq!(said(Mode::ModuleWithComments), ["0..=1 comments", "2..=6 block", "3..=5 bracket"]);
}

/// A hundred levels that close at one place, many times, with comments that are of each of them.
#[test]
fn deep_blocks() {
    let levels: String = (0..100).map(|level| format!("{}if a:\n", " ".repeat(level))).collect();
    let comments: String = (1..=100).rev().map(|level| format!("{}# c\n", " ".repeat(level))).collect();
    let text = format!("{levels}{}b\n{comments}", " ".repeat(100)).repeat(100);
    let folds = folding_ranges(&text, tokenize(&text, Mode::ModuleWithComments).unwrap());
    let blocks: Vec<_> = folds.iter().filter(|fold| fold.kind == FoldingKind::Block).collect();
    assert_eq!((folds.len(), blocks.len()), (10_000, 10_000));
    for (index, block) in (0..).zip(blocks) {
        let (part, level) = (index / 100, index % 100);
        assert_eq!((block.start_line, block.end_line), (part * 201 + level, part * 201 + 200 - level));
    }
}

/// A million brackets, each on a line of its own, closed or not.
#[test]
fn deep_brackets() {
    let count = 1_000_000;
    let open = "(\n".repeat(count);
    for (closers, first) in [("", count as u32 - 1), (")", count as u32)] {
        let text = open.clone() + &closers.repeat(count);
        let reading = read(&text, Mode::ModuleWithComments).unwrap();
        let folds = folding_ranges(&text, reading.tokens());
        assert_eq!(folds.len(), first as usize);
        assert!((0..).zip(&folds).all(|(line, fold)| (fold.start_line, fold.end_line) == (line, first)));
    }
}

/// Tokens that are no reading's, or another text's: some ranges or none, and no panic.
#[test]
fn any_tokens() {
    let kinds: Vec<Kind> = Kind::all().collect();
    let mut numbers = Vec::new();
    for turn in 0..3000_u32 {
        let at = turn.wrapping_mul(0x9e37_79b9) >> 26;
        let kind = kinds[(turn.wrapping_mul(0x85eb_ca6b) >> 16) as usize % 12].number();
        // The first lines, and the last that a number can say.
        let line = (turn.wrapping_mul(0x27d4_eb2f) >> 26).wrapping_sub(30);
        numbers.extend([kind, at, (turn.wrapping_mul(0xc2b2_ae35)) >> 26, line]);
    }
    numbers.extend([58, 58, 58, u32::MAX]);
    let tokens: Vec<Token> = Row::new(&numbers).unwrap().iter().collect();
    for text in ["", "a\n\n# b\r\n\t(é\n", &"# c\n".repeat(20)] {
        for from in 0..tokens.len() {
            folding_ranges(text, tokens[from..].iter().take(50).copied());
        }
    }
}

#[test]
fn kinds_are_said() {
    let kinds = [FoldingKind::Block, FoldingKind::Bracket, FoldingKind::Comments];
    assert_eq!(kinds.map(|kind| kind.to_string()), ["block", "bracket", "comments"]);
    assert_eq!(kinds.map(FoldingKind::lsp), [None, None, Some("comment")]);
}
