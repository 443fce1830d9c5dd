//! Texts to compare by: all short ones over an alphabet, random ones, damaged ones, deep ones.
use crate::{chosen, Numbers};

/// Letters (each a few bytes) of which all rows up to a length are tried.
pub struct Alphabet {
    pub name: &'static str,
    /// What every text begins with.
    pub before: &'static str,
    pub letters: Vec<Vec<u8>>,
    /// Put after each letter: a space between words.
    pub after: &'static str,
    pub longest: usize,
    /// Whether a text is asked about in every mode, or in one.
    pub each_mode: bool,
}

impl Alphabet {
    /// Words, with N for a newline, in every mode.
    fn of_words(name: &'static str, before: &'static str, words: &str, longest: usize) -> Alphabet {
        let letters = words.split(' ').map(|word| word.replace('N', "\n").into_bytes()).collect();
        Alphabet { name, before, letters, after: " ", longest, each_mode: true }
    }

    fn of_characters(name: &'static str, characters: &str, longest: usize) -> Alphabet {
        let letters = characters.chars().map(|c| c.to_string().into_bytes()).collect();
        Alphabet { name, before: "", letters, after: "", longest, each_mode: false }
    }

    pub fn of_bytes(name: &'static str, bytes: impl Iterator<Item = u8>, longest: usize) -> Alphabet {
        let letters = bytes.map(|byte| vec![byte]).collect();
        Alphabet { name, before: "", letters, after: "", longest, each_mode: false }
    }

    /// The same in every mode.
    fn in_each_mode(self) -> Alphabet {
        Alphabet { each_mode: true, ..self }
    }

    /// The same with more letters.
    fn with_letters(mut self, letters: &[&str]) -> Alphabet {
        self.letters.extend(letters.iter().map(|letter| letter.as_bytes().to_vec()));
        self
    }

    /// How many texts it has.
    pub fn size(&self) -> u64 {
        (0..=self.longest as u32).map(|length| (self.letters.len() as u64).pow(length)).sum()
    }

    /// The text with a number below `size`: shorter ones first.
    pub fn text(&self, mut number: u64, text: &mut Vec<u8>) {
        let letters = self.letters.len() as u64;
        let mut of_length = 1;
        while number >= of_length {
            number -= of_length;
            of_length *= letters;
        }
        text.clear();
        text.extend(self.before.as_bytes());
        while of_length > 1 {
            of_length /= letters;
            text.extend(&self.letters[(number / of_length % letters) as usize]);
            text.extend(self.after.as_bytes());
        }
    }
}

/// The sorts of line end, and some that stand together.
const LINE_ENDS: [&str; 3] = ["\n", "\r", "\r\n"];
const TOGETHER: [&str; 4] = ["\n\r", "\r\r\n", "\r\n\n", "\r\n\r"];

/// Where line ends stand, with N for each (document 02 item 4): between tokens and lines, behind comments, in strings,
/// brackets and continuations, behind a BOM, before an error.
#[rustfmt::skip]
const BROKEN: &[&str] = &[
    "xNy", "NNx", "xNN", " N\tNxN", "xN#cNN#dNy", "x #cNy", "'''N''' x", "x = '''aNbN''' + 'c'N", "r'''\\N''' x",
    "'\\N' x", "(N) x", "(xN,N#cN y)Nz", "x \\Ny", "\\Nx \\NyN", "if a:N bN#cN cNd", "\u{feff}N\u{e9}N",
    "if a:N bN 'cN",
];

/// Each sort in each of these places, and all sorts by turns.
pub fn line_ends() -> Vec<String> {
    let sorts = [&LINE_ENDS[..], &TOGETHER].concat();
    let alike = BROKEN.iter().flat_map(|text| sorts.iter().map(|end| text.replace('N', end)));
    alike.chain(BROKEN.iter().map(|text| broken_by_turns(text))).collect()
}

fn broken_by_turns(text: &str) -> String {
    let parts = text.split_inclusive('N').zip(LINE_ENDS.iter().cycle());
    parts.map(|(part, end)| part.replace('N', end)).collect()
}

/// The ends of every range of bytes in UTF-8, the bytes next to them, and a letter.
#[rustfmt::skip]
pub const UTF8_EDGES: [u8; 25] = [
    0x00, 0x41, 0x7f, 0x80, 0x8f, 0x90, 0x9f, 0xa0, 0xbf, 0xc0, 0xc1, 0xc2, 0xdf,
    0xe0, 0xe1, 0xec, 0xed, 0xee, 0xef, 0xf0, 0xf1, 0xf3, 0xf4, 0xf5, 0xff,
];

/// One letter at least for each class of bytes, quotes, digits, brackets, newlines, comments, blanks and soft keywords;
/// `more` makes each alphabet's longest texts longer.
pub fn alphabets(more: usize) -> Vec<Alphabet> {
    vec![
        Alphabet::of_bytes("all bytes", 0..=255, 2 + more),
        Alphabet::of_bytes("bytes of UTF-8", UTF8_EDGES.into_iter(), 4),
        Alphabet::of_characters(
            "a character of each class",
            "a_0.'\"\\\n\r \t\u{c}#()[]=!-:$\u{0}\u{e9}\u{301}\u{feff}\u{4e2d}\u{1f600}",
            3 + more,
        ),
        Alphabet::of_characters("quotes", "'\"\\\n\rarb", 5 + more),
        Alphabet::of_characters("digits", "019_.eE+-jxXobf", 4 + more),
        Alphabet::of_characters("blanks", " \t\u{c}\n\ra#", 6 + more).in_each_mode(),
        Alphabet::of_characters("levels", " \t\na(", 8 + more).in_each_mode(),
        Alphabet::of_characters("brackets", "()[]{}\na#\\", 5 + more).in_each_mode(),
        Alphabet::of_characters("comments", "#\n\r()[] \ta:=", 5 + more)
            .with_letters(&["match ", "type "])
            .in_each_mode(),
        Alphabet::of_characters("errors behind comments", "#\n \ta$\\(", 6 + more).in_each_mode(),
        Alphabet::of_characters("line ends", "\n\ra\\()#'", 5 + more).with_letters(&["'''"]).in_each_mode(),
        Alphabet::of_characters("operators", chosen::OPERATOR_CHARACTERS, 3 + more),
        Alphabet::of_words("match", "", "match case x lambda : ( ) # N", 5 + more),
        Alphabet::of_words("type", "", "type match x = [ ] ( ) # N", 5 + more),
        Alphabet::of_words("after match", "match ", "x lambda : ( ) ,", 6 + more),
        Alphabet::of_words("after type", "type x ", "[ ] ( ) = ,", 7 + more),
        Alphabet::of_words("after type, over lines", "type x [ ( ", "[ ] ( ) = # N", 6 + more),
    ]
}

/// Pieces of which random texts are made.
#[rustfmt::skip]
const PIECES: &[&str] = &[
    "x", "y1", "_", "if", "else", "lambda", "match", "case", "type", "in", "None", "e", "j", "r", "b", "rb", "f", "u", "\u{e9}", "\u{4e2d}\u{6587}",
    "x\u{301}", "\u{1f600}", "\u{feff}", "$", "!", "?", "\u{0}", "\u{a0}", "0", "1", "07", "1_0", "1_", "0x", "0xf", "0b1", "0o7", "1.", "1.5", ".5",
    "1e5", "1.e", "1.e5", "1._", "1j", "'", "\"", "'''", "\"\"\"", "'a'", "\"b\"", "'''c\n'''", "\\", "\\\n", "\\\r\n", "\\'", "#", "#c", "# d\n",
    "\n", "\n", "\n", "\r", "\r\n", "\n ", "\n  ", "\n\t", "\n\t ", "\n \t", " ", " ", "  ", "\t", "\u{c}", "(", ")", "[", "]", "{", "}", "(", ")",
    ":", ":", "=", "=", ",", ";", ".", "...", "->", ":=", "==", "!=", "<", "<<=", ">", ">>", "+", "-", "*", "**", "/", "//=", "%", "|", "^", "&", "@", "~",
];

/// Lines of a program; `?` becomes a soft keyword or a name.
#[rustfmt::skip]
const LINES: &[&str] = &[
    "x = 1", "if a:", "with surface('a') as b:", "for x in y:", "pass", "return (a,", "b)", "# comment", "", "   ", "\t", "#", "'''a", "b'''", "x = [", "]",
    "? x:", "? (x, y):", "? [x:y]", "? = 1", "?: int", "? X = 1", "? X[T] = 1", "? lambda: x", "? lambda: x: y", "x; ? y: z", "?", "to_linear(a)  # done",
    "a = 0xff + 1_000j * 1e-5", "f'{a}' \"b\" rb'\\''", "a \\", "@b", "x: int = 5", "else:", "{'a': 1}", "\u{436}\u{438} = '\u{e9}'", "$", "x = 'a", ")", "1.e",
    "? (x, # one\n\n  y):", "? [\n: # two\r\n]: z", "? X[\nT # t\n] = 1", "? X[(]\n=1)", "? X[(]#c\r=1)", "? X[((]]\r\n[=1])", "for x in y:  # each",
];

const SOFT: &[&str] = &["match", "case", "type", "x", "Match"];
const BLANKS: &[&str] = &["", "", "", " ", "  ", "    ", "\t", "\t\t", "\t ", "        ", " \t", "\u{c}"];
const NEWLINES: &[&str] = &["\n", "\n", "\n", "\n", "\r\n", "\r", "\n\n", "\\\n"];

/// Comments and newlines, and brackets that they may stand in.
#[rustfmt::skip]
const STREWN: &[&str] = &[
    "\n", "\r\n", "\r", "\n\n", "#c\n", "  # d\r\n", "#\r", "\n#e\n", "\n\t#\n", "\u{c}\n", "#", "(\n", "\n)", "[#c\n", "]", "(", ")",
];

/// A random text of one of several sorts; one in four is strewn, one in six damaged afterwards.
pub fn random(numbers: &mut Numbers, text: &mut Vec<u8>) {
    text.clear();
    match numbers.below(17) {
        0..=5 => pieces(numbers, text),
        6..=11 => lines(numbers, text),
        12..=13 => characters(numbers, text),
        14..=15 => chosen_twice(numbers, text),
        _ => program(numbers, text),
    }
    if numbers.once_in(4) {
        strew(numbers, text);
    }
    if numbers.once_in(6) {
        damage(numbers, text);
    }
}

fn pieces(numbers: &mut Numbers, text: &mut Vec<u8>) {
    let spaced = numbers.once_in(3);
    for _ in 0..numbers.below(20) {
        text.extend(numbers.of(PIECES).as_bytes());
        if spaced {
            text.push(b' ');
        }
    }
}

/// Lines that go in and out a little at a time.
fn lines(numbers: &mut Numbers, text: &mut Vec<u8>) {
    let unit = numbers.of(&["    ", "  ", " ", "\t"]);
    let mut level = 0;
    for _ in 0..numbers.below(12) {
        if numbers.once_in(12) {
            text.extend(numbers.of(BLANKS).as_bytes());
        } else {
            text.extend(unit.repeat(level).as_bytes());
        }
        let line = numbers.of(LINES).replace('?', numbers.of(SOFT));
        text.extend(line.as_bytes());
        text.extend(numbers.of(NEWLINES).as_bytes());
        let up = opens(&line) && !numbers.once_in(10);
        level = if up { level + 1 } else { level - numbers.below(3).min(level) };
    }
}

/// Whether a line of LINES or CALM opens a block.
fn opens(line: &str) -> bool {
    line.trim_end_matches("  # each").ends_with(':')
}

/// Lines that read well one after another, wherever they stand.
#[rustfmt::skip]
const CALM: &[&str] = &[
    "x = 1", "pass", "# comment", "", "if a:", "with surface('a') as b:", "for x in y:", "else:", "? x:", "? (x, y):", "? = 1", "? X[T] = 1", "?: int",
    "x; ? y: z", "to_linear(a)  # done", "a = 0xff + 1_000j * 1e-5", "f(a,\n  b)", "x = [1,\n# two\n\t2]", "s = '''a\n b'''", "a \\\n  + b",
    "\u{436}\u{438} = '\u{e9}\u{1f600}'", "f'{a}' \"b\" rb'\\''", "# \u{4e2d}\u{6587}", "d = {'a': (1, [2])}", "\u{1f600} = x\u{301}",
    "", "#", "for x in y:  # each", "? (x, # one\n\n  y):", "? X[\n# t\nT] = 1", "? X[(]\n=1)", "b = {\n\n}#c",
];

/// A program that reads to its end: blocks of lines, each newline of the program's own sort or of any. Comments and
/// blank lines stand at any margin.
pub fn program(numbers: &mut Numbers, text: &mut Vec<u8>) {
    text.clear();
    let unit = numbers.of(&["    ", "  ", " ", "\t"]);
    let sorts = numbers.of(&[&["\n"][..], &["\r\n"], &["\r"], &["\n", "\r\n", "\r"]]);
    let mut level = 0;
    for _ in 0..numbers.below(24) {
        let line = numbers.of(CALM).replace('?', numbers.of(SOFT)).replace('\n', numbers.of(sorts));
        let margin = if line.is_empty() || line.starts_with('#') { numbers.below(level + 2) } else { level };
        text.extend(unit.repeat(margin).as_bytes());
        text.extend(line.as_bytes());
        text.extend(numbers.of(sorts).as_bytes());
        let down = if numbers.once_in(3) { (1 + numbers.below(2)).min(level) } else { 0 };
        level = if opens(&line) { level + 1 } else { level - down };
    }
    if numbers.once_in(4) {
        text.pop();
    }
}

/// What a keystroke or a paste may put in: a piece, a newline, blanks, a line, or a byte that is perhaps no character.
pub fn typed(numbers: &mut Numbers) -> Vec<u8> {
    match numbers.below(8) {
        0..=3 => numbers.of(PIECES).into(),
        4 => numbers.of(NEWLINES).into(),
        5 => numbers.of(BLANKS).into(),
        6 => [numbers.of(CALM).as_bytes(), b"\n"].concat(),
        _ => vec![numbers.below(256) as u8],
    }
}

/// Characters of all widths, mostly small.
fn characters(numbers: &mut Numbers, text: &mut Vec<u8>) {
    for _ in 0..numbers.below(12) {
        let limit = numbers.of(&[0x80, 0x80, 0x800, 0x1_0000, 0x11_0000]);
        let c = char::from_u32(numbers.below(limit) as u32).unwrap_or('x');
        text.extend(c.to_string().as_bytes());
    }
}

/// Two chosen texts after one another, perhaps with something between them.
fn chosen_twice(numbers: &mut Numbers, text: &mut Vec<u8>) {
    for between in ["", numbers.of(PIECES)] {
        text.extend(between.as_bytes());
        let list = numbers.of(&chosen::BY_RULE);
        text.extend(numbers.of(list).as_bytes());
    }
}

/// A few comments, newlines and brackets put in between characters.
fn strew(numbers: &mut Numbers, text: &mut Vec<u8>) {
    for _ in 0..1 + numbers.below(4) {
        let near = numbers.below(text.len() + 1);
        let within = text[near..].iter().take_while(|&&byte| (0x80..0xc0).contains(&byte)).count();
        let at = near + within;
        text.splice(at..at, numbers.of(STREWN).bytes());
    }
}

/// A few bytes changed, dropped, doubled or put in; or the end cut off.
pub fn damage(numbers: &mut Numbers, text: &mut Vec<u8>) {
    for _ in 0..1 + numbers.below(3) {
        let at = numbers.below(text.len() + 1);
        let byte = if numbers.once_in(2) { numbers.below(256) as u8 } else { numbers.of(PIECES).as_bytes()[0] };
        match numbers.below(6) {
            0 => text.truncate(at),
            1 | 2 => text.insert(at, byte),
            _ if at == text.len() => {}
            3 => text[at] = byte,
            4 => drop(text.remove(at)),
            _ => text.insert(at, text[at]),
        }
    }
}

/// The blanks of a level, up to `tabs` of them tabs.
pub fn blanks(level: usize, tabs: usize) -> String {
    "\t".repeat(level.min(tabs)) + &" ".repeat(level - level.min(tabs))
}

/// A line on each level from 0 to `depth`.
pub fn nested(depth: usize, tabs: usize, line: &str) -> String {
    (0..=depth).map(|level| blanks(level, tabs) + line + "\n").collect()
}

/// Ends for a text `depth` levels deep: another level, dedents, errors in the round of either.
pub fn tails(depth: usize, tabs: usize) -> Vec<String> {
    let more = blanks(depth + 1, tabs);
    let same = blanks(depth, tabs);
    let mut tails = vec![String::new(), same.clone(), format!("{same}x"), format!("{same}$"), "x\n".into(), "$".into()];
    for item in
        ["x", "x\n", "$", "0x", "'", "!", "\\", ")", "1.e", "(\n", "#c", "#c\n", "\n", "\u{c}x", "\tx", "match x: y"]
    {
        tails.push(format!("{more}{item}"));
    }
    tails.push(format!("#c\n\n{more}#d\n{more}x"));
    tails.push(format!("#c\n\n{more}#d\n{more}$"));
    tails.push(format!("{same}(x\n{more}y)\n{more}z"));
    tails.push(format!("{same}match x: y\n{more}z"));
    tails.push(format!("{}x\n{more}y", blanks(depth / 2, tabs)));
    tails
}
