//! Prints the tokens and comments of a Python file, and how the reading ended.
//!
//!   cargo run --example tokens -- [--mode MODE] FILE
//!
//! A line for each record: line:column (from 1, in characters), the kind's number, start and end in bytes, the kind's
//! name, the text. At a fault: FILE:line:column: and what is to be mended, as compilers say it, its line, and marks under
//! it; and so for the first wrong bracket among the records. Last: the answer's numbers. FILE may be -, the standard
//! input, whose name is <stdin>. MODE is a mode's name or number, module-with-comments if none is given.
//!
//! The status is 0 if the text was read to its end and no bracket is wrong, 1 if there is something to mend, 2 if it was
//! asked wrongly.
use sroviemat::{read, Lines, Mode, Position, Refusal, Row};
use std::{
    env,
    ffi::{OsStr, OsString},
    fmt::Display,
    fs,
    io::{self, BufWriter, ErrorKind, Read, Write},
    ops::Range,
    process::exit,
};

const USAGE: &str = "usage: tokens [--mode MODE] FILE";

/// How many characters of a line are shown with a fault.
const MOST_SHOWN: usize = 80;

/// What was asked for.
struct Asked {
    mode: Mode,
    file: OsString,
}

fn main() {
    let asked = match asked(env::args_os().skip(1)) {
        Ok(asked) => asked,
        Err(message) => fail(&message),
    };
    let name = if asked.file == "-" { "<stdin>".into() } else { asked.file.to_string_lossy() };
    let text = contents(&asked.file).unwrap_or_else(|error| fail(&format!("{name}: {error}")));
    let source = Source { name: &name, text: &text, lines: Lines::new(&text) };
    match source.print(asked.mode, BufWriter::new(io::stdout().lock())) {
        Ok(status) => exit(status),
        // Whoever reads this has seen enough.
        Err(error) if error.kind() == ErrorKind::BrokenPipe => {}
        Err(error) => fail(&error.to_string()),
    }
}

fn fail(message: &str) -> ! {
    eprintln!("tokens: {message}");
    exit(2)
}

/// The arguments, or what is wrong with them.
fn asked(mut words: impl Iterator<Item = OsString>) -> Result<Asked, String> {
    let (mut mode, mut files, mut options) = (Mode::ModuleWithComments, Vec::new(), true);
    while let Some(word) = words.next() {
        let shown = word.to_string_lossy().into_owned();
        match shown.as_str() {
            "--" if options => options = false,
            "-h" | "--help" if options => {
                println!("{USAGE}");
                exit(0)
            }
            "--mode" if options => mode = mode_of(&words.next().ok_or("--mode needs a MODE")?)?,
            option if options && option.starts_with("--mode=") => {
                mode = mode_of(OsStr::new(&option["--mode=".len()..]))?
            }
            option if options && option.starts_with('-') && option != "-" => {
                return Err(format!("unknown option {option}; {USAGE}"))
            }
            _ => files.push(word),
        }
    }
    match <[OsString; 1]>::try_from(files) {
        Ok([file]) => Ok(Asked { mode, file }),
        Err(files) => Err(format!("{} files, and one is wanted; {USAGE}", files.len())),
    }
}

fn mode_of(word: &OsStr) -> Result<Mode, String> {
    let word = word.to_string_lossy();
    word.parse().map_err(|error| format!("{word}: {error}"))
}

fn contents(file: &OsStr) -> io::Result<Vec<u8>> {
    if file != "-" {
        return fs::read(file);
    }
    let mut text = Vec::new();
    io::stdin().lock().read_to_end(&mut text)?;
    Ok(text)
}

/// A text, and the name of the file that it is from.
struct Source<'a> {
    name: &'a str,
    text: &'a [u8],
    lines: Lines<'a>,
}

impl Source<'_> {
    /// Prints what the text is read to; the status to end with.
    fn print(&self, mode: Mode, mut out: impl Write) -> io::Result<i32> {
        let (numbers, wrong) = match read(self.text, mode) {
            Ok(reading) => {
                self.records(&mut out, reading.row())?;
                match reading.explain(self.text) {
                    None => writeln!(out, "{}", reading.ending().message())?,
                    Some(explanation) => self.fault(&mut out, &explanation, explanation.position, &explanation.span)?,
                }
                let wrong = reading.explain_brackets(self.text);
                if let Some(explanation) = &wrong {
                    self.fault(&mut out, explanation, explanation.position, &explanation.span)?;
                }
                let ending = reading.ending();
                let detail = ending.char().map_or(0, u32::from);
                ([ending.code(), reading.row().len() as u32, ending.place(), detail], wrong.is_some())
            }
            Err(refusal) => {
                match refusal.explain(self.text) {
                    None => writeln!(out, "{}: {refusal}", self.name)?,
                    Some(explanation) => self.fault(&mut out, &explanation, explanation.position, &explanation.span)?,
                }
                let (place, detail) = match refusal {
                    Refusal::BadUtf8 { at, fault, .. } => (at, fault.number()),
                    _ => (0, 0),
                };
                ([refusal.code(), 0, place, detail], false)
            }
        };
        let [code, count, place, detail] = numbers;
        writeln!(out, "code {code}, {count} records, place {place}, detail {detail}")?;
        out.flush()?;
        Ok(if code == 0 && !wrong { 0 } else { 1 })
    }

    fn records(&self, out: &mut impl Write, row: Row<'_>) -> io::Result<()> {
        for token in row {
            let (number, name) = (token.kind.number(), token.kind.name());
            let shown = String::from_utf8_lossy(&self.text[token.range()]);
            let at = self.lines.position_of(token).to_string();
            writeln!(out, "{at:>8} {number:4} {:7} {:7}  {name:17} {shown:?}", token.start, token.end)?;
        }
        Ok(())
    }

    /// A sentence behind its position, the line of that, and marks under what is to be mended in it.
    fn fault(
        &self,
        out: &mut impl Write,
        sentence: &impl Display,
        position: Position,
        span: &Range<usize>,
    ) -> io::Result<()> {
        let line = self.lines.line(position.line as usize).unwrap_or_default();
        let end = span.end.min(line.end).max(span.start);
        let letters: Vec<char> = String::from_utf8_lossy(&self.text[line.clone()]).chars().map(drawn).collect();
        // Places in bytes as places among the letters, of which a BOM is one.
        let index = |at: usize| String::from_utf8_lossy(&self.text[line.start..at]).chars().count().min(letters.len());
        let (first, last) = (index(span.start), index(end));
        let from = first.saturating_sub(MOST_SHOWN / 2).min(letters.len().saturating_sub(MOST_SHOWN));
        let to = (from + MOST_SHOWN).min(letters.len());
        let cut = |is_cut: bool| if is_cut { "…" } else { "" };
        let shown: String = letters[from..to].iter().collect();
        // A tab stays one, so that the marks stand under what they mark.
        let blank = |&letter: &char| if letter == '\t' { '\t' } else { ' ' };
        let before: String = letters[from..first].iter().map(blank).collect();
        let marks = "^".to_owned() + &"~".repeat(last.min(to).saturating_sub(first + 1));
        writeln!(out, "{}: {sentence}", position.in_file(self.name))?;
        writeln!(out, "{:>5} | {}{shown}{}", u64::from(position.line) + 1, cut(from > 0), cut(to < letters.len()))?;
        writeln!(out, "{:>5} | {}{before}{marks}", "", if from > 0 { " " } else { "" })
    }
}

/// A letter as it takes one column of the terminal and changes nothing else there; a tab stays.
fn drawn(letter: char) -> char {
    let plain = matches!(letter, '\t' | '\'' | '"' | '\\') || letter.escape_debug().count() == 1;
    if plain {
        letter
    } else {
        char::REPLACEMENT_CHARACTER
    }
}
