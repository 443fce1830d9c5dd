//! oracle: the original's answers in document 01's numbers.
//!
//!   oracle [--mode M] [--start S] [--room N] [FILE]
//!       one text, from a file or standard input: a line for each record, `kind start end line`, then the line
//!       `code count place detail`, as the program `tokens` prints it.
//!   oracle --batch
//!       standard input is a row of questions: mode, start, room and length as four 32-bit numbers, little endian,
//!       then the text; a room of 4294967295 is room enough. A line for each: `code count place detail`, then the
//!       numbers of each record written.
//!   oracle --utf8
//!       the same questions; a line for each: where Rust's own reader of UTF-8 stops and its `error_len`, or `taken`.
//!   oracle --bench N FILE
//!       the original's own iterator over the file, N times.
//!   oracle --class LOW HIGH
//!       `c start continue emoji` for each character between two numbers.
use oracle::{answer, Record};
use std::{
    env, fs,
    io::{self, BufReader, BufWriter, Read, Write},
    time::Instant,
};

fn main() -> io::Result<()> {
    let words: Vec<String> = env::args().skip(1).collect();
    let out = &mut BufWriter::with_capacity(1 << 20, io::stdout().lock());
    match words.first().map(String::as_str) {
        Some("--batch") => batch(out, write_answer)?,
        Some("--utf8") => batch(out, write_utf8)?,
        Some("--bench") => bench(number(&words[1]), &words[2], out)?,
        Some("--class") => classes(number(&words[1]), number(&words[2]), out)?,
        _ => one(&words, out)?,
    }
    out.flush()
}

fn number(word: &str) -> u32 {
    word.parse().unwrap_or_else(|_| panic!("{word} is not a number of 32 bits"))
}

/// One text in document 01's format.
fn one(words: &[String], out: &mut impl Write) -> io::Result<()> {
    let (mut mode, mut start, mut room, mut file) = (0, 0, usize::MAX, None);
    let mut words = words.iter();
    while let Some(word) = words.next() {
        match word.as_str() {
            "--mode" => mode = number(words.next().expect("--mode M")),
            "--start" => start = number(words.next().expect("--start S")),
            "--room" => room = number(words.next().expect("--room N")) as usize,
            _ => file = Some(word),
        }
    }
    let answer = answer(&text(file)?, mode, start);
    let ([code, count, place, detail], records) = answer.in_room(room);
    for record in records {
        writeln!(out, "{}", shown(record))?;
    }
    writeln!(out, "{code} {count} {place} {detail}")
}

/// A record's numbers with blanks between them.
fn shown(record: &Record) -> String {
    record.map(|number| number.to_string()).join(" ")
}

fn text(file: Option<&String>) -> io::Result<Vec<u8>> {
    let mut text = Vec::new();
    match file {
        Some(file) => text = fs::read(file)?,
        None => drop(io::stdin().lock().read_to_end(&mut text)?),
    }
    Ok(text)
}

/// The mode, the start and the room of a question.
type Asked = [u32; 3];

/// A line for each question of standard input.
fn batch<W: Write>(out: &mut W, write_line: fn(&mut W, &[u8], Asked) -> io::Result<()>) -> io::Result<()> {
    let mut input = BufReader::with_capacity(1 << 20, io::stdin().lock());
    let (mut head, mut text) = ([0; 16], Vec::new());
    while input.read_exact(&mut head).is_ok() {
        let at = |i: usize| u32::from_le_bytes([head[i], head[i + 1], head[i + 2], head[i + 3]]);
        text.resize(at(12) as usize, 0);
        input.read_exact(&mut text)?;
        write_line(out, &text, [at(0), at(4), at(8)])?;
    }
    Ok(())
}

fn write_answer(out: &mut impl Write, text: &[u8], [mode, start, room]: Asked) -> io::Result<()> {
    let answer = answer(text, mode, start);
    let ([code, count, place, detail], records) = answer.in_room(room as usize);
    write!(out, "{code} {count} {place} {detail}")?;
    for record in records {
        write!(out, " {}", shown(record))?;
    }
    writeln!(out)
}

/// What Rust says of the text alone.
fn write_utf8(out: &mut impl Write, text: &[u8], _: Asked) -> io::Result<()> {
    match std::str::from_utf8(text) {
        Ok(_) => writeln!(out, "taken"),
        Err(error) => writeln!(out, "{} {:?}", error.valid_up_to(), error.error_len()),
    }
}

/// The original's own iterator, timed.
fn bench(times: u32, file: &str, out: &mut impl Write) -> io::Result<()> {
    let text = fs::read_to_string(file)?;
    for _ in 0..times {
        let began = Instant::now();
        let (tokens, to_the_end) = original::count_tokens(&text);
        let ns = began.elapsed().as_nanos() as f64 / text.len() as f64;
        writeln!(out, "{} bytes, {tokens} tokens, to the end: {to_the_end}, {ns:.2} ns a byte", text.len())?;
    }
    Ok(())
}

/// The original's classes of the characters between two numbers.
fn classes(low: u32, high: u32, out: &mut impl Write) -> io::Result<()> {
    for c in (low..=high).filter_map(char::from_u32) {
        let [start, more, emoji] =
            [original::is_xid_start(c), original::is_xid_continue(c), original::is_emoji_presentation(c)]
                .map(u32::from);
        writeln!(out, "{} {start} {more} {emoji}", c as u32)?;
    }
    Ok(())
}
