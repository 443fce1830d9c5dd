//! Prints which lines of Python files fold, as a language server would say it.
//!
//!   cargo run --example folds -- FILE..
//!
//! A line for each range: its first and last line, from 0, and its kind; with several files, their names before.
use sroviemat::{folding_ranges, read, Mode};
use std::{
    env, fs,
    io::{self, BufWriter, ErrorKind, Write},
    process::exit,
};

fn main() {
    let files: Vec<String> = env::args().skip(1).collect();
    if files.is_empty() {
        fail("folds FILE..");
    }
    match print(&files, BufWriter::new(io::stdout())) {
        // Whoever reads this has seen enough.
        Err(error) if error.kind() == ErrorKind::BrokenPipe => {}
        said => said.unwrap_or_else(|error| fail(&error.to_string())),
    }
}

fn fail(message: &str) -> ! {
    eprintln!("{message}");
    exit(2)
}

fn print(files: &[String], mut out: impl Write) -> io::Result<()> {
    for file in files {
        let text = fs::read(file).unwrap_or_else(|error| fail(&format!("{file}: {error}")));
        let reading =
            read(&text, Mode::ModuleWithComments).unwrap_or_else(|refusal| fail(&format!("{file}: {refusal}")));
        if files.len() > 1 {
            writeln!(out, "{file}")?;
        }
        for range in folding_ranges(&text, reading.tokens()) {
            writeln!(out, "{} {} {}", range.start_line, range.end_line, range.kind)?;
        }
    }
    out.flush()
}
