//! compare: our compiled reader and classes against the original's.
//!
//!   compare [PART..] [--more N] [--random N] [--edits N] [--seed S] [--below FOLDER]
//!   compare turns OLD.so NEW.so [--turns N] [--below FOLDER]
//!
//! Parts: classes characters short chosen random damaged deep limits files lines faults forms edits unsound audit bench;
//! without any, all but bench. Each prints how many texts and questions it asked and how many differences it found; the
//! smallest question on which the two sides differ is shown, and the status is 1. bench times both readers over the
//! same texts and prints nanoseconds a byte and their ratio, and re-reading after a keystroke beside whole reading.
//! turns times two archives of ours, which tools/bench-archives makes shared objects of.
//!
//!   --more N         short texts N letters longer (default 0)
//!   --random N       so many random texts, and a fifth as many damaged ones and ones in two forms (default 1000000)
//!   --edits N        so many random edits, and half as many random rows, altered or audited (default 1000000)
//!   --seed S         another row of random texts (default 1)
//!   --below FOLDER   the .py files of this folder (default /, the whole machine)
//!   --turns N        so many turns for each of two archives (default 15)
mod audits;
mod bench;
mod check;
mod classes;
mod edits;
mod faults;
mod files;
mod forms;
mod keystrokes;
mod lines;
mod ours;
mod parts;
mod reread;
mod rules;
mod tallies;
mod turns;
mod unsound;

use check::Checker;
use faults::Faults;
use forms::Forms;
use parts::Share;
use reread::Rechecker;
use std::{env, panic, path::PathBuf, process::exit, thread, time::Instant};

const THREADS: usize = 2;
#[rustfmt::skip]
const PARTS: [&str; 15] = [
    "classes", "characters", "short", "chosen", "random", "damaged", "deep", "limits", "files",
    "lines", "faults", "forms", "edits", "unsound", "audit",
];

/// What the command line asks for.
struct Wish {
    parts: Vec<String>,
    more: usize,
    random: usize,
    edits: usize,
    seed: u64,
    below: PathBuf,
    turns: usize,
}

fn wish() -> Wish {
    let below = PathBuf::from("/");
    let mut wish = Wish { parts: Vec::new(), more: 0, random: 1_000_000, edits: 1_000_000, seed: 1, below, turns: 15 };
    let mut words = env::args().skip(1);
    while let Some(word) = words.next() {
        let mut value = || words.next().unwrap_or_else(|| panic!("{word} needs a value"));
        match word.as_str() {
            "--more" => wish.more = value().parse().expect("--more N"),
            "--random" => wish.random = value().parse().expect("--random N"),
            "--edits" => wish.edits = value().parse().expect("--edits N"),
            "--seed" => wish.seed = value().parse().expect("--seed S"),
            "--below" => wish.below = PathBuf::from(value()),
            "--turns" => wish.turns = value().parse().expect("--turns N"),
            _ => wish.parts.push(word),
        }
    }
    if wish.parts.is_empty() {
        wish.parts = PARTS.map(String::from).to_vec();
    }
    wish
}

/// Whoever reads what is printed may have seen enough: a closed pipe ends the program without a word.
fn end_quietly_on_a_closed_pipe() {
    let usual = panic::take_hook();
    panic::set_hook(Box::new(move |info| {
        let said = info.payload().downcast_ref::<String>();
        if said.map_or(false, |words| words.starts_with("failed printing to stdout: Broken pipe")) {
            exit(141);
        }
        usual(info);
    }));
}

fn main() {
    end_quietly_on_a_closed_pipe();
    let wish = wish();
    let same = match &wish.parts[..] {
        [part, old, new] if part == "turns" => turns::run(&wish.below, [old, new], wish.turns),
        parts => parts.iter().fold(true, |same, part| same & any_part(part, &wish)),
    };
    exit(if same { 0 } else { 1 });
}

/// One part; false if something differs.
fn any_part(part: &str, wish: &Wish) -> bool {
    match part {
        "classes" => classes::compare(),
        "bench" => bench::run(&wish.below),
        "lines" => lines_part(wish),
        "faults" => faults_part(),
        "forms" => forms_part(wish),
        "edits" | "unsound" | "audit" => reread_part(part, wish),
        _ => read_part(part, wish),
    }
}

/// One part of the reading's comparison; false if the two sides differ.
fn read_part(part: &str, wish: &Wish) -> bool {
    match part {
        "short" => run(part, |share, checker| parts::short(share, wish.more, checker)),
        "characters" => run(part, parts::characters),
        "chosen" => run(part, parts::chosen),
        "random" => run(part, |share, checker| parts::random_texts(share, wish.random, wish.seed, checker)),
        "damaged" => run(part, |share, checker| parts::damaged(share, wish.random / 5, wish.seed, checker)),
        "deep" => run(part, parts::deep),
        "limits" => run(part, parts::limits),
        "files" => {
            let files = files::python_files(&wish.below);
            run(part, |share, checker| parts::files(share, &files, checker))
        }
        _ => panic!("no part {part}: {PARTS:?} or bench"),
    }
}

/// Files with line ends of every sort, read and edited; false if the two sides differ, or a sort never came up.
fn lines_part(wish: &Wish) -> bool {
    let began = Instant::now();
    lines::by_hand();
    let files = lines::some_files(files::python_files(&wish.below), wish.seed);
    let (mut read, mut edited) = (Checker::default(), Rechecker::default());
    let parts = on_threads(|share| {
        let (mut read, mut edited) = (Checker::default(), Rechecker::default());
        lines::files(share, &files, wish.seed, &mut read, &mut edited);
        (read, edited)
    });
    for (of_read, of_edited) in parts {
        read.join(of_read);
        edited.join(of_edited);
    }
    let of_all_sorts = lines::of_all_sorts(&edited.tallies);
    let same = said("lines", began, read) & resaid("lines, edited", began, edited);
    if !of_all_sorts {
        println!("  the files are too few: a sort of line end never came up, or none in a string");
    }
    same && of_all_sorts
}

/// The faults of bytes that are not UTF-8; false if the sides differ on one, or one never came up.
fn faults_part() -> bool {
    let began = Instant::now();
    faults::by_hand();
    let mut all = Faults::default();
    let parts = on_threads(|share| {
        let mut faults = Faults::default();
        faults::short_texts(share, &mut faults);
        faults::pairs(share, &mut faults);
        faults::edges(share, &mut faults);
        faults
    });
    parts.into_iter().for_each(|faults| all.join(faults));
    let (texts, differences, seconds) = (all.texts, all.differences, began.elapsed().as_secs_f64());
    println!("faults: {texts} texts, {differences} differences ({seconds:.1} s)");
    all.tallies.print();
    if !all.of_all_sorts() {
        println!("  a fault of the seven never came up");
    }
    if let Some(question) = all.smallest.take() {
        println!("  the smallest:\n{}", faults::show(question));
    }
    differences == 0 && all.of_all_sorts()
}

/// The two forms of a reading with each other; false if they do not agree as they should, or were not tried.
fn forms_part(wish: &Wish) -> bool {
    let began = Instant::now();
    let files = files::python_files(&wish.below);
    let mut all = Forms::default();
    let parts = on_threads(|share| {
        let mut forms = Forms::default();
        forms::files(share, &files, &mut forms);
        forms::random_texts(share, wish.random / 5, wish.seed, &mut forms);
        forms
    });
    parts.into_iter().for_each(|forms| all.join(forms));
    let (texts, differences, seconds) = (all.texts, all.differences, began.elapsed().as_secs_f64());
    println!("forms: {texts} texts, {differences} differences ({seconds:.1} s)");
    all.tallies.print();
    if !all.of_both_sorts() {
        println!("  the random texts are too few: there are none that meet the premise, or none that do not");
    }
    if let Some(asked) = all.smallest.take() {
        println!("  the smallest:\n{}", forms::show(asked));
    }
    differences == 0 && all.of_both_sorts()
}

/// One part of what is done with a row that is there already; false if a door does otherwise than the rules say, or a
/// case that the part is for never came up.
fn reread_part(part: &str, wish: &Wish) -> bool {
    let began = Instant::now();
    let half = wish.edits / 2;
    let mut all = Rechecker::default();
    let checkers = on_threads(|share| {
        let mut checker = Rechecker::default();
        match part {
            "edits" => edits::edits(share, wish.edits, wish.seed, &mut checker),
            "unsound" => unsound::unsound(share, half, wish.seed, &mut checker),
            _ => audits::audits(share, half, wish.seed, &mut checker),
        }
        checker
    });
    checkers.into_iter().for_each(|checker| all.join(checker));
    let lacking = cases(part).into_iter().find(|(topic, name)| all.tallies.of(topic, name) == 0);
    let same = resaid(part, began, all);
    if let Some((topic, name)) = lacking {
        println!("  the questions are too few: {topic}, {name}: none");
    }
    same && lacking.is_none()
}

/// What must come up in a part, by topic and name.
fn cases(part: &str) -> Vec<(&'static str, &'static str)> {
    match part {
        "edits" => vec![(edits::ROW, edits::WRONG_KINDS), (edits::ROW, edits::WRONG_LINES)],
        "unsound" => unsound::CASES.to_vec(),
        _ => Vec::new(),
    }
}

/// Says what came of a part with rows; false if something differs.
fn resaid(part: &str, began: Instant, mut all: Rechecker) -> bool {
    let (questions, differences, seconds) = (all.questions, all.differences, began.elapsed().as_secs_f64());
    println!("{part}: {questions} questions, {differences} differences ({seconds:.1} s)");
    all.tallies.print();
    if let Some(asked) = all.smallest.take() {
        let asked = all.shrink(asked);
        println!("  the smallest:\n{}", all.show(&asked));
    }
    differences == 0
}

/// Runs a part on the threads and says what came of it.
fn run(part: &str, work: impl Fn(Share, &mut Checker) + Sync) -> bool {
    let began = Instant::now();
    let mut all = Checker::default();
    let checkers = on_threads(|share| {
        let mut checker = Checker::default();
        work(share, &mut checker);
        checker
    });
    checkers.into_iter().for_each(|checker| all.join(checker));
    said(part, began, all)
}

/// Says what came of a part with texts; false if something differs.
fn said(part: &str, began: Instant, mut all: Checker) -> bool {
    let Checker { texts, questions, differences, .. } = all;
    let seconds = began.elapsed().as_secs_f64();
    println!("{part}: {texts} texts, {questions} questions, {differences} differences ({seconds:.1} s)");
    if let Some(question) = all.smallest.take() {
        let question = all.shrink(question);
        println!("  the smallest:\n{}", all.show(&question));
    }
    differences == 0
}

/// What each thread makes of its share.
fn on_threads<T: Send>(work: impl Fn(Share) -> T + Sync) -> Vec<T> {
    thread::scope(|scope| {
        let work = &work;
        let start = |thread| scope.spawn(move || work(Share { thread, threads: THREADS }));
        let running: Vec<_> = (0..THREADS).map(start).collect();
        running.into_iter().map(|thread| thread.join().unwrap()).collect()
    })
}
