//! The example `tokens`, which tools/show-tokens runs: what it prints, and its status for each way of asking.
use sroviemat::{read, tokenize, Lines, Mode, MOST_BYTES};
use std::{
    env, fs,
    io::{Read, Write},
    path::PathBuf,
    process::{Command, Stdio},
};

/// The program, which `cargo test` has built beside the tests.
fn program() -> Command {
    let tests = env::current_exe().unwrap();
    let program: PathBuf = tests.ancestors().nth(2).unwrap().join("examples/tokens");
    assert!(program.is_file(), "{} is missing: run `cargo build --examples`", program.display());
    Command::new(program)
}

/// The status, and what is printed to standard output and standard error.
fn run(arguments: &[&str], input: &[u8]) -> (Option<i32>, String, String) {
    let mut command = program();
    command.args(arguments).stdin(Stdio::piped()).stdout(Stdio::piped()).stderr(Stdio::piped());
    let mut child = command.spawn().unwrap();
    // A program that does not ask for it may have ended.
    let _ = child.stdin.take().unwrap().write_all(input);
    let run = child.wait_with_output().unwrap();
    let text = |bytes| String::from_utf8(bytes).unwrap();
    (run.status.code(), text(run.stdout), text(run.stderr))
}

fn printed(text: &str) -> (Option<i32>, Vec<String>) {
    let (status, printed, complained) = run(&["-"], text.as_bytes());
    assert_eq!(complained, "");
    (status, printed.lines().map(str::to_owned).collect())
}

#[test]
fn a_text_that_is_read_to_its_end() {
    let (status, lines) = printed("é = 'b' # c\n");
    assert_eq!(status, Some(0));
    let expected = [
        "     1:1    3       0       2  Name              \"é\"",
        "     1:3   30       3       4  Operator =        \"=\"",
        "     1:5   10       5       8  String            \"'b'\"",
        "     1:9    7       9      12  Comment           \"# c\"",
        "    1:12    0      12      13  Newline           \"\\n\"",
        "read to the end",
        "code 0, 5 records, place 13, detail 0",
    ];
    assert_eq!(lines, expected);
    let (_, without, _) = run(&["--mode", "module", "-"], b"a # c\n");
    assert_eq!(without.lines().count(), 4);
    assert_eq!(run(&["--mode=0", "-"], b"a # c\n").1, without);
}

#[test]
fn faults_are_marked() {
    let (status, lines) = printed("if a:\n\tb = ['é', \"gold\n");
    assert_eq!(status, Some(1));
    let expected = [
        "<stdin>:2:12: The string that begins at 2:12 is not closed on its line.",
        "    2 | \tb = ['é', \"gold",
        "      | \t          ^~~~~",
        "code 28, 10 records, place 24, detail 0",
    ];
    assert_eq!(lines[lines.len() - 4..], expected);
    // A string over several lines is marked to its first one's end, a control character takes a column.
    let (_, lines) = printed("\u{feff}\x1bx");
    assert_eq!(lines[1..3], ["    1 | ��x", "      |  ^"]);
    let (_, lines) = printed("x = '''a\nb");
    assert_eq!(lines[3..5], ["    1 | x = '''a", "      |     ^~~~"]);
}

/// The first wrong bracket stands behind the ending, and is something to mend.
#[test]
fn a_wrong_bracket_is_marked() {
    let (status, lines) = printed("([)]");
    assert_eq!(status, Some(1));
    let expected = [
        "read to the end",
        "<stdin>:1:3: `)` at 1:3 does not close `[` at 1:2, the latest bracket that is open.",
        "    1 | ([)]",
        "      |   ^",
        "code 0, 5 records, place 4, detail 0",
    ];
    assert_eq!(lines[5..], expected);
    // Behind a fault, and with the opener on another line.
    let (status, lines) = printed("f({\n\t'é': 1]) = $");
    let expected = [
        "<stdin>:2:13: `$` at 2:13 cannot stand there: nothing in Python begins with it.",
        "    2 | \t'é': 1]) = $",
        "      | \t           ^",
        "<stdin>:2:8: `]` at 2:8 does not close `{` at 1:3, the latest bracket that is open.",
        "    2 | \t'é': 1]) = $",
        "      | \t      ^",
        "code 26, 10 records, place 18, detail 36",
    ];
    assert_eq!((status, &lines[lines.len() - 7..]), (Some(1), &expected.map(str::to_owned)[..]));
    // The 201st, and right nesting.
    let (status, lines) = printed(&["(".repeat(201), ")".repeat(201)].concat());
    assert_eq!(
        (status, lines[404].as_str()),
        (Some(1), "<stdin>:1:201: `(` at 1:201 is the 201st bracket that is open; 200 are the most.")
    );
    let (status, lines) = printed("{[()]: ()}[0]");
    assert_eq!((status, lines[lines.len() - 2].as_str()), (Some(0), "read to the end"));
}

/// Each of the bytes to be mended is drawn as one letter, those of a sequence that is cut together as one.
#[test]
fn bytes_that_are_not_utf8_are_marked() {
    let (status, printed, complained) = run(&["-"], b"a\n \xc3\xa9 caf\xe9 # b\xe9\n");
    let expected = [
        "<stdin>:2:7: Byte E9 at 2:7 is not UTF-8: it begins a character that byte 20 cuts off. \
         Byte E9 alone is é in Latin-1: is the file in that encoding?",
        "    2 |  é caf� # b�",
        "      |       ^",
        "code 3, 0 records, place 9, detail 4",
    ];
    assert_eq!((status, printed.lines().collect::<Vec<_>>(), complained.as_str()), (Some(1), expected.to_vec(), ""));
    for (bytes, line, marks, numbers) in [
        (&b"\xa9"[..], "�", "^", "place 0, detail 1"),
        (b"a\xff\xfe", "a��", " ^", "place 1, detail 2"),
        (b"\xef\xbb\xbf'\xf4\x8f\xbf", "�'�", "  ^", "place 4, detail 3"),
        (b"\t\xe1\x80A", "\t�A", "\t^", "place 1, detail 4"),
        (b"\xf0\x80\x80\x80", "����", "^~", "place 0, detail 5"),
        (b"x\xed\xa0", "x��", " ^~", "place 1, detail 6"),
        (b"x\r\xf4\x90z", "��z", "^~", "place 2, detail 7"),
    ] {
        let (status, printed, _) = run(&["-"], bytes);
        let lines: Vec<&str> =
            printed.lines().map(|line| line.split_once(" | ").map_or(line, |(_, drawn)| drawn)).collect();
        assert_eq!((status, &lines[1..]), (Some(1), &[line, marks, &format!("code 3, 0 records, {numbers}")][..]));
    }
}

/// The line and column of each token are those of its place, whatever ends the lines.
#[test]
fn tokens_are_told_with_their_lines() {
    let text = "\u{feff}a = '''b\r\n\ré''' \\\r + c\r\n\n# d\rif e:\n\tf";
    let (status, printed) = printed(text);
    let (lines, tokens) = (Lines::new(text), tokenize(text, Mode::ModuleWithComments).unwrap());
    let expected: Vec<String> = tokens.iter().map(|token| lines.position(token.range().start).to_string()).collect();
    let told: Vec<&str> = printed.iter().filter_map(|line| line.split_whitespace().next()).collect();
    assert_eq!(
        (status, &told[..tokens.len()]),
        (Some(0), &expected.iter().map(String::as_str).collect::<Vec<_>>()[..])
    );
}

/// A fault and a wrong bracket stand behind the file's name, as it was given, with line and column.
#[test]
fn faults_are_told_with_their_file() {
    let examples = "../../examples";
    for file in ["recipes/broken_gold.py", "latin-1/old_card.py"].map(|file| format!("{examples}/{file}")) {
        let error = tokenize(fs::read(&file).unwrap(), Mode::ModuleWithComments).unwrap_err();
        let said = format!("{}: {error}", error.position().unwrap().in_file(&file));
        assert!(run(&[&file], b"").1.lines().any(|line| line == said), "{said}");
    }
    let file = format!("{examples}/brackets/crossed.py");
    let text = fs::read(&file).unwrap();
    let wrong = read(&text, Mode::ModuleWithComments).unwrap().explain_brackets(&text).unwrap();
    let said = format!("{}: {wrong}", wrong.position.in_file(&file));
    assert!(run(&[&file], b"").1.lines().any(|line| line == said), "{said}");
    // A refusal that is about no place has the name alone before it.
    let (status, printed) = printed(&"#".repeat(MOST_BYTES + 1));
    assert_eq!((status, printed[0].as_str()), (Some(1), "<stdin>: the text is too long"));
}

/// Of a long line some eighty characters are shown, and the marks stay below their part.
#[test]
fn long_lines_are_cut() {
    let text = "a".repeat(100_000) + " $ " + &"b".repeat(100_000);
    let (_, lines) = printed(&text);
    let shown: Vec<char> = lines[2].chars().collect();
    let mark = lines[3].find('^').unwrap();
    assert_eq!((shown[mark], shown.len()), ('$', "    1 | ".len() + 82));
    assert!(shown[8] == '…' && shown.last() == Some(&'…'));
}

#[test]
fn misuse_is_said_in_a_line() {
    let here = env!("CARGO_MANIFEST_DIR");
    let none = format!("{here}/none.py");
    for (arguments, words) in [
        (&[][..], "0 files, and one is wanted; usage: tokens [--mode MODE] FILE"),
        (&["a", "b"], "2 files, and one is wanted; usage: tokens [--mode MODE] FILE"),
        (&["--colour", "a"], "unknown option --colour; usage: tokens [--mode MODE] FILE"),
        (&["--mode"], "--mode needs a MODE"),
        (&["--mode", "6", "a"], "6: no such mode; there are module, "),
        (&[here], "Is a directory"),
        (&[&none], "No such file"),
        (&["--", "--none"], "No such file"),
    ] {
        let (status, printed, complained) = run(arguments, b"");
        assert_eq!((status, printed.as_str(), complained.lines().count()), (Some(2), "", 1), "{arguments:?}");
        assert!(complained.starts_with("tokens: ") && complained.contains(words), "{complained}");
    }
    assert_eq!(run(&["--help"], b""), (Some(0), "usage: tokens [--mode MODE] FILE\n".to_owned(), String::new()));
}

/// A reader that has seen enough ends it quietly.
#[test]
fn a_closed_pipe() {
    let mut command = program();
    command.arg("-").stdin(Stdio::piped()).stdout(Stdio::piped()).stderr(Stdio::piped());
    let mut child = command.spawn().unwrap();
    child.stdout.take().unwrap();
    let mut input = child.stdin.take().unwrap();
    input.write_all("x\n".repeat(100_000).as_bytes()).unwrap();
    drop(input);
    let mut complained = String::new();
    child.stderr.take().unwrap().read_to_string(&mut complained).unwrap();
    assert_eq!((child.wait().unwrap().code(), complained.as_str()), (Some(0), ""));
}
