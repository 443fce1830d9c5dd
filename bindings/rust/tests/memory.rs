//! With little memory: rows that just fit, and a typed refusal where not even those can be had.
#![cfg(target_os = "linux")]
use sroviemat::{read, Document, EditError, Mode, Refusal, MOST_BYTES};
use std::{env, process::Command};

/// Runs the test below in a process of its own that may have 200 MB, addresses that are not used among them.
#[test]
fn little_memory() {
    let limited = "ulimit -v 200000 && exec \"$0\" --ignored --exact within_200_megabytes";
    let this = env::current_exe().unwrap();
    let run = Command::new("sh").arg("-c").arg(limited).arg(this).env("MALLOC_ARENA_MAX", "1").output().unwrap();
    let said = String::from_utf8_lossy(&run.stdout);
    assert!(run.status.success() && said.contains("1 passed"), "{said}{}", String::from_utf8_lossy(&run.stderr));
}

/// A row for any text of 16 MB takes 540 MB, that of 16 MB of brackets 270 MB.
#[test]
#[ignore = "little_memory runs it"]
fn within_200_megabytes() {
    let sparse = "x\n".to_owned() + &"#23456789abcdef\n".repeat(MOST_BYTES / 16 - 1);
    assert_eq!(read(&sparse, Mode::Module).unwrap().row().len(), 2);
    let dense = "(".repeat(MOST_BYTES);
    let refusal = Refusal::NoRoom { needed: MOST_BYTES as u32 };
    assert_eq!(read(&dense, Mode::Module), Err(refusal));

    let mut document = Document::new(sparse, Mode::Module).unwrap();
    assert_eq!(document.replace(2.., &dense[2..]), Err(EditError::Refused(refusal)));
    assert_eq!((document.text().len(), document.tokens().len()), (MOST_BYTES - 14, 2));
    document.replace(2..2, "y z\n").unwrap();
    assert_eq!((document.tokens().len(), document.ending().code()), (5, 0));
}
