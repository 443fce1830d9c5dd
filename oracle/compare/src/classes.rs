//! Our compiled classes against those that the original is built with, over every character.
use crate::ours;
use std::time::Instant;

/// False if they differ somewhere.
pub fn compare() -> bool {
    let began = Instant::now();
    let all = (0..=0x10_ffff).filter_map(char::from_u32);
    let (mut count, mut differing) = (0, Vec::new());
    for c in all {
        count += 1;
        if ours::class(c) != theirs(c) {
            differing.push(c);
        }
    }
    println!("classes: {count} characters, {} differences ({:.1} s)", differing.len(), began.elapsed().as_secs_f64());
    if let Some(&c) = differing.first() {
        println!("  the smallest: U+{:04X}: original {}, ours {}", c as u32, theirs(c), ours::class(c));
    }
    differing.is_empty()
}

/// The original's answers added as ours are.
pub fn theirs(c: char) -> u32 {
    let bit = |is: bool, value: u32| if is { value } else { 0 };
    bit(is_start(c), 1) + bit(is_continuation(c), 2) + bit(original::is_emoji_presentation(c), 4)
}

/// lexer.rs puts the ASCII characters before the table, and an underscore among the starts.
fn is_start(c: char) -> bool {
    c == '_' || original::is_xid_start(c)
}

fn is_continuation(c: char) -> bool {
    original::is_xid_continue(c)
}
