//! Writes what the original's files expect to find: the modules themselves, by the path where they stand; the
//! map of keywords, which the crate's own build script makes in the same way; and the tables of classes.
use std::{env, fmt::Write, fs, path::Path};

/// The Reference's 35 keywords and the three soft ones, with the original's names of their tokens.
const KEYWORDS: &str = "False None True and as assert async await break case class continue def del elif else except \
    finally for from global if import in is lambda match nonlocal not or pass raise return try type while with yield";

fn main() {
    let out = env::var("OUT_DIR").unwrap();
    let root = Path::new(&env::var("CARGO_MANIFEST_DIR").unwrap()).join("../..");
    let write = |name: &str, text: String| fs::write(Path::new(&out).join(name), text).unwrap();
    write("modules.rs", modules());
    write("keywords.rs", keywords());
    for name in ["xid_start", "xid_continue", "emoji_presentation"] {
        let table = root.join("tables").join(name).with_extension("txt");
        println!("cargo:rerun-if-changed={}", table.display());
        write(&format!("{name}.rs"), ranges(&fs::read_to_string(table).unwrap()));
    }
    println!("cargo:rerun-if-changed=build.rs");
    println!("cargo:rerun-if-env-changed=ORIGINAL_SRC");
}

/// The original's three files as modules of this crate.
fn modules() -> String {
    let folder = env::var("ORIGINAL_SRC").expect("ORIGINAL_SRC is not set: build with oracle/build");
    let mut text = String::new();
    for name in ["lexer", "soft_keywords", "token"] {
        let file = Path::new(&folder).join(name).with_extension("rs");
        println!("cargo:rerun-if-changed={}", file.display());
        writeln!(text, "#[path = {file:?}]\npub mod {name};").unwrap();
    }
    text
}

/// The map of keywords: each word to the token of the same name with a capital.
fn keywords() -> String {
    let tokens: Vec<String> = KEYWORDS.split(' ').map(|word| format!("Tok::{}", capital(word))).collect();
    let mut map = phf_codegen::Map::new();
    for (word, token) in KEYWORDS.split(' ').zip(&tokens) {
        map.entry(word, token);
    }
    map.build().to_string()
}

fn capital(word: &str) -> String {
    word[..1].to_uppercase() + &word[1..]
}

/// A table's lines `LOW HIGH` as a slice of pairs.
fn ranges(table: &str) -> String {
    let pairs: Vec<String> = table.lines().map(|line| format!("({}),", line.replace(' ', ", "))).collect();
    format!("&[{}]", pairs.concat())
}
