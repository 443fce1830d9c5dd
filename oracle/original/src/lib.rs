//! lexer.rs, soft_keywords.rs and token.rs of rustpython-parser 0.4.0, unmodified, with the smallest surroundings
//! that they need, and their answers in document 01's numbers.
#![allow(dead_code, unused_imports)]

// The original names the unic crates and finds the functions of classes.rs.
extern crate self as unic_emoji_char;
extern crate self as unic_ucd_ident;

mod classes;
mod numbers;
mod reading;
pub mod text_size;

include!(concat!(env!("OUT_DIR"), "/modules.rs"));

pub use classes::{is_emoji_presentation, is_xid_continue, is_xid_start};
pub use reading::{count_tokens, read, Ending};

/// Where the original finds its big integers.
pub mod ast {
    pub mod bigint {
        pub use num_bigint::BigInt;
    }
}

/// What lexer.rs names of string.rs; the lexer never makes one.
pub mod string {
    #[derive(Debug, PartialEq)]
    pub enum FStringErrorType {}

    impl std::fmt::Display for FStringErrorType {
        fn fmt(&self, _: &mut std::fmt::Formatter) -> std::fmt::Result {
            match *self {}
        }
    }
}

#[derive(Clone, Copy, Debug, PartialEq, Eq)]
pub enum Mode {
    Module,
    Interactive,
    Expression,
}
