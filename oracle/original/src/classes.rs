//! Stands in for unic-ucd-ident and unic-emoji-char, which Debian lacks: a binary search, as theirs, over the
//! ranges of tables/*.txt (Unicode 10.0, Emoji 5.0).
use std::cmp::Ordering;

type Ranges = &'static [(u32, u32)];

static XID_START: Ranges = include!(concat!(env!("OUT_DIR"), "/xid_start.rs"));
static XID_CONTINUE: Ranges = include!(concat!(env!("OUT_DIR"), "/xid_continue.rs"));
static EMOJI_PRESENTATION: Ranges = include!(concat!(env!("OUT_DIR"), "/emoji_presentation.rs"));

pub fn is_xid_start(c: char) -> bool {
    holds(XID_START, c)
}

pub fn is_xid_continue(c: char) -> bool {
    holds(XID_CONTINUE, c)
}

pub fn is_emoji_presentation(c: char) -> bool {
    holds(EMOJI_PRESENTATION, c)
}

fn holds(ranges: Ranges, c: char) -> bool {
    let c = c as u32;
    let side = |&(low, high): &(u32, u32)| match () {
        _ if high < c => Ordering::Less,
        _ if c < low => Ordering::Greater,
        _ => Ordering::Equal,
    };
    ranges.binary_search_by(side).is_ok()
}
