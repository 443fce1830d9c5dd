//! Which line a place of a text is on (document 02 item 4), said apart from our crates.
//!
//! LF, CR LF and a CR alone are line ends, wherever they stand. One ends behind its last byte, so that a place within a
//! CR LF is still on the line before. The line of a place is the number of line ends that end at or before it.
use crate::Record;

/// The line of a place of a text, from 0. Behind the text all line ends count.
pub fn line_at(text: &[u8], place: usize) -> u32 {
    let places = 1..=place.min(text.len());
    places.filter(|&end| ends_line(text, end)).count() as u32
}

/// Whether a line end ends at a place: behind an LF, or behind a CR that no LF follows.
fn ends_line(text: &[u8], end: usize) -> bool {
    match text[end - 1] {
        b'\n' => true,
        b'\r' => text.get(end) != Some(&b'\n'),
        _ => false,
    }
}

/// The same for many places of one text, which are counted from `start`: where its line ends end, in order.
pub struct Lines(Vec<u32>);

impl Lines {
    pub fn of(text: &[u8], start: u32) -> Lines {
        let ends = (1..=text.len()).filter(|&end| ends_line(text, end));
        Lines(ends.map(|end| start + end as u32).collect())
    }

    pub fn at(&self, place: u32) -> u32 {
        self.0.partition_point(|&end| end <= place) as u32
    }

    /// The record of a kind from a place to another.
    pub fn record(&self, kind: u32, start: u32, end: u32) -> Record {
        [kind, start, end, self.at(start)]
    }
}
