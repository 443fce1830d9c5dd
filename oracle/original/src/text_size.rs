//! Stands in for the crate text-size, which Debian lacks: the part that the original uses.
use std::ops::{Add, AddAssign, Sub};

#[derive(Clone, Copy, Debug, Default, PartialEq, Eq, PartialOrd, Ord, Hash)]
pub struct TextSize(u32);

impl TextSize {
    #[inline]
    pub const fn new(bytes: u32) -> Self {
        TextSize(bytes)
    }
}

impl From<u32> for TextSize {
    #[inline]
    fn from(bytes: u32) -> Self {
        TextSize(bytes)
    }
}

impl From<TextSize> for u32 {
    #[inline]
    fn from(size: TextSize) -> u32 {
        size.0
    }
}

impl Add for TextSize {
    type Output = TextSize;
    #[inline]
    fn add(self, more: TextSize) -> TextSize {
        TextSize(self.0 + more.0)
    }
}

impl Sub for TextSize {
    type Output = TextSize;
    #[inline]
    fn sub(self, less: TextSize) -> TextSize {
        TextSize(self.0 - less.0)
    }
}

impl AddAssign for TextSize {
    #[inline]
    fn add_assign(&mut self, more: TextSize) {
        self.0 += more.0;
    }
}

pub trait TextLen {
    fn text_len(self) -> TextSize;
}

impl TextLen for char {
    #[inline]
    fn text_len(self) -> TextSize {
        TextSize(self.len_utf8() as u32)
    }
}

#[derive(Clone, Copy, Debug, Default, PartialEq, Eq, Hash)]
pub struct TextRange {
    start: TextSize,
    end: TextSize,
}

impl TextRange {
    #[inline]
    pub fn new(start: TextSize, end: TextSize) -> Self {
        assert!(start <= end);
        TextRange { start, end }
    }

    #[inline]
    pub fn empty(place: TextSize) -> Self {
        TextRange { start: place, end: place }
    }

    #[inline]
    pub fn start(self) -> TextSize {
        self.start
    }

    #[inline]
    pub fn end(self) -> TextSize {
        self.end
    }
}
