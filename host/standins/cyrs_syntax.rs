//! Stands in for cyrs-syntax: offsets and ranges, and empty types where the Rust names syntax that no sheet has.

#[derive(Debug, Clone, Copy, PartialEq, Eq, PartialOrd, Ord, Hash)]
pub struct TextSize(u32);

impl TextSize {
    pub const fn new(offset: u32) -> Self {
        Self(offset)
    }
}

impl From<TextSize> for u32 {
    fn from(size: TextSize) -> u32 {
        size.0
    }
}

#[derive(Debug, Clone, Copy, PartialEq, Eq, Hash)]
pub struct TextRange {
    start: TextSize,
    end: TextSize,
}

impl TextRange {
    pub fn new(start: TextSize, end: TextSize) -> Self {
        assert!(start <= end);
        Self { start, end }
    }

    pub fn empty(offset: TextSize) -> Self {
        Self::new(offset, offset)
    }

    pub fn start(self) -> TextSize {
        self.start
    }

    pub fn end(self) -> TextSize {
        self.end
    }

    pub fn contains_range(self, other: Self) -> bool {
        self.start <= other.start && other.end <= self.end
    }
}

#[derive(Debug, Clone)]
pub enum SyntaxNode {}

impl SyntaxNode {
    pub fn text_range(&self) -> TextRange {
        match *self {}
    }
}

#[derive(Debug, Clone)]
pub enum SyntaxError {}

#[derive(Debug, Clone)]
pub enum Parse {}

impl Parse {
    pub fn errors(&self) -> &[SyntaxError] {
        match *self {}
    }
}

pub fn parse(_: &str) -> Parse {
    unimplemented!("text is not parsed here")
}
