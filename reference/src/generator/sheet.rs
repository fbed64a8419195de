//! A sample file while it is being made: lines of cells with their endings.

/// One line before its bytes are joined.
#[derive(Clone, Debug)]
pub struct SheetLine {
    pub cells: Vec<Vec<u8>>,
    pub ending: &'static [u8],
}

impl SheetLine {
    /// The line's bytes without its ending.
    pub fn content(&self) -> Vec<u8> {
        self.cells.join(&b',')
    }
}

/// A sample file; the first line is the heading line.
#[derive(Clone, Debug, Default)]
pub struct Sheet {
    pub lines: Vec<SheetLine>,
}

impl Sheet {
    pub fn bytes(&self) -> Vec<u8> {
        let line = |line: &SheetLine| [&line.content(), line.ending].concat();
        self.lines.iter().map(line).collect::<Vec<_>>().concat()
    }

    /// The column of a heading, as the heading line has it.
    pub fn column(&self, heading: &[u8]) -> Option<usize> {
        let headings = &self.lines.first()?.cells;
        headings.iter().position(|cell| cell == heading)
    }
}
