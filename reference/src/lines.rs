//! The lines of a sample file and the parts of a line between its commas.

/// Most bytes of a line "without the LF".
const LONGEST: usize = 512;

/// One line as the file has it.
#[derive(Clone, Copy, Debug, PartialEq, Eq)]
pub struct Line<'a> {
    /// Counted from 1; the place of 11 to 21.
    pub number: u64,
    /// The line without its LF and without one CR just before that LF.
    pub content: &'a [u8],
    /// More than 512 bytes without the LF. The CR counts: only the LF is excepted.
    pub too_long: bool,
}

/// Walks the lines of a file from the top.
pub struct Lines<'a> {
    rest: &'a [u8],
    number: u64,
}

impl<'a> Lines<'a> {
    pub fn of(file: &'a [u8]) -> Lines<'a> {
        Lines {
            rest: file,
            number: 0,
        }
    }
}

impl<'a> Iterator for Lines<'a> {
    type Item = Line<'a>;

    /// "A line ends at LF (one CR just before it is dropped) or at the end of
    /// the file"; "A last LF starts no further line."
    fn next(&mut self) -> Option<Line<'a>> {
        if self.rest.is_empty() {
            return None;
        }
        self.number += 1;
        let (whole, content) = match self.rest.iter().position(|byte| *byte == b'\n') {
            Some(end) => {
                let (whole, from_lf) = self.rest.split_at(end);
                self.rest = from_lf.get(1..).unwrap_or(&[]);
                (whole, whole.strip_suffix(b"\r").unwrap_or(whole))
            }
            None => {
                let whole = std::mem::take(&mut self.rest);
                (whole, whole)
            }
        };
        Some(Line {
            number: self.number,
            content,
            too_long: whole.len() > LONGEST,
        })
    }
}

/// The headings or cells of a line; an empty line has one, which is blank.
pub fn cells(content: &[u8]) -> impl Iterator<Item = &[u8]> {
    content.split(|byte| *byte == b',')
}
