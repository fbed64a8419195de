//! A good sample file while it grows row by row, with the rows that a reader is
//! to give: skipped ones are left out.

use super::exact_rows::{self, LONGEST};
use super::plain_rows::{self, Numbers};
use super::random::Random;
use super::sheet::{Sheet, SheetLine};
use crate::samples::Sample;

const LF: &[u8] = b"\n";
const CR_LF: &[u8] = b"\r\n";

/// The latest time of a row.
const LAST_TIME: u64 = 316_223_999;
/// Room that any row of any time fits in, CR and LF counted.
const ROOM: usize = 17;

/// How the rows of a file look.
#[derive(Clone, Copy, Debug)]
pub struct Style {
    /// Most bytes of a row, where its time's digits allow it.
    pub longest_row: usize,
    /// In how many of a hundred rows the time rises; the others are skipped.
    pub rise_percent: u64,
    /// The most by which it rises.
    pub longest_step: u64,
}

/// A file and where it has got to.
pub struct GrowingSheet {
    pub sheet: Sheet,
    /// The rows that are accepted, each with the index of its line.
    accepted: Vec<(usize, Sample)>,
    /// Indexes of the lines that `grow_to` ended where it was asked to.
    pub placed: Vec<usize>,
    style: Style,
    size: usize,
    order: [usize; 3],
    endings: [&'static [u8]; 2],
}

impl GrowingSheet {
    /// The heading line alone, columns in any order; the lines are to end in LF,
    /// in CR LF, or in either.
    pub fn new(random: &mut Random, style: Style) -> GrowingSheet {
        let order = random.pick([
            [0, 1, 2],
            [0, 2, 1],
            [1, 0, 2],
            [1, 2, 0],
            [2, 0, 1],
            [2, 1, 0],
        ]);
        let mut growing = GrowingSheet {
            sheet: Sheet::default(),
            accepted: Vec::new(),
            placed: Vec::new(),
            style,
            size: 0,
            order,
            endings: random.pick([[LF, LF], [CR_LF, CR_LF], [LF, CR_LF]]),
        };
        let names: [&[u8]; 3] = [b"LoadP", b"PvAvailP", b"ShedLoadP"];
        let mut headings = vec![b"t".to_vec()];
        headings.extend(order.map(|power| names[power].to_vec()));
        let ending = random.pick(growing.endings);
        growing.add_line(headings, ending);
        growing
    }

    /// The rows that are accepted on the lines before one of an index.
    pub fn rows_before(&self, index: usize) -> Vec<Sample> {
        let before = self.accepted.iter().filter(|(line, _)| *line < index);
        before.map(|(_, sample)| *sample).collect()
    }

    /// The rows that are accepted on all lines.
    pub fn rows(&self) -> Vec<Sample> {
        self.rows_before(self.sheet.lines.len())
    }

    /// Some more plain rows; the style has only their times.
    pub fn add_plain_rows(&mut self, random: &mut Random, rows: u64, numbers: Numbers) {
        for _ in 0..rows {
            let time = self.next_time(random);
            let (sample, cells) = plain_rows::row(random, time, numbers, self.order);
            let ending = random.pick(self.endings);
            self.add_sample(sample, cells, ending);
        }
    }

    /// Some more rows of the file's style.
    pub fn add_rows(&mut self, random: &mut Random, rows: u64) {
        for _ in 0..rows {
            let ending = random.pick(self.endings);
            self.add_row(random, self.style.longest_row, ending);
        }
    }

    /// Adds rows until the file has exactly `size` bytes; `size` is at least
    /// `ROOM` above what it has. The last of these rows has no ending where the
    /// file is to end without LF.
    pub fn grow_to(&mut self, random: &mut Random, size: usize, without_lf: bool) {
        // A row may be as long as leaves room for another.
        while size - self.size > LONGEST {
            let ending = random.pick(self.endings);
            let most = (size - self.size - ending.len() - ROOM).min(self.style.longest_row);
            self.add_row(random, most, ending);
        }
        let ending = match without_lf {
            true => b"".as_slice(),
            false => random.pick(self.endings),
        };
        let time = self.next_time(random);
        self.add_exact_row(random, time, size - self.size - ending.len(), ending);
        self.placed.push(self.sheet.lines.len() - 1);
    }

    /// Takes the last line's ending away.
    pub fn end_without_lf(&mut self) {
        if let Some(last) = self.sheet.lines.last_mut() {
            self.size -= last.ending.len();
            last.ending = b"";
        }
    }

    /// A row of at most `most` bytes, or the shortest one of its time.
    fn add_row(&mut self, random: &mut Random, most: usize, ending: &'static [u8]) {
        let time = self.next_time(random);
        let shortest = exact_rows::shortest(time);
        let longer = random.index(most.saturating_sub(shortest) + 1);
        self.add_exact_row(random, time, shortest + longer, ending);
    }

    fn add_exact_row(
        &mut self,
        random: &mut Random,
        time: u64,
        length: usize,
        ending: &'static [u8],
    ) {
        let (sample, cells) = exact_rows::row(random, time, length, self.order);
        self.add_sample(sample, cells, ending);
    }

    fn add_sample(&mut self, sample: Sample, cells: Vec<Vec<u8>>, ending: &'static [u8]) {
        let index = self.sheet.lines.len();
        self.add_line(cells, ending);
        // "A later row whose time is not above the last accepted one is skipped".
        let last = self.accepted.last();
        if last.is_none_or(|(_, last)| last.time < sample.time) {
            self.accepted.push((index, sample));
        }
    }

    fn add_line(&mut self, cells: Vec<Vec<u8>>, ending: &'static [u8]) {
        let bytes: usize = cells.iter().map(Vec::len).sum();
        self.size += bytes + cells.len() - 1 + ending.len();
        self.sheet.lines.push(SheetLine { cells, ending });
    }

    /// 0 for the first row; then a later time, or one that is not.
    fn next_time(&self, random: &mut Random) -> u64 {
        let Some((_, last)) = self.accepted.last() else {
            return 0;
        };
        if random.chance(self.style.rise_percent) {
            let step = random.between(1, self.style.longest_step);
            return (last.time + step).min(LAST_TIME);
        }
        match random.between(0, 2) {
            0 => random.between(0, last.time),
            1 => last.time.saturating_sub(1),
            _ => last.time,
        }
    }
}
