//! The printed text: its headings, its rows and the sets' lines.

pub const ROW_HEADING: &str =
    "t,load,shed,solar,charge,spill,give,diesel,unserved,on,sets,call,store";
pub const SET_HEADING: &str = "set,run,starts,stops,energy,fuel";

/// One row, a number for each second's column.
#[derive(Clone, Copy, Debug, Default, PartialEq, Eq)]
pub struct Row {
    pub t: u64,
    pub load: u64,
    pub shed: u64,
    pub solar: u64,
    pub charge: u64,
    pub spill: u64,
    pub give: u64,
    pub diesel: u64,
    pub unserved: u64,
    pub on: u64,
    pub sets: u64,
    pub call: u64,
    pub store: u64,
}

/// One set's line.
#[derive(Clone, Copy, Debug, Default, PartialEq, Eq)]
pub struct SetLine {
    pub set: u64,
    pub run: u64,
    pub starts: u64,
    pub stops: u64,
    pub energy: u64,
    pub fuel: u64,
}

/// The rows and the sets' lines, as they were printed.
pub struct Printed {
    pub rows: Vec<Row>,
    pub sets: Vec<SetLine>,
}

/// The line of a row, counted from 1, by how many rows come before it.
pub fn row_line(before: usize) -> usize {
    before + 2
}

/// The line of a set, counted from 1, by how many sets come before it.
pub fn set_line(seconds: usize, before: usize) -> usize {
    seconds + before + 3
}

/// "a refusal prints only `refused,number,place`".
pub fn is_refusal(printed: &[u8]) -> bool {
    let line = printed.strip_suffix(b"\n").unwrap_or(printed);
    line.strip_prefix(b"refused,")
        .is_some_and(|rest| numbers::<2>(rest).is_some())
}

/// A decimal number without sign and without leading zeros. The greatest number that a
/// run can print is a fuel count below 2^63, so one past 64 bits is none.
pub fn number(text: &[u8]) -> Option<u64> {
    if text.is_empty() || (text.len() > 1 && text.starts_with(b"0")) {
        return None;
    }
    let add_digit = |sum: u64, digit: &u8| {
        let digit = digit.is_ascii_digit().then(|| u64::from(digit - b'0'))?;
        sum.checked_mul(10)?.checked_add(digit)
    };
    text.iter().try_fold(0, add_digit)
}

/// Exactly `N` numbers with a comma between them.
fn numbers<const N: usize>(line: &[u8]) -> Option<[u64; N]> {
    let mut numbers = [0; N];
    let mut cells = line.split(|byte| *byte == b',');
    for place in &mut numbers {
        *place = number(cells.next()?)?;
    }
    cells.next().is_none().then_some(numbers)
}

impl Row {
    fn read(line: &[u8]) -> Option<Row> {
        let [t, load, shed, solar, charge, spill, give, diesel, unserved, on, sets, call, store] =
            numbers(line)?;
        Some(Row {
            t,
            load,
            shed,
            solar,
            charge,
            spill,
            give,
            diesel,
            unserved,
            on,
            sets,
            call,
            store,
        })
    }
}

impl SetLine {
    fn read(line: &[u8]) -> Option<SetLine> {
        let [set, run, starts, stops, energy, fuel] = numbers(line)?;
        Some(SetLine {
            set,
            run,
            starts,
            stops,
            energy,
            fuel,
        })
    }
}

/// Takes whole lines from the top and counts them.
struct Taken<'a> {
    rest: &'a [u8],
    lines: usize,
}

impl<'a> Taken<'a> {
    /// The next line, or its number where none is left that ends in LF.
    fn line(&mut self) -> Result<&'a [u8], usize> {
        self.lines += 1;
        let end = self.rest.iter().position(|byte| *byte == b'\n');
        let (line, from_lf) = self.rest.split_at(end.ok_or(self.lines)?);
        self.rest = from_lf.strip_prefix(b"\n").unwrap_or(from_lf);
        Ok(line)
    }

    fn heading(&mut self, heading: &str) -> Result<(), usize> {
        match self.line()? == heading.as_bytes() {
            true => Ok(()),
            false => Err(self.lines),
        }
    }

    /// So many lines, each read by `one`.
    fn many<T>(
        &mut self,
        count: usize,
        one: impl Fn(usize, &[u8]) -> Option<T>,
    ) -> Result<Vec<T>, usize> {
        let take = |before| one(before, self.line()?).ok_or(self.lines);
        (0..count).map(take).collect()
    }
}

impl Printed {
    /// The text, or the first line that is not of its shape: the heading line, a row
    /// for each second from 0 on, the sets' heading, a line for each set from 1 on,
    /// each ended by LF, and no byte after them.
    pub fn read(text: &[u8], seconds: usize, sets: usize) -> Result<Printed, usize> {
        let mut taken = Taken {
            rest: text,
            lines: 0,
        };
        taken.heading(ROW_HEADING)?;
        let rows = taken.many(seconds, |before, line| {
            Row::read(line).filter(|row| row.t == before as u64)
        })?;
        taken.heading(SET_HEADING)?;
        let sets = taken.many(sets, |before, line| {
            SetLine::read(line).filter(|line| line.set == before as u64 + 1)
        })?;
        match taken.rest.is_empty() {
            true => Ok(Printed { rows, sets }),
            false => Err(taken.lines + 1),
        }
    }
}
