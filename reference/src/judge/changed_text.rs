//! A printed text with one number changed, in one of the ways in which numbers go wrong;
//! two of them take the number beside it along.

use super::printed::{row_line, set_line, ROW_HEADING, SET_HEADING};
use crate::generator::random::Random;

/// The ways.
#[derive(Clone, Copy, Debug, PartialEq, Eq)]
pub enum Way {
    OneMore,
    OneLess,
    Doubled,
    Zero,
    /// Exchanged with the column to its right, the last with the one to its left.
    Swapped,
    /// Some of it moved into that column, so that a sum may still come out.
    Moved,
    RandomAmount,
    OtherDigit,
    /// Off by two to nine.
    Few,
}

pub const WAYS: [Way; 9] = [
    Way::OneMore,
    Way::OneLess,
    Way::Doubled,
    Way::Zero,
    Way::Swapped,
    Way::Moved,
    Way::RandomAmount,
    Way::OtherDigit,
    Way::Few,
];

impl Way {
    pub fn name(self) -> &'static str {
        match self {
            Way::OneMore => "one-more",
            Way::OneLess => "one-less",
            Way::Doubled => "doubled",
            Way::Zero => "zero",
            Way::Swapped => "swapped",
            Way::Moved => "moved",
            Way::RandomAmount => "random-amount",
            Way::OtherDigit => "other-digit",
            Way::Few => "few",
        }
    }
}

/// Which number was changed, and the whole text with the change.
pub struct Change {
    pub column: &'static str,
    /// The rows before it, or the sets.
    pub before: usize,
    pub way: Way,
    /// The new text of the number.
    pub number: String,
    pub text: Vec<u8>,
}

/// A text that can be changed: its lines, each with its cells.
pub struct Changeable {
    lines: Vec<Vec<String>>,
    seconds: usize,
    sets: usize,
}

impl Changeable {
    /// A text that holds.
    pub fn of(text: &str, seconds: usize, sets: usize) -> Changeable {
        let cells = |line: &str| line.split(',').map(str::to_string).collect();
        Changeable {
            lines: text.lines().map(cells).collect(),
            seconds,
            sets,
        }
    }

    /// Changes a number: each of the nineteen columns as often as another, each way as
    /// often as another, and of the rows the last ones more often than others.
    pub fn change(&self, random: &mut Random) -> Change {
        loop {
            let of_rows = self.seconds > 0 && random.between(0, 18) < 13;
            let (heading, before, line) = if of_rows {
                let before = self.any_row(random);
                (ROW_HEADING, before, row_line(before))
            } else {
                let before = random.index(self.sets);
                (SET_HEADING, before, set_line(self.seconds, before))
            };
            let index = random.index(heading.split(',').count());
            let column = heading.split(',').nth(index).unwrap_or("");
            let way = random.pick(WAYS);
            if let Some((number, text)) = self.with_change(random, line, index, way) {
                return Change {
                    column,
                    before,
                    way,
                    number,
                    text,
                };
            }
        }
    }

    fn any_row(&self, random: &mut Random) -> usize {
        match random.between(0, 4) {
            0 => self.seconds - 1,
            1 => self.seconds - 1 - random.index(self.seconds.min(5)),
            _ => random.index(self.seconds),
        }
    }

    /// The number's new text and the whole text, or nothing where they stay as they are.
    fn with_change(
        &self,
        random: &mut Random,
        line: usize,
        index: usize,
        way: Way,
    ) -> Option<(String, Vec<u8>)> {
        let cells = self.lines.get(line - 1)?;
        let neighbour = match index + 1 < cells.len() {
            true => index + 1,
            false => index.checked_sub(1)?,
        };
        let mut changed = cells.clone();
        match way {
            Way::Swapped => changed.swap(index, neighbour),
            Way::Moved => {
                let (from, to) = (cells.get(index)?, cells.get(neighbour)?);
                let (less, more) = moved(random, from, to)?;
                *changed.get_mut(index)? = less;
                *changed.get_mut(neighbour)? = more;
            }
            _ => *changed.get_mut(index)? = another(random, cells.get(index)?, way)?,
        }
        if changed == *cells {
            return None;
        }
        let number = changed.get(index)?.clone();
        Some((number, self.with_line(line - 1, &changed.join(","))))
    }

    fn with_line(&self, index: usize, line: &str) -> Vec<u8> {
        let mut text = Vec::new();
        for (place, cells) in self.lines.iter().enumerate() {
            match place == index {
                true => text.extend_from_slice(line.as_bytes()),
                false => text.extend_from_slice(cells.join(",").as_bytes()),
            }
            text.push(b'\n');
        }
        text
    }
}

/// Another number in place of one, where the way gives one.
fn another(random: &mut Random, text: &str, way: Way) -> Option<String> {
    let number: u64 = text.parse().ok()?;
    let off_by = |amount: u64, more: bool| match more {
        true => number.checked_add(amount),
        false => number.checked_sub(amount),
    };
    let changed = match way {
        Way::OneMore => off_by(1, true),
        Way::OneLess => off_by(1, false),
        Way::Doubled => off_by(number, true),
        Way::Zero => Some(0),
        Way::RandomAmount => {
            let most = random.pick([10, 1_000, 100_000, 50_000_000]);
            off_by(random.between(1, most), random.chance(50))
        }
        Way::Few => off_by(random.between(2, 9), random.chance(50)),
        Way::OtherDigit => return Some(other_digit(random, text)),
        Way::Swapped | Way::Moved => None,
    };
    changed.map(|number| number.to_string())
}

/// Two numbers with some of the first moved to the second: one unit, or any part of it.
fn moved(random: &mut Random, from: &str, to: &str) -> Option<(String, String)> {
    let (from, to): (u64, u64) = (from.parse().ok()?, to.parse().ok()?);
    let amount = random.pick([1, 1, from]).min(random.between(0, from));
    let less = from.checked_sub(amount)?;
    Some((less.to_string(), to.checked_add(amount)?.to_string()))
}

/// Another digit in place of one; the first may become a leading zero.
fn other_digit(random: &mut Random, text: &str) -> String {
    let place = random.index(text.len());
    let digit = char::from(b'0' + random.between(0, 9) as u8);
    let digits = text.chars().enumerate();
    digits
        .map(|(at, old)| if at == place { digit } else { old })
        .collect()
}
