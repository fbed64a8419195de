//! Good rows of a sample file that are exactly as long as asked, so that a line
//! can be made to end at any byte.

use super::random::Random;
use crate::samples::Sample;

/// A time has 1 to 9 digits.
const TIME_DIGITS: usize = 9;
/// The whole kW of a power have 1 to 6 digits.
const POWER_DIGITS: usize = 6;
/// A power's longest text: six digits, a point and three digits.
const POWER_LONGEST: usize = POWER_DIGITS + 4;

/// Most bytes of a good row: its time, three powers and three commas.
pub const LONGEST: usize = TIME_DIGITS + 3 * POWER_LONGEST + 3;

/// Fewest bytes of any good row of a time: powers of one digit each.
pub fn shortest(time: u64) -> usize {
    digits(time) + 6
}

fn digits(number: u64) -> usize {
    number.to_string().len()
}

/// A row and its four cells: the time, then load, solar and sheddable load in the
/// order asked. The cells and their commas have `length` bytes, which is
/// `shortest(time)` to `LONGEST`.
pub fn row(
    random: &mut Random,
    time: u64,
    length: usize,
    order: [usize; 3],
) -> (Sample, Vec<Vec<u8>>) {
    let widths = widths(random, time, length);
    let mut powers = [widths[1], widths[2], widths[3]].map(|width| power(random, width));
    // Sheddable load is not above load; to swap the two keeps the length.
    if powers[2].0 > powers[0].0 {
        powers.swap(0, 2);
    }
    let [load, solar, sheddable] = [powers[0].0, powers[1].0, powers[2].0];
    let width = widths[0];
    let mut cells = vec![format!("{time:0width$}").into_bytes()];
    cells.extend(order.map(|power| powers[power].1.clone()));
    let sample = Sample {
        time,
        load,
        solar,
        sheddable,
    };
    (sample, cells)
}

/// How long each of the four cells is; three commas are between them.
fn widths(random: &mut Random, time: u64, length: usize) -> [usize; 4] {
    let most = [TIME_DIGITS, POWER_LONGEST, POWER_LONGEST, POWER_LONGEST];
    let mut widths = [digits(time), 1, 1, 1];
    let mut spare = length.saturating_sub(shortest(time));
    // Some for each cell, then all that is left.
    for all in [false, true] {
        for (width, most) in widths.iter_mut().zip(most) {
            let room = spare.min(most - *width);
            let taken = if all { room } else { random.index(room + 1) };
            *width += taken;
            spare -= taken;
        }
    }
    widths
}

/// A power of at most 50,000 kW: its watts and its text of `width` bytes.
fn power(random: &mut Random, width: usize) -> (u64, Vec<u8>) {
    // Digits before and after the point; no point where none come after it.
    let shapes = [0, 1, 2, 3].map(|after| (width.saturating_sub(after + after.min(1)), after));
    let fitting = |shape: &&(usize, usize)| (1..=POWER_DIGITS).contains(&shape.0);
    let shapes: Vec<&(usize, usize)> = shapes.iter().filter(fitting).collect();
    let (before, after) = *shapes[random.index(shapes.len())];
    let kilowatts = random.edge(0, (10_u64.pow(before as u32) - 1).min(50_000));
    let decimals = match kilowatts {
        50_000 => 0,
        _ => random.edge(0, 10_u64.pow(after as u32) - 1),
    };
    let watts = 1_000 * kilowatts + decimals * 10_u64.pow(3 - after as u32);
    let text = match after {
        0 => format!("{kilowatts:0before$}"),
        _ => format!("{kilowatts:0before$}.{decimals:0after$}"),
    };
    (watts, text.into_bytes())
}
