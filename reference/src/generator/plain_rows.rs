//! Good rows of a sample file as a logger writes them: `t,kW,kW,kW` with no zero
//! that could be left out.

use super::random::Random;
use crate::samples::Sample;

/// How large the numbers of a file's rows are.
#[derive(Clone, Copy, Debug)]
pub struct Numbers {
    /// The most whole kW of a power.
    pub kilowatts: u64,
    /// The most digits after a power's point; with 0 there is no point.
    pub decimals: u32,
}

/// A row and its four cells: the time, then load, solar and sheddable load in the
/// order asked.
pub fn row(
    random: &mut Random,
    time: u64,
    numbers: Numbers,
    order: [usize; 3],
) -> (Sample, Vec<Vec<u8>>) {
    let [one, solar, other] = [(); 3].map(|()| power(random, numbers));
    // Sheddable load is not above load.
    let powers = [one.max(other), solar, one.min(other)];
    let mut cells = vec![time.to_string().into_bytes()];
    cells.extend(order.map(|power| text(powers[power]).into_bytes()));
    let [load, solar, sheddable] = powers;
    let sample = Sample {
        time,
        load,
        solar,
        sheddable,
    };
    (sample, cells)
}

/// The watts of a power.
fn power(random: &mut Random, numbers: Numbers) -> u64 {
    let kilowatts = random.edge(0, numbers.kilowatts);
    let unit = 10_u64.pow(3 - numbers.decimals);
    let decimals = random.between(0, 1_000 / unit - 1);
    (1_000 * kilowatts + unit * decimals).min(50_000_000)
}

/// Watts as kW.
fn text(watts: u64) -> String {
    let (kilowatts, rest) = (watts / 1_000, watts % 1_000);
    let text = format!("{kilowatts}.{rest:03}");
    text.trim_end_matches('0').trim_end_matches('.').to_string()
}
