//! The limits that document 01 names more than once.

/// Most sets that a station has.
pub const SETS: usize = 8;
/// Most configurations that a station has.
pub const CONFIGURATIONS: usize = 64;
/// Most pairs of a fuel curve.
pub const PAIRS: usize = 5;
/// Longest shed delay, so most decided shed amounts held.
pub const DELAYS: usize = 60;
/// Greatest power of a load, of the solar, of the battery and of a reserve, in W.
pub const POWER: u64 = 50_000_000;
/// Most seconds of one run.
pub const SECONDS: u64 = 316_224_000;
/// Greatest content of a store, in hundredths of a Ws.
pub const CONTENT: u64 = 10_000_000_000_000;
/// Greatest fuel of one set in one second, in units of 1/3600 mL.
pub const FUEL: u64 = 15_000_000_000;
/// Least length of a lent row buffer, in bytes.
pub const ROW_BUFFER: usize = 256;
