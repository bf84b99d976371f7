//! Calls that nobody would write: any kind, any number, near the limits and far beyond.
use crate::rng::Rng;
use crate::{Call, MAX_CALLS};
use crate::types;
use sangvireb::{Kind, raw};

/// One more than the last kind.
const KINDS: u32 = Kind::ALL.len() as u32 + 1;

/// A number that is small, near one of the limits, or anything.
pub fn number(calls: u32, blocks: u32, rng: &mut Rng) -> u32 {
    match rng.below(12) {
        0..=3 => rng.below(4),
        4..=6 => rng.below(blocks + 2),
        7 if rng.chance(1, 2) => rng.within(types::COUNT - 2, 33),
        7 => rng.within(62, 66),
        8 => rng.pick(&[128, 4_096, raw::VALUE_ROOM as u32, MAX_CALLS as u32, 1 << 31]).wrapping_add(rng.below(3)).wrapping_sub(1),
        9 => calls.wrapping_sub(rng.below(8)),
        10 => rng.any(),
        _ => u32::MAX - rng.below(3),
    }
}

pub fn call(calls: u32, blocks: u32, rng: &mut Rng) -> Call {
    let kind = if rng.chance(1, 16) { number(calls, blocks, rng) } else { rng.below(KINDS + 1) };
    [kind, number(calls, blocks, rng), number(calls, blocks, rng), number(calls, blocks, rng)]
}

/// A call that may well be accepted, whatever came before.
pub fn likely(calls: u32, blocks: u32, vars: u32, types: &[u32], rng: &mut Rng) -> Call {
    let kind = rng.pick(&[1, 2, 3, 3, 4, 4, 5, 6, 6, 6, 7, 8, 8, 9, 9, 9, 10, 11, 12, 13, 14, 15, 15, 16, 16, 17, 17]);
    let (b, c, v) = (rng.below(blocks + 1), rng.below(blocks + 1), rng.below(vars + 1));
    let t = if rng.chance(1, 8) { rng.below(types::COUNT + 1) } else { rng.pick(types) };
    match kind {
        2 => [2, v, t, rng.any()],
        3 | 15 => [kind, b, t, rng.any()],
        4 => [4, v, rng.below(calls + 1), b],
        5 => [5, v, rng.below(calls + 1), b],
        6 => [6, v, b, rng.any()],
        16 => [16, b, rng.below(calls + 1), rng.below(3)],
        17 => [17, v, rng.any(), rng.any()],
        12 if rng.chance(3, 4) => [11, b, 0, 0],
        _ => [kind, b, c, rng.any()],
    }
}
