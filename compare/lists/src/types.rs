//! The types that the values of a list have, and what docs/RULES.md says of unset values.
use crate::rng::Rng;
use sangvireb::Type;

pub const COUNT: u32 = Type::ALL.len() as u32;

/// Those whose zero takes two steps.
pub const IN_TWO_STEPS: [Type; 7] = [Type::I128, Type::F16X2, Type::F16X4, Type::F16X8, Type::F32X2, Type::F32X4, Type::F64X2];

/// I32 alone, or a few of all types, each perhaps with that of its zero's first step, so that a step can be given to a variable.
pub fn few(rng: &mut Rng) -> Vec<u32> {
    if rng.chance(1, 2) {
        return vec![Type::I32.number()];
    }
    let mut types: Vec<u32> = (0..rng.within(1, 4)).map(|_| any(rng)).collect();
    let steps: Vec<u32> = types.iter().filter_map(|&ty| step(ty)).filter(|_| rng.chance(2, 3)).collect();
    types.extend(steps);
    types
}

pub fn any(rng: &mut Rng) -> u32 {
    if rng.chance(1, 4) { rng.pick(&IN_TWO_STEPS).number() } else { rng.below(COUNT) }
}

/// The type of the first of a zero's two steps.
pub fn step(ty: u32) -> Option<u32> {
    Type::from_number(ty)?.step().map(Type::number)
}

/// A quiet NaN of each width.
const NAN_16: u128 = 0x7e00;
const NAN_32: u128 = 0x7fc0_0000;
const NAN_64: u128 = 0x7ff8_0000_0000_0000;
const NAN_128: u128 = 0x7fff_8000_0000_0000_0000_0000_0000_0000;

const fn lanes(count: u32, width: u32, lane: u128) -> u128 {
    if count == 0 { 0 } else { lanes(count - 1, width, lane) << width | lane }
}

/// The bits of each type's unset value, as docs/RULES.md has them. Zeros hold what the library tells; that the two agree is part of what is walked.
pub const UNSET: [u128; Type::ALL.len()] = [
    0,
    0,
    0,
    0,
    NAN_32,
    NAN_64,
    0,
    NAN_16,
    NAN_128,
    0,
    0,
    0,
    0,
    0,
    0,
    0,
    0,
    0,
    0,
    lanes(2, 16, NAN_16),
    lanes(4, 16, NAN_16),
    lanes(8, 16, NAN_16),
    lanes(2, 32, NAN_32),
    lanes(4, 32, NAN_32),
    lanes(2, 64, NAN_64),
];

#[cfg(test)]
mod tests {
    use super::*;

    #[test]
    fn these_take_two_steps_and_no_others() {
        let told: Vec<Type> = Type::ALL.into_iter().filter(|ty| ty.step().is_some()).collect();
        assert_eq!(told, IN_TWO_STEPS);
    }

    #[test]
    fn four_lanes_are_written_side_by_side() {
        assert_eq!(UNSET[Type::F32X4.number() as usize], 0x7fc0_0000_7fc0_0000_7fc0_0000_7fc0_0000);
        assert_eq!(UNSET[Type::F16X2.number() as usize], 0x7e00_7e00);
    }
}
