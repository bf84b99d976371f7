//! Types of every width: what a type is made of, the bits of its unset value, and zeros that take one step or two.
mod common;
use common::code;
use sangvireb::Type::{self, *};
use sangvireb::{raw, Block, List, Refusal, SSABuilder, Session, Sort, Value, Variable};

const F16_NAN: u128 = 0x7E00;
const F32_NAN: u128 = 0x7FC0_0000;
const F64_NAN: u128 = 0x7FF8_0000_0000_0000;
const F128_NAN: u128 = 0x7FFF_8000_0000_0000_0000_0000_0000_0000;

/// By number: the lane, how many lanes, the width in bytes, the first of two steps, and what each lane holds where nothing has set it.
const FACTS: [(Type, Type, u32, u32, Option<Type>, u128); 25] = [
    (I8, I8, 1, 1, None, 0),
    (I16, I16, 1, 2, None, 0),
    (I32, I32, 1, 4, None, 0),
    (I64, I64, 1, 8, None, 0),
    (F32, F32, 1, 4, None, F32_NAN),
    (F64, F64, 1, 8, None, F64_NAN),
    (I128, I128, 1, 16, Some(I64), 0),
    (F16, F16, 1, 2, None, F16_NAN),
    (F128, F128, 1, 16, None, F128_NAN),
    (I8X2, I8, 2, 2, None, 0),
    (I8X4, I8, 4, 4, None, 0),
    (I8X8, I8, 8, 8, None, 0),
    (I8X16, I8, 16, 16, None, 0),
    (I16X2, I16, 2, 4, None, 0),
    (I16X4, I16, 4, 8, None, 0),
    (I16X8, I16, 8, 16, None, 0),
    (I32X2, I32, 2, 8, None, 0),
    (I32X4, I32, 4, 16, None, 0),
    (I64X2, I64, 2, 16, None, 0),
    (F16X2, F16, 2, 4, Some(F16), F16_NAN),
    (F16X4, F16, 4, 8, Some(F16), F16_NAN),
    (F16X8, F16, 8, 16, Some(F16), F16_NAN),
    (F32X2, F32, 2, 8, Some(F32), F32_NAN),
    (F32X4, F32, 4, 16, Some(F32), F32_NAN),
    (F64X2, F64, 2, 16, Some(F64), F64_NAN),
];

/// So many lanes of so many bits, the lowest first.
fn lanes(bits: u128, count: u32, width: u32) -> Vec<u128> {
    let low = if width == 128 { u128::MAX } else { (1 << width) - 1 };
    (0..count).map(|lane| bits.checked_shr(lane * width).unwrap_or(0) & low).collect()
}

#[test]
fn a_type_has_its_lane_lanes_width_steps_and_bits() {
    assert_eq!(FACTS.map(|facts| facts.0), Type::ALL);
    for (ty, lane, count, width, step, held) in FACTS {
        assert_eq!((ty.lane(), ty.lanes(), ty.width(), ty.step()), (lane, count, width, step), "{ty}");
        assert_eq!(lanes(ty.unset_bits(), count, 8 * width / count), vec![held; count as usize], "{ty}");
        assert!(width == 16 || ty.unset_bits() >> (8 * width) == 0, "{ty} has bits above its own");
        let name = if count == 1 { lane.to_string() } else { format!("{lane}X{count}") };
        assert_eq!(ty.to_string(), name);
    }
    for unknown in [25, 31, 32, u32::MAX] {
        assert_eq!(raw::type_facts(unknown), raw::TypeFacts { lane: 0, lanes: 0, width: 0, step: 0, low: 0, high: 0 });
    }
}

/// Sign, exponent and fraction of a float with so many bits of exponent and of fraction.
fn apart(bits: u128, exponent: u32, fraction: u32) -> (u128, u128, u128) {
    (bits >> (exponent + fraction), bits >> fraction & ((1 << exponent) - 1), bits & ((1 << fraction) - 1))
}

#[test]
fn an_unset_float_of_any_width_is_a_quiet_nan() {
    for (ty, exponent, fraction) in [(F16, 5, 10), (F32, 8, 23), (F64, 11, 52), (F128, 15, 112)] {
        assert_eq!(1 + exponent + fraction, 8 * ty.width());
        assert_eq!(apart(ty.unset_bits(), exponent, fraction), (0, (1 << exponent) - 1, 1 << (fraction - 1)), "{ty}");
    }
    let [low, high] = [0, 64].map(|from| f64::from_bits((F64X2.unset_bits() >> from) as u64));
    assert!(low.is_nan() && high.is_nan() && !(20.0..=200.0).contains(&low) && !(20.0..=200.0).contains(&high));
    let every = [0, 32, 64, 96].map(|from| f32::from_bits((F32X4.unset_bits() >> from) as u32));
    assert!(every.iter().all(|lane| lane.is_nan() && lane.is_sign_positive()));
}

/// A block that uses a variable of each type, none of which was ever set.
fn unset() -> (Session, Vec<Value>) {
    let mut list = List::new();
    let _ = list.declare_block(Block(0));
    let _ = list.seal_block(Block(0));
    let mut uses = vec![];
    for (number, ty) in (0..).zip(Type::ALL) {
        let _ = list.declare_var(Variable(number), ty);
        uses.push(list.use_var(Variable(number), Block(0)));
    }
    let session = list.run().unwrap();
    let answers = uses.into_iter().map(|call| session.answer(call).unwrap()).collect();
    (session, answers)
}

#[test]
fn a_zero_is_its_steps_in_a_row_and_one_row_of_the_log() {
    let (session, answers) = unset();
    assert_eq!((session.zero_log().len(), session.value_count()), (25, 57));
    let mut next = 0;
    for (ty, answer) in Type::ALL.into_iter().zip(answers) {
        let steps: Vec<Type> = ty.step().into_iter().chain([ty]).collect();
        let param = session.value(Value(next)).unwrap();
        assert_eq!((param.sort, param.ty, session.resolve(param.value)), (Sort::Parameter, ty, Ok(answer)));
        for (number, step) in (next + 1..).zip(&steps) {
            let zero = session.value(Value(number)).unwrap();
            assert_eq!((zero.sort, zero.ty, zero.block, zero.target), (Sort::Zero, *step, Block(0), zero.value));
            assert_eq!(zero.unset_bits(), Some(step.unset_bits()));
        }
        next += 1 + steps.len() as u32;
        assert_eq!(answer, Value(next - 1));
    }
    assert_eq!(session.zeros(Block(0)).unwrap().count(), 32);
    assert!(session.to_string().contains(": F32X4, zero with bits 0x7fc000007fc000007fc000007fc00000"), "{session}");
    assert!(session.to_string().contains(": F128, zero with bits 0x7fff8000000000000000000000000000"), "{session}");
}

/// Case U of docs/RULES.md: the step may be given on, as what it is.
#[test]
fn a_step_is_a_value_of_its_own_type() {
    let mut ssa = SSABuilder::new();
    let (start, next) = (ssa.declare_block(Block(0)).unwrap(), ssa.declare_block(Block(1)).unwrap());
    let (count, low) = (ssa.declare_var(Variable(0), I128).unwrap(), ssa.declare_var(Variable(1), I64).unwrap());
    ssa.seal_block(start).unwrap();
    let (step, zero) = (Value(1), ssa.use_var(count, start).unwrap());
    assert_eq!(zero, Value(2));
    assert_eq!(code(ssa.def_var(count, step, start)), Err(Refusal::TypesDiffer));
    assert_eq!(code(ssa.def_var(low, zero, start)), Err(Refusal::TypesDiffer));
    assert_eq!((ssa.def_var(low, step, start), ssa.def_var(count, zero, start)), (Ok(step), Ok(zero)));
    ssa.append_block_param(next, I64).unwrap();
    ssa.branch_with(start, &[(next, &[step][..])]).unwrap();
    ssa.seal_block(next).unwrap();
    assert_eq!((ssa.use_var(count, next), ssa.use_var(low, next)), (Ok(zero), Ok(step)));
}

/// All values that there can be: made, and for each variable and block a parameter and a zero in two steps.
#[test]
fn every_room_is_reached() {
    let mut list = List::new();
    for number in 0..64 {
        let _ = list.declare_block(Block(number));
        let _ = list.declare_var(Variable(number), [I128, F16X2, F16X4, F16X8, F32X2, F32X4, F64X2][number as usize % 7]);
    }
    for _ in 0..raw::MADE {
        let _ = list.make_value(Block(0), F128);
    }
    let _ = list.seal_all_blocks();
    for cell in 0..64 * 64 {
        let _ = list.use_var(Variable(cell % 64), Block(cell / 64));
    }
    let session = list.run().unwrap();
    assert_eq!((session.zero_log().len(), session.value_count()), (raw::ZERO_ROOM, raw::VALUE_ROOM as u32));
    assert_eq!((session.zero_log().len(), session.value_count()), (4096, 16_384));
}
