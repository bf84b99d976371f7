//! The last that is accepted and the first that is not; and tables that were used before.
mod common;
use common::code;
use sangvireb::{raw, Block, Kind, List, Refusal, RefusedWhole, RunError, SSABuilder, Session, Type, Value, Variable};

#[test]
fn blocks_and_variables() {
    let mut list = List::new();
    let blocks: Vec<_> = (0..=64).map(|number| list.declare_block(Block(number))).collect();
    let variables: Vec<_> = (0..=64).map(|number| list.declare_var(Variable(number), Type::F32)).collect();
    let session = list.run_all().unwrap();
    assert_eq!(session.answer(blocks[63]), Ok(Block(63)));
    assert_eq!(code(session.answer(blocks[64])), Err(Refusal::Full));
    assert_eq!(session.answer(variables[63]), Ok(Variable(63)));
    assert_eq!(code(session.answer(variables[64])), Err(Refusal::Full));
    assert_eq!((session.block_count(), session.variable_count()), (64, 64));
}

#[test]
fn made_values() {
    let mut list = List::new();
    let _ = list.declare_block(Block(0));
    let made: Vec<_> = (0..=4096).map(|_| list.make_value(Block(0), Type::I16)).collect();
    let session = list.run_all().unwrap();
    assert_eq!(session.answer(made[4095]), Ok(Value(4095)));
    assert_eq!(code(session.answer(made[4096])), Err(Refusal::Full));
    assert_eq!((session.value_count(), session.made_count()), (4096, 4096));
}

/// 64 parameters of the caller's and 64 of the builder's: a row of 128, and an argument for each at each of eight destinations.
#[test]
fn parameters_of_a_block() {
    let mut list = List::new();
    let (start, side, join) = (Block(0), Block(1), Block(2));
    for block in [start, side, join] {
        let _ = list.declare_block(block);
    }
    let own: Vec<_> = (0..=64).map(|_| list.append_block_param(join, Type::I32)).collect();
    for number in 0..64 {
        let _ = list.declare_var(Variable(number), Type::I32);
        for (made, block) in [(64 + 2 * number, start), (65 + 2 * number, side)] {
            let _ = list.make_value(block, Type::I32);
            let _ = list.def_var(Variable(number), Value(made), block);
        }
    }
    let given: Vec<_> = (0..64).map(Value).collect();
    let _ = list.branch_with(start, &[(join, &given[..]); 8]);
    let _ = list.branch_with(side, &[(join, &given[..])]);
    let _ = list.seal_all_blocks();
    for number in 0..64 {
        let _ = list.use_var(Variable(number), join);
    }
    let session = list.run_all().unwrap();
    assert_eq!((session.answer(own[63]), code(session.answer(own[64]))), (Ok(Value(63)), Err(Refusal::NoParamLeft)));
    assert_eq!(session.refusals().count(), 1);
    assert_eq!((session.params(join).unwrap().len(), session.caller_params(join).unwrap().len()), (raw::PARAM_ROOM, raw::OWN_PARAMS));
    for branch in [start, side].map(|block| session.branch(block).unwrap().unwrap()) {
        assert!(session.destinations(branch).unwrap().all(|way| way.args.len() == 128 && way.args.take(64).eq(given.iter().copied())));
    }
}

/// Zeros for all variables in all blocks, none of which has a predecessor.
fn unset_everywhere() -> List {
    let mut list = List::new();
    for number in 0..64 {
        let _ = list.declare_block(Block(number));
        let _ = list.declare_var(Variable(number), Type::I64);
    }
    let _ = list.seal_all_blocks();
    for cell in 0..64 * 64 {
        let _ = list.use_var(Variable(cell % 64), Block(cell / 64));
    }
    list
}

#[test]
fn a_session_of_any_length_and_tables_used_before() {
    let mut session = unset_everywhere().run().unwrap();
    assert_eq!((session.zero_log().len(), session.value_count()), (4096, 8192));
    assert_eq!(session.zero_log().last(), Some((64 + 64 + 4096, Block(63))));

    let mut list = List::new();
    let first = list.declare_block(Block(0));
    for _ in 1..raw::CALLS {
        let _ = list.is_sealed(Block(0));
    }
    assert_eq!(session.rerun(&list), Ok(()));
    let fresh = list.run().unwrap();
    assert!(session.graph() == fresh.graph() && session.form() == fresh.form());
    assert_eq!((session.call_count(), session.answer(first)), (16384, Ok(Block(0))));

    let last = list.is_sealed(Block(0));
    assert_eq!(session.rerun(&list), Err(RunError::Whole(RefusedWhole::Unfit)));
    assert_eq!((session.call_count(), code(session.answer(last))), (16384, Err(Refusal::Absent)));
    assert!(session.graph() == fresh.graph() && session.form() == fresh.form());
    assert_eq!(list.run_all().err(), Some(RefusedWhole::Unfit));
    assert_eq!(list.run().unwrap_err().to_string(), "the call lists differ in length or have more than 16384 calls");
}

#[test]
fn the_builders_call_after_the_last_is_refused_and_the_builder_goes_on() {
    let mut ssa = SSABuilder::new();
    // a known block changes nothing and counts as a call
    for _ in 1..raw::CALLS {
        ssa.declare_block(Block(0)).unwrap();
    }
    assert_eq!(ssa.seal_all_blocks(), Ok(0));
    let refused = ssa.use_var(Variable(0), Block(0)).unwrap_err();
    assert_eq!(refused.refusal(), Refusal::Full);
    assert_eq!(refused.to_string(), "call 16384, use_var of variable 0 in block 0: 16384 calls are made, which is the limit");
    assert_eq!(ssa.session().call_count(), raw::CALLS);
    assert_eq!(ssa.is_sealed(Block(0)), Ok(true));
    assert_eq!(code(ssa.is_sealed(Block(1))), Err(Refusal::Absent));
}

#[test]
fn an_empty_list_leaves_the_empty_session() {
    let mut session = unset_everywhere().run().unwrap();
    session.clear();
    let empty = Session::new();
    assert!(session.graph() == empty.graph() && session.form() == empty.form());
    assert_eq!((session.block_count(), session.values().len(), session.placed().len()), (0, 0, 0));
}

#[test]
fn types_and_kinds_are_numbered() {
    assert!(Type::ALL.iter().all(|&ty| Type::from_number(ty.number()) == Some(ty)));
    assert_eq!((Type::from_number(24), Type::from_number(25)), (Some(Type::F64X2), None));
    assert_eq!((Kind::from_number(0), Kind::from_number(17), Kind::from_number(18)), (None, Some(Kind::MarkVarNeedsStackMap), None));
}
