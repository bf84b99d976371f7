//! Every refusal, by a call that gets it; and a refused call leaves the builder as it was.
mod common;
use common::{branch, builder, code, set, FIRST};
use sangvireb::{raw, Block, Branch, Kind, List, Refusal, Refused, RefusedWhole, SSABuilder, Type, Value, Variable};

/// The call gets this refusal, and nothing else is different afterwards.
fn refused<T: std::fmt::Debug>(ssa: &mut SSABuilder, refusal: Refusal, call: impl FnOnce(&mut SSABuilder) -> Result<T, Refused>) {
    let before = ssa.clone();
    assert_eq!(call(ssa).expect_err("it must be refused").refusal(), refusal);
    assert_eq!(ssa.list(), before.list());
    assert_eq!(ssa.session().call_count(), before.session().call_count());
    assert!(ssa.session().graph() == before.session().graph());
    assert!(ssa.session().form() == before.session().form());
}

#[test]
fn an_unknown_kind() {
    let mut list = List::new();
    let calls = [0, Kind::ALL.len() as u32 + 1, u32::MAX].map(|kind| list.push([kind, 0, 0, 0]));
    let known = list.push([1, 0, 7, 7]);
    let session = list.run_all().unwrap();
    assert!(calls.iter().all(|&call| code(session.answer(call)) == Err(Refusal::UnknownKind)));
    assert_eq!(session.answer(known), Ok(0));
}

#[test]
fn numbers_that_skip_or_pass_the_limit() {
    let mut ssa = builder(1);
    refused(&mut ssa, Refusal::Full, |ssa| ssa.declare_block(Block(64)));
    refused(&mut ssa, Refusal::Full, |ssa| ssa.declare_var(Variable(64), Type::I8));
    refused(&mut ssa, Refusal::Skips, |ssa| ssa.declare_block(Block(2)));
    refused(&mut ssa, Refusal::Skips, |ssa| ssa.declare_var(Variable(2), Type::I8));
    assert_eq!(ssa.declare_block(Block(1)), Ok(Block(1)));
}

#[test]
fn what_is_not_there() {
    let mut ssa = builder(1);
    refused(&mut ssa, Refusal::Absent, |ssa| ssa.make_value(Block(1), Type::I32));
    refused(&mut ssa, Refusal::Absent, |ssa| ssa.def_var(FIRST, Value(0), Block(0)));
    refused(&mut ssa, Refusal::Absent, |ssa| ssa.use_var(Variable(1), Block(0)));
    refused(&mut ssa, Refusal::Absent, |ssa| ssa.use_var(FIRST, Block(1)));
    refused(&mut ssa, Refusal::Absent, |ssa| ssa.new_branch(Block(1)));
    refused(&mut ssa, Refusal::Absent, |ssa| ssa.new_dest(Branch(0), Block(0)));
    refused(&mut ssa, Refusal::Absent, |ssa| ssa.declare_block_predecessor(Block(0), Branch(0)));
    refused(&mut ssa, Refusal::Absent, |ssa| ssa.remove_block_predecessor(Block(0), Branch(0)));
    refused(&mut ssa, Refusal::Absent, |ssa| ssa.seal_block(Block(1)));
    refused(&mut ssa, Refusal::Absent, |ssa| ssa.has_any_predecessors(Block(1)));
    refused(&mut ssa, Refusal::Absent, |ssa| ssa.is_sealed(Block(u32::MAX)));
    refused(&mut ssa, Refusal::Absent, |ssa| ssa.session().resolve(Value(0)));
    refused(&mut ssa, Refusal::Absent, |ssa| ssa.session().value(Value(0)));
    refused(&mut ssa, Refusal::Absent, |ssa| ssa.session().def(FIRST, Block(1)));
    refused(&mut ssa, Refusal::Absent, |ssa| ssa.session().type_of(Variable(1)));
    refused(&mut ssa, Refusal::Absent, |ssa| ssa.session().is_marked(Variable(1)));
    refused(&mut ssa, Refusal::Absent, |ssa| ssa.session().is_recorded(Value(0)));
}

#[test]
fn types_that_differ() {
    let mut ssa = builder(1);
    refused(&mut ssa, Refusal::TypesDiffer, |ssa| ssa.declare_var(FIRST, Type::F64));
    assert_eq!(ssa.declare_var(FIRST, Type::I32), Ok(FIRST));
    let wide = ssa.make_value(Block(0), Type::I64).unwrap();
    refused(&mut ssa, Refusal::TypesDiffer, |ssa| ssa.def_var(FIRST, wide, Block(0)));
    assert_eq!(ssa.session().type_of(FIRST), Ok(Type::I32));
}

#[test]
fn what_comes_too_late() {
    let mut ssa = builder(2);
    let branch = branch(&mut ssa, 0, &[1]);
    refused(&mut ssa, Refusal::HasBranch, |ssa| ssa.new_branch(Block(0)));
    refused(&mut ssa, Refusal::HasBranch, |ssa| ssa.make_value(Block(0), Type::I32));
    refused(&mut ssa, Refusal::Declared, |ssa| ssa.new_dest(branch, Block(1)));
    refused(&mut ssa, Refusal::DeclaredHere, |ssa| ssa.declare_block_predecessor(Block(1), branch));
    assert_eq!(ssa.seal_block(Block(1)), Ok(0));
    refused(&mut ssa, Refusal::IsSealed, |ssa| ssa.seal_block(Block(1)));
    refused(&mut ssa, Refusal::IsSealed, |ssa| ssa.declare_block_predecessor(Block(1), branch));
    refused(&mut ssa, Refusal::IsSealed, |ssa| ssa.remove_block_predecessor(Block(1), branch));
}

#[test]
fn a_definition_after_the_branch_was_declared() {
    let mut ssa = builder(2);
    let value = ssa.make_value(Block(0), Type::I32).unwrap();
    let wide = ssa.make_value(Block(0), Type::I64).unwrap();
    let branch = ssa.new_branch(Block(0)).unwrap();
    assert_eq!(ssa.new_dest(branch, Block(1)), Ok(0));
    refused(&mut ssa, Refusal::NoEdge, |ssa| ssa.declare_block_predecessor(Block(0), branch));
    assert_eq!(ssa.def_var(FIRST, value, Block(0)), Ok(value));
    assert_eq!(ssa.declare_block_predecessor(Block(1), branch), Ok(1));
    refused(&mut ssa, Refusal::Late, |ssa| ssa.def_var(FIRST, value, Block(0)));
    refused(&mut ssa, Refusal::TypesDiffer, |ssa| ssa.def_var(FIRST, wide, Block(0)));
    assert_eq!(ssa.remove_block_predecessor(Block(1), branch), Ok(0));
    refused(&mut ssa, Refusal::Late, |ssa| ssa.def_var(FIRST, value, Block(0)));
    assert_eq!(ssa.def_var(FIRST, value, Block(1)), Ok(value));
}

#[test]
fn a_callers_parameter_where_it_cannot_be() {
    let mut ssa = builder(3);
    refused(&mut ssa, Refusal::Absent, |ssa| ssa.append_block_param(Block(3), Type::I32));
    assert_eq!(ssa.append_block_param(Block(0), Type::I32), Ok(Value(0)));
    let branch = branch(&mut ssa, 0, &[1]);
    refused(&mut ssa, Refusal::ParamsFixed, |ssa| ssa.append_block_param(Block(1), Type::I32));
    assert_eq!(ssa.append_block_param(Block(0), Type::I8), Ok(Value(1)));
    assert_eq!(ssa.remove_block_predecessor(Block(1), branch), Ok(0));
    assert_eq!(ssa.append_block_param(Block(1), Type::I32), Ok(Value(2)));
    assert_eq!(ssa.use_var(FIRST, Block(1)), Ok(Value(3)));
    refused(&mut ssa, Refusal::ParamsFixed, |ssa| ssa.append_block_param(Block(1), Type::I32));
    assert_eq!(ssa.seal_block(Block(2)), Ok(0));
    refused(&mut ssa, Refusal::ParamsFixed, |ssa| ssa.append_block_param(Block(2), Type::I32));
    assert!(ssa.session().caller_params(Block(1)).unwrap().eq([Value(2)]));
    assert!(ssa.session().params(Block(1)).unwrap().eq([Value(2), Value(3)]));
}

#[test]
fn an_argument_where_it_cannot_be() {
    let mut ssa = builder(3);
    let own = ssa.append_block_param(Block(1), Type::I32).unwrap();
    let [narrow, made] = [Type::I8, Type::I32].map(|ty| ssa.make_value(Block(0), ty).unwrap());
    refused(&mut ssa, Refusal::Absent, |ssa| ssa.append_argument(Branch(0), made, 0));
    let branch = ssa.new_branch(Block(0)).unwrap();
    refused(&mut ssa, Refusal::Absent, |ssa| ssa.append_argument(branch, made, 0));
    for to in [1, 2] {
        ssa.new_dest(branch, Block(to)).unwrap();
    }
    refused(&mut ssa, Refusal::Absent, |ssa| ssa.append_argument(branch, Value(9), 0));
    refused(&mut ssa, Refusal::NoParamLeft, |ssa| ssa.append_argument(branch, narrow, 1));
    refused(&mut ssa, Refusal::TypesDiffer, |ssa| ssa.append_argument(branch, narrow, 0));
    assert_eq!(ssa.append_argument(branch, made, 0), Ok(0));
    refused(&mut ssa, Refusal::NoParamLeft, |ssa| ssa.append_argument(branch, made, 0));
    ssa.declare_block_predecessor(Block(1), branch).unwrap();
    refused(&mut ssa, Refusal::Declared, |ssa| ssa.append_argument(branch, made, 0));
    let way = ssa.session().destinations(branch).unwrap().next().unwrap();
    assert!(way.args.eq([made]) && ssa.session().caller_params(way.target).unwrap().eq([own]));
}

#[test]
fn a_mark_after_a_definition() {
    let mut ssa = builder(3);
    refused(&mut ssa, Refusal::Absent, |ssa| ssa.mark_var_needs_stack_map(Variable(1)));
    assert_eq!(ssa.mark_var_needs_stack_map(FIRST), Ok(FIRST));
    assert_eq!(ssa.mark_var_needs_stack_map(FIRST), Ok(FIRST));
    for variable in 1..4 {
        assert_eq!(ssa.declare_var(Variable(variable), Type::I32), Ok(Variable(variable)));
    }
    // a pending use puts a parameter on record, and so does one that adds a zero: each is a definition too
    assert_eq!(ssa.use_var(Variable(1), Block(2)), Ok(Value(0)));
    refused(&mut ssa, Refusal::Defined, |ssa| ssa.mark_var_needs_stack_map(Variable(1)));
    assert_eq!(ssa.seal_block(Block(0)), Ok(0));
    assert_eq!(ssa.use_var(Variable(2), Block(0)), Ok(Value(2)));
    refused(&mut ssa, Refusal::Defined, |ssa| ssa.mark_var_needs_stack_map(Variable(2)));
    set(&mut ssa, FIRST, 1);
    refused(&mut ssa, Refusal::Defined, |ssa| ssa.mark_var_needs_stack_map(FIRST));
    assert_eq!(ssa.mark_var_needs_stack_map(Variable(3)), Ok(Variable(3)));
    assert!(ssa.session().variables().map(|variable| ssa.session().is_marked(variable)).eq([Ok(true), Ok(false), Ok(false), Ok(true)]));
}

#[test]
fn where_no_branch_leads() {
    let mut ssa = builder(2);
    let branch = branch(&mut ssa, 0, &[1]);
    refused(&mut ssa, Refusal::NoEdge, |ssa| ssa.declare_block_predecessor(Block(0), branch));
    refused(&mut ssa, Refusal::NoEdge, |ssa| ssa.remove_block_predecessor(Block(0), branch));
}

#[test]
fn a_ninth_destination() {
    let mut ssa = builder(1);
    let branch = ssa.new_branch(Block(0)).unwrap();
    for place in 0..8 {
        assert_eq!(ssa.new_dest(branch, Block(0)), Ok(place));
    }
    refused(&mut ssa, Refusal::DestsFull, |ssa| ssa.new_dest(branch, Block(0)));
    assert_eq!(ssa.session().destinations(branch).unwrap().len(), 8);
}

#[test]
fn a_type_an_answer_or_a_place_that_is_not_there() {
    let mut list = List::new();
    let _ = list.declare_block(Block(0));
    let unknown_type = list.push([2, 0, 25, 0]);
    let _ = list.declare_var(FIRST, Type::F32);
    let made = list.make_value(Block(0), Type::F32);
    let of_made = list.push([5, 0, made.place() as u32, 0]);
    let of_itself = list.push([5, 0, 5, 0]);
    let used = list.use_var(FIRST, Block(0));
    let of_used = list.def_var_answer(FIRST, used, Block(0));
    let session = list.run_all().unwrap();
    assert_eq!(code(session.answer(unknown_type)), Err(Refusal::Absent));
    assert_eq!(code(session.answer(of_made)), Err(Refusal::Absent));
    assert_eq!(code(session.answer(of_itself)), Err(Refusal::Absent));
    assert_eq!((session.answer(used), session.answer(of_used)), (Ok(Value(1)), Ok(Value(1))));
}

#[test]
fn a_chain_without_end() {
    let (code, number) = raw::resolve(&[1, 0], 0);
    assert_eq!((Refusal::from_code(code), number), (Some(Refusal::NoEnd), 0));
}

#[test]
fn whole_sessions() {
    let (mut graph, mut form, mut work) = (vec![0; raw::GRAPH_NEED], vec![0; raw::FORM_NEED], vec![0; raw::WORK_NEED]);
    let short = raw::session(&[12], &[0], &[0], &[0], &mut [], &mut [0], &mut graph, &mut form, &mut work);
    assert_eq!(RefusedWhole::from_code(short), Some(RefusedWhole::Short));
    let unfit = raw::session(&[12], &[], &[0], &[0], &mut [0], &mut [0], &mut graph, &mut form, &mut work);
    assert_eq!(RefusedWhole::from_code(unfit), Some(RefusedWhole::Unfit));
    assert_eq!(RefusedWhole::from_code(raw::RUN), None);
}

#[test]
fn every_refusal_has_its_code_and_its_words() {
    let codes: Vec<u32> = Refusal::ALL.iter().map(|refusal| refusal.code()).collect();
    assert!(codes.into_iter().eq((3..=14).chain(17..=20)));
    assert!([0, 1, 2, 15, 16, 21, u32::MAX].into_iter().all(|code| Refusal::from_code(code).is_none()));
    let words: std::collections::BTreeSet<String> = Refusal::ALL.iter().map(|refusal| refusal.to_string()).collect();
    assert_eq!(words.len(), Refusal::ALL.len());
}

#[test]
fn a_set_after_a_refusal_is_as_if_it_had_not_been() {
    let (mut with, mut without) = (builder(1), builder(1));
    refused(&mut with, Refusal::Skips, |ssa| ssa.declare_block(Block(9)));
    assert_eq!(set(&mut with, FIRST, 0), set(&mut without, FIRST, 0));
    assert_eq!(with.list(), without.list());
}
