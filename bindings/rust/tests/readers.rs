//! What a session is asked for: arguments and answers with aliases resolved, the zeros of a block, branches made whole.
mod common;
use common::{branch, builder, code, set, FIRST};
use sangvireb::{raw, Block, Branch, List, Refusal, SSABuilder, Sort, Type, Value, Variable};

#[test]
fn arguments_and_answers_resolved() {
    // A loop in a loop that keeps the variable: the inner head's parameter becomes an alias of the outer one's.
    let mut list = List::new();
    for block in 0..4 {
        let _ = list.declare_block(Block(block));
    }
    let _ = list.declare_var(FIRST, Type::I32);
    let _ = list.make_value(Block(0), Type::I32);
    let _ = list.def_var(FIRST, Value(0), Block(0));
    let _ = list.jump(Block(0), Block(1));
    let outer = list.use_var(FIRST, Block(1));
    let _ = list.jump(Block(1), Block(2));
    let inner = list.use_var(FIRST, Block(2));
    let _ = list.branch(Block(2), &[Block(2), Block(3)]);
    let _ = list.seal_block(Block(2));
    let _ = list.seal_block(Block(3));
    let kept = list.def_var_answer(FIRST, inner, Block(3));
    let _ = list.make_value(Block(3), Type::I32);
    let _ = list.jump(Block(3), Block(1));
    let _ = list.seal_all_blocks();
    let session = list.run().unwrap();
    assert_eq!((session.answer(outer), session.answer(inner), session.answer(kept)), (Ok(Value(1)), Ok(Value(2)), Ok(Value(2))));
    assert_eq!((session.resolved(outer), session.resolved(inner)), (Ok(Value(0)), Ok(Value(0))));
}

#[test]
fn an_argument_that_became_an_alias() {
    // Block 1 passes its own parameter on before it is sealed and turns out to be value 0.
    let mut ssa = builder(4);
    let first = set(&mut ssa, FIRST, 0);
    branch(&mut ssa, 0, &[1, 2]);
    let waits = ssa.use_var(FIRST, Block(1)).unwrap();
    branch(&mut ssa, 1, &[3]);
    ssa.seal_block(Block(2)).unwrap();
    let other = set(&mut ssa, FIRST, 2);
    branch(&mut ssa, 2, &[3]);
    ssa.seal_block(Block(3)).unwrap();
    let merged = ssa.use_var(FIRST, Block(3)).unwrap();
    ssa.seal_all_blocks().unwrap();
    let session = ssa.session();
    assert!(session.params(Block(3)).unwrap().eq([merged]));
    let ways = [1, 2].map(|from| session.destinations(Branch(from)).unwrap().next().unwrap());
    assert!(ways[0].args.clone().eq([waits]) && ways[0].resolved().eq([first]));
    assert!(ways[1].args.clone().eq([other]) && ways[1].resolved().eq([other]));
}

#[test]
fn the_zeros_of_a_block() {
    let mut ssa = builder(2);
    ssa.declare_var(Variable(1), Type::F64).unwrap();
    ssa.seal_all_blocks().unwrap();
    let [whole, float] = [0, 1].map(|variable| ssa.use_var(Variable(variable), Block(0)).unwrap());
    let session = ssa.session();
    let zeros: Vec<_> = session.zeros(Block(0)).unwrap().map(|data| (data.value, data.ty, data.sort)).collect();
    assert_eq!(zeros, [(whole, Type::I32, Sort::Zero), (float, Type::F64, Sort::Zero)]);
    assert_eq!(session.zeros(Block(1)).unwrap().count(), 0);
}

/// The top bit of a NaN's fraction tells a quiet one from a signalling one.
#[test]
fn an_unset_float_is_a_quiet_nan() {
    let mut ssa = SSABuilder::new();
    ssa.declare_block(Block(0)).unwrap();
    for (variable, ty) in (0..6).zip(Type::ALL) {
        ssa.declare_var(Variable(variable), ty).unwrap();
    }
    ssa.seal_all_blocks().unwrap();
    let answers = [0, 1, 2, 3, 4, 5].map(|variable| ssa.use_var(Variable(variable), Block(0)).unwrap());
    let made = ssa.make_value(Block(0), Type::F32).unwrap();
    let session = ssa.session();
    let bits = |value| session.value(value).unwrap().unset_bits();
    let [i8, i16, i32, i64, short, long] = answers.map(|value| bits(value).expect("each answer is a zero"));
    assert_eq!([i8, i16, i32, i64], [0; 4]);
    let (short, long) = (f32::from_bits(short.try_into().unwrap()), f64::from_bits(long.try_into().unwrap()));
    assert!(short.is_nan() && short.is_sign_positive() && short.to_bits() & 1 << 22 != 0, "{:x}", short.to_bits());
    assert!(long.is_nan() && long.is_sign_positive() && long.to_bits() & 1 << 51 != 0, "{:x}", long.to_bits());
    assert_eq!((short.to_bits(), long.to_bits()), (0x7FC0_0000, 0x7FF8_0000_0000_0000));
    assert_eq!(bits(made), None);
    assert!(session.to_string().contains(": F32, zero with bits 0x7fc00000"), "{session}");
}

/// A loop that carries an index beside a variable: the index stands first, and each way in brings both.
#[test]
fn a_loop_that_carries_an_index() {
    let mut ssa = builder(3);
    let [start, turn, after] = [0, 1, 2].map(Block);
    let minute = ssa.append_block_param(turn, Type::I64).unwrap();
    let first = ssa.make_value(start, Type::I64).unwrap();
    let reported = set(&mut ssa, FIRST, 0);
    let enter = ssa.branch_with(start, &[(turn, &[first])]).unwrap();
    let reading = ssa.use_var(FIRST, turn).unwrap();
    let next = ssa.make_value(turn, Type::I64).unwrap();
    let cooled = set(&mut ssa, FIRST, 1);
    let again = ssa.branch_with(turn, &[(turn, &[next]), (after, &[])]).unwrap();
    ssa.seal_all_blocks().unwrap();
    assert_eq!(ssa.use_var(FIRST, after), Ok(cooled));
    let session = ssa.session();
    assert!(session.params(turn).unwrap().eq([minute, reading]));
    assert!(session.caller_params(turn).unwrap().eq([minute]));
    assert_eq!(session.caller_params(after).unwrap().len(), 0);
    assert_eq!([minute, reading].map(|value| session.value(value).unwrap().sort), [Sort::CallerParameter, Sort::Parameter]);
    for (branch, brought) in [(enter, [first, reported]), (again, [next, cooled])] {
        assert!(session.destinations(branch).unwrap().next().unwrap().args.eq(brought));
    }
    let words = session.to_string();
    assert!(words.contains("takes value 0, value 3\n  value 0: I64, caller's parameter\n"), "{words}");
}

/// The curing record is an object of a garbage collector's: its variable is marked. What it is given and the parameter at the join are recorded; the
/// temperature's values are not, nor is a zero that nobody gave.
#[test]
fn values_that_stack_maps_must_have() {
    let mut ssa = builder(4);
    let [record, celsius] = [FIRST, Variable(1)];
    ssa.declare_var(celsius, Type::I32).unwrap();
    assert_eq!(ssa.stack_map_values().count(), 0);
    ssa.mark_var_needs_stack_map(record).unwrap();
    let [new, cold] = [set(&mut ssa, record, 0), set(&mut ssa, celsius, 0)];
    branch(&mut ssa, 0, &[1, 2]);
    branch(&mut ssa, 1, &[3]);
    let copy = set(&mut ssa, record, 2);
    branch(&mut ssa, 2, &[3]);
    ssa.seal_all_blocks().unwrap();
    let joined = ssa.use_var(record, Block(3)).unwrap();
    assert_eq!(ssa.use_var(celsius, Block(3)), Ok(cold));
    assert!(ssa.stack_map_values().eq([new, copy, joined]));
    let session = ssa.session();
    assert_eq!([new, cold, copy, joined].map(|value| session.is_recorded(value).unwrap()), [true, false, true, true]);
    assert!(session.params(Block(3)).unwrap().eq([joined]));
    let words = session.to_string();
    assert!(words.contains("variable 0: I32, marked for stack maps\nvariable 1: I32\n"), "{words}");
    let join = format!("  {joined}: I32, parameter, recorded for stack maps\n  value 4: I32, parameter, now value 1\n");
    assert!(words.contains(&join), "{words}");
}

/// A parameter of a marked variable stays recorded when it becomes an alias. The zero that it then stands for is not recorded until it is given.
#[test]
fn a_zero_is_recorded_once_it_is_given() {
    let mut ssa = builder(2);
    ssa.mark_var_needs_stack_map(FIRST).unwrap();
    ssa.seal_block(Block(0)).unwrap();
    let zero = ssa.use_var(FIRST, Block(0)).unwrap();
    let param = ssa.use_var(FIRST, Block(0)).unwrap();
    assert_eq!(ssa.session().resolve(param), Ok(zero));
    assert!(ssa.stack_map_values().eq([param]));
    ssa.def_var(FIRST, zero, Block(1)).unwrap();
    assert!(ssa.stack_map_values().eq([param, zero]));
}

/// The same list with a call of no kind in place of each mark leaves the same, but for marks and recorded values.
#[test]
fn marks_change_nothing_else() {
    let mut list = List::new();
    let before = [[1, 0, 0, 0], [1, 1, 0, 0], [2, 0, 2, 0], [17, 0, 0, 0], [3, 0, 2, 0], [4, 0, 0, 0]];
    for call in before.into_iter().chain([[17, 0, 0, 0], [6, 0, 1, 0], [12, 0, 0, 0]]) {
        let _ = list.push(call);
    }
    let mut without = List::new();
    for call in list.calls() {
        let _ = without.push(if call[0] == 17 { [0; 4] } else { call });
    }
    let [with, without] = [list, without].map(|list| list.run_all().unwrap());
    assert!(with.answers().zip(without.answers()).enumerate().all(|(place, (ours, theirs))| [3, 6].contains(&place) || ours == theirs));
    let (mut graph, mut form) = (with.graph().to_vec(), with.form().to_vec());
    assert_eq!((graph[raw::MARKS], with.stack_map_values().count()), (1, 2));
    graph[raw::MARKS] = 0;
    for cell in &mut form[raw::DESCRIBED..][..2] {
        *cell -= 128;
    }
    assert!(graph == without.graph() && form == without.form());
}

#[test]
fn jump_and_branch_are_the_calls_written_out() {
    let (mut short, mut long) = (List::new(), List::new());
    for list in [&mut short, &mut long] {
        for block in 0..3 {
            let _ = list.declare_block(Block(block));
        }
    }
    let ended = short.branch(Block(0), &[Block(1), Block(2), Block(1)]);
    let _ = short.jump(Block(1), Block(2));
    let _ = long.new_branch(Block(0));
    for to in [1, 2, 1] {
        let _ = long.new_dest(Branch(0), Block(to));
    }
    for to in [1, 2] {
        let _ = long.declare_block_predecessor(Block(to), Branch(0));
    }
    let _ = long.new_branch(Block(1));
    let _ = long.new_dest(Branch(1), Block(2));
    let _ = long.declare_block_predecessor(Block(2), Branch(1));
    assert_eq!(short, long);
    assert_eq!(short.run().unwrap().answer(ended), Ok(Branch(0)));

    let mut ssa = builder(3);
    assert_eq!(ssa.branch(Block(0), &[Block(1), Block(2), Block(1)]), Ok(Branch(0)));
    assert_eq!(ssa.jump(Block(1), Block(2)), Ok(Branch(1)));
    assert!(ssa.session().predecessors(Block(2)).unwrap().eq([Branch(0), Branch(1)]));
    assert_eq!(code(ssa.jump(Block(1), Block(2))), Err(Refusal::HasBranch));
}

#[test]
fn a_cleared_builder_is_as_new() {
    let mut ssa = builder(4);
    set(&mut ssa, FIRST, 2);
    ssa.clear();
    assert!(ssa.list().is_empty());
    assert!(ssa.session().graph().iter().chain(ssa.session().form()).all(|&cell| cell == 0));
    assert_eq!(ssa.declare_block(Block(0)), Ok(Block(0)));
}
