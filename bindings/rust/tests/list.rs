//! Each kind of call once in a list, with its typed answer.
use sangvireb::{Block, Branch, List, Type, Value, Variable};

const FIRST: Variable = Variable(0);

#[test]
fn each_kind_has_its_answer() {
    let (start, next, branch) = (Block(0), Block(1), Branch(0));
    let mut list = List::new();
    let blocks = [start, next].map(|block| list.declare_block(block));
    let declared = list.declare_var(FIRST, Type::F64);
    let taken = list.append_block_param(next, Type::F64);
    let made = list.make_value(start, Type::F64);
    let set = list.def_var(FIRST, Value(1), start);
    let ended = list.new_branch(start);
    let dest = list.new_dest(branch, next);
    let passed = list.append_argument(branch, Value(1), 0);
    let count = list.declare_block_predecessor(next, branch);
    let place = list.remove_block_predecessor(next, branch);
    let none = list.has_any_predecessors(next);
    let again = list.declare_block_predecessor(next, branch);
    let any = list.has_any_predecessors(next);
    let waits = list.use_var(FIRST, next);
    let open = list.is_sealed(next);
    let sealed = list.seal_block(next);
    let closed = list.is_sealed(next);
    let all = list.seal_all_blocks();
    let kept = list.def_var_answer(FIRST, waits, next);

    let session = list.run().unwrap();
    assert_eq!(blocks.map(|call| session.answer(call)), [Ok(start), Ok(next)]);
    assert_eq!(session.answer(declared), Ok(FIRST));
    assert_eq!([taken, made, set].map(|call| session.answer(call)), [Ok(Value(0)), Ok(Value(1)), Ok(Value(1))]);
    assert_eq!(session.answer(ended), Ok(branch));
    assert_eq!([dest, passed, count, place, again].map(|call| session.answer(call)), [Ok(0), Ok(0), Ok(1), Ok(0), Ok(1)]);
    assert_eq!([none, any].map(|call| session.answer(call)), [Ok(false), Ok(true)]);
    assert_eq!([sealed, all].map(|call| session.answer(call)), [Ok(0), Ok(0)]);
    assert_eq!([open, closed].map(|call| session.answer(call)), [Ok(false), Ok(true)]);
    assert_eq!((session.answer(waits), session.answer(kept)), (Ok(Value(2)), Ok(Value(2))));
    assert_eq!((session.resolved(waits), session.resolved(kept)), (Ok(Value(1)), Ok(Value(1))));
    assert_eq!((kept.place(), session.call_count()), (list.len() - 1, 20));
    assert_eq!((session.made_count(), session.value_count()), (2, 3));
    assert_eq!(session.resolve(Value(2)), Ok(Value(1)));
}
