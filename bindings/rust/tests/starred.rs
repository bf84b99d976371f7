//! The starred cases A to L of docs/RULES.md: every answer, parameter, argument, alias and zero.
mod common;
use common::{branch, builder, code, set, FIRST, SECOND};
use sangvireb::Sort::{self, Made, Parameter, Zero};
use sangvireb::{Block, Branch, Refusal, SSABuilder, Type, Value};

/// What a case left, in numbers.
#[derive(PartialEq, Default, Debug)]
struct Left {
    /// Sort, block and alias target of each value.
    values: Vec<(Sort, u32, u32)>,
    /// Of each block.
    params: Vec<Vec<u32>>,
    /// Of each destination of each block's branch.
    args: Vec<Vec<Vec<u32>>>,
    /// Call and block of each zero.
    zeros: Vec<(usize, u32)>,
}

fn numbers(values: impl Iterator<Item = Value>) -> Vec<u32> {
    values.map(|value| value.0).collect()
}

/// Reads it all; the builder's list, run once by itself, must leave the same cells.
fn left(ssa: &SSABuilder) -> Left {
    let session = ssa.session();
    let once = ssa.list().run().unwrap();
    assert!(once.graph() == session.graph() && once.form() == session.form());
    assert!(session.values().all(|data| data.ty == Type::I32 && session.value(data.value) == Ok(data)));
    let args = |block: Block| match session.branch(block).unwrap() {
        None => vec![],
        Some(branch) => session.destinations(branch).unwrap().map(|way| numbers(way.args)).collect(),
    };
    Left {
        values: session.values().map(|data| (data.sort, data.block.0, data.target.0)).collect(),
        params: session.blocks().map(|block| numbers(session.params(block).unwrap())).collect(),
        args: session.blocks().map(args).collect(),
        zeros: session.zero_log().map(|(call, block)| (call, block.0)).collect(),
    }
}

/// From 0 to 1 and 2, and on to 3, all sealed.
fn close_diamond(ssa: &mut SSABuilder) {
    for (from, to) in [(0, &[1, 2][..]), (1, &[3]), (2, &[3])] {
        branch(ssa, from, to);
    }
    assert_eq!(ssa.seal_all_blocks(), Ok(0));
}

#[test]
fn a_an_unset_variable_is_zero() {
    let mut ssa = builder(1);
    assert_eq!(ssa.seal_block(Block(0)), Ok(0));
    assert_eq!(ssa.use_var(FIRST, Block(0)), Ok(Value(1)));
    assert_eq!(ssa.use_var(FIRST, Block(0)), Ok(Value(0)));
    assert_eq!(ssa.session().resolve(Value(0)), Ok(Value(1)));
    let values = vec![(Parameter, 0, 1), (Zero, 0, 1)];
    assert_eq!(left(&ssa), Left { values, params: vec![vec![]], args: vec![vec![]], zeros: vec![(3, 0)] });
}

#[test]
fn b_an_unset_variable_waits_for_the_seal() {
    let mut ssa = builder(1);
    assert_eq!(ssa.use_var(FIRST, Block(0)), Ok(Value(0)));
    assert!(ssa.session().pending(Block(0)).unwrap().eq([FIRST]));
    assert!(ssa.session().params(Block(0)).unwrap().eq([Value(0)]));
    assert_eq!(ssa.seal_block(Block(0)), Ok(1));
    assert_eq!(ssa.session().pending(Block(0)).unwrap().len(), 0);
    let values = vec![(Parameter, 0, 1), (Zero, 0, 1)];
    assert_eq!(left(&ssa), Left { values, params: vec![vec![]], args: vec![vec![]], zeros: vec![(3, 0)] });
}

#[test]
fn c_a_diamond_set_on_both_sides() {
    let mut ssa = builder(4);
    set(&mut ssa, FIRST, 1);
    set(&mut ssa, FIRST, 2);
    close_diamond(&mut ssa);
    assert_eq!(ssa.use_var(FIRST, Block(3)), Ok(Value(2)));
    let values = vec![(Made, 1, 0), (Made, 2, 1), (Parameter, 3, 2)];
    let params = vec![vec![], vec![], vec![], vec![2]];
    let args = vec![vec![vec![], vec![]], vec![vec![0]], vec![vec![1]], vec![]];
    assert_eq!(left(&ssa), Left { values, params, args, zeros: vec![] });
    assert!(ssa.session().placed().eq([0, 1, 2].map(Block)));
}

#[test]
fn d_a_diamond_set_before_and_on_one_side() {
    let mut ssa = builder(4);
    set(&mut ssa, FIRST, 0);
    set(&mut ssa, FIRST, 1);
    close_diamond(&mut ssa);
    assert_eq!(ssa.use_var(FIRST, Block(3)), Ok(Value(2)));
    assert_eq!(ssa.session().def(FIRST, Block(2)), Ok(Some(Value(0))));
    let values = vec![(Made, 0, 0), (Made, 1, 1), (Parameter, 3, 2)];
    let params = vec![vec![], vec![], vec![], vec![2]];
    let args = vec![vec![vec![], vec![]], vec![vec![1]], vec![vec![0]], vec![]];
    assert_eq!(left(&ssa), Left { values, params, args, zeros: vec![] });
}

#[test]
fn e_a_diamond_set_before_only() {
    let mut ssa = builder(4);
    set(&mut ssa, FIRST, 0);
    close_diamond(&mut ssa);
    assert_eq!(ssa.use_var(FIRST, Block(3)), Ok(Value(0)));
    assert_eq!(ssa.use_var(FIRST, Block(3)), Ok(Value(1)));
    assert_eq!(ssa.session().resolve(Value(1)), Ok(Value(0)));
    let values = vec![(Made, 0, 0), (Parameter, 3, 0)];
    let args = vec![vec![vec![], vec![]], vec![vec![]], vec![vec![]], vec![]];
    assert_eq!(left(&ssa), Left { values, params: vec![vec![]; 4], args, zeros: vec![] });
}

/// Block 0 sets the variable and goes to block 1, which uses it before it is sealed.
fn enter_loop() -> SSABuilder {
    let mut ssa = builder(2);
    set(&mut ssa, FIRST, 0);
    branch(&mut ssa, 0, &[1]);
    assert_eq!(ssa.seal_block(Block(0)), Ok(0));
    assert_eq!(ssa.use_var(FIRST, Block(1)), Ok(Value(1)));
    ssa
}

#[test]
fn f_a_loop_that_sets_nothing() {
    let mut ssa = enter_loop();
    branch(&mut ssa, 1, &[1]);
    assert_eq!(ssa.seal_block(Block(1)), Ok(0));
    let values = vec![(Made, 0, 0), (Parameter, 1, 0)];
    assert_eq!(left(&ssa), Left { values, params: vec![vec![]; 2], args: vec![vec![vec![]]; 2], zeros: vec![] });
}

#[test]
fn g_a_loop_that_sets_the_variable() {
    let mut ssa = enter_loop();
    assert_eq!(set(&mut ssa, FIRST, 1), Value(2));
    branch(&mut ssa, 1, &[1]);
    assert_eq!(ssa.seal_block(Block(1)), Ok(0));
    let values = vec![(Made, 0, 0), (Parameter, 1, 1), (Made, 1, 2)];
    let args = vec![vec![vec![0]], vec![vec![2]]];
    assert_eq!(left(&ssa), Left { values, params: vec![vec![], vec![1]], args, zeros: vec![] });
}

#[test]
fn h_a_branch_that_names_a_block_twice() {
    let mut ssa = builder(3);
    set(&mut ssa, FIRST, 0);
    set(&mut ssa, FIRST, 2);
    let twice = branch(&mut ssa, 0, &[1, 1]);
    assert_eq!(code(ssa.declare_block_predecessor(Block(1), twice)), Err(Refusal::DeclaredHere));
    branch(&mut ssa, 2, &[1]);
    assert_eq!(ssa.seal_all_blocks(), Ok(0));
    assert_eq!(ssa.use_var(FIRST, Block(1)), Ok(Value(2)));
    let values = vec![(Made, 0, 0), (Made, 2, 1), (Parameter, 1, 2)];
    let args = vec![vec![vec![0], vec![0]], vec![], vec![vec![1]]];
    assert_eq!(left(&ssa), Left { values, params: vec![vec![], vec![2], vec![]], args, zeros: vec![] });
}

#[test]
fn i_two_blocks_that_only_enter_each_other() {
    let mut ssa = builder(3);
    branch(&mut ssa, 1, &[2]);
    branch(&mut ssa, 2, &[1]);
    assert_eq!(ssa.seal_all_blocks(), Ok(0));
    assert_eq!(ssa.use_var(FIRST, Block(1)), Ok(Value(1)));
    let values = vec![(Parameter, 1, 1), (Zero, 1, 1)];
    let args = vec![vec![], vec![vec![]], vec![vec![]]];
    assert_eq!(left(&ssa), Left { values, params: vec![vec![]; 3], args, zeros: vec![(11, 1)] });
}

#[test]
fn j_a_loop_that_swaps_two_variables() {
    let mut ssa = builder(2);
    assert_eq!(ssa.declare_var(SECOND, Type::I32), Ok(SECOND));
    set(&mut ssa, FIRST, 0);
    set(&mut ssa, SECOND, 0);
    branch(&mut ssa, 0, &[1]);
    assert_eq!(ssa.seal_block(Block(0)), Ok(0));
    let (first, second) = (ssa.use_var(FIRST, Block(1)).unwrap(), ssa.use_var(SECOND, Block(1)).unwrap());
    assert_eq!((first, second), (Value(2), Value(3)));
    assert!(ssa.session().pending(Block(1)).unwrap().eq([FIRST, SECOND]));
    assert!(ssa.session().params(Block(1)).unwrap().eq([first, second]));
    ssa.def_var(FIRST, second, Block(1)).unwrap();
    ssa.def_var(SECOND, first, Block(1)).unwrap();
    branch(&mut ssa, 1, &[1]);
    assert_eq!(ssa.seal_block(Block(1)), Ok(0));
    let values = vec![(Made, 0, 0), (Made, 0, 1), (Parameter, 1, 2), (Parameter, 1, 3)];
    let args = vec![vec![vec![0, 1]], vec![vec![3, 2]]];
    assert_eq!(left(&ssa), Left { values, params: vec![vec![], vec![2, 3]], args, zeros: vec![] });
}

#[test]
fn k_the_last_predecessor_takes_a_removed_ones_place() {
    let mut ssa = builder(4);
    let [a, b, c] = [0, 1, 2].map(|from| branch(&mut ssa, from, &[3]));
    assert!(ssa.session().predecessors(Block(3)).unwrap().eq([a, b, c]));
    assert_eq!(ssa.remove_block_predecessor(Block(3), a), Ok(0));
    assert!(ssa.session().predecessors(Block(3)).unwrap().eq([c, b]));
    assert_eq!(ssa.has_any_predecessors(Block(3)), Ok(true));
    assert_eq!(ssa.has_any_predecessors(Block(0)), Ok(false));
    let args = vec![vec![vec![]], vec![vec![]], vec![vec![]], vec![]];
    assert_eq!(left(&ssa), Left { params: vec![vec![]; 4], args, ..Left::default() });
    assert_eq!(code(ssa.session().destinations(Branch(3)).map(drop)), Err(Refusal::Absent));
}

#[test]
fn l_a_block_is_sealed_once() {
    let mut ssa = builder(1);
    assert_eq!(ssa.is_sealed(Block(0)), Ok(false));
    assert_eq!(ssa.seal_block(Block(0)), Ok(0));
    assert_eq!(code(ssa.seal_block(Block(0))), Err(Refusal::IsSealed));
    assert_eq!(ssa.is_sealed(Block(0)), Ok(true));
    assert_eq!(left(&ssa), Left { params: vec![vec![]], args: vec![vec![]], ..Left::default() });
}
