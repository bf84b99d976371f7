//! Short words for building small graphs.
#![allow(dead_code)] // each test file takes what it needs
use sangvireb::{Block, Branch, Refusal, Refused, SSABuilder, Type, Value, Variable};

pub const FIRST: Variable = Variable(0);
pub const SECOND: Variable = Variable(1);

/// Blocks from 0 on, and the I32 variable 0.
pub fn builder(blocks: u32) -> SSABuilder {
    let mut ssa = SSABuilder::new();
    for block in 0..blocks {
        assert_eq!(ssa.declare_block(Block(block)), Ok(Block(block)));
    }
    assert_eq!(ssa.declare_var(FIRST, Type::I32), Ok(FIRST));
    ssa
}

/// Makes a value in the block and gives it to the variable there.
pub fn set(ssa: &mut SSABuilder, variable: Variable, block: u32) -> Value {
    let value = ssa.make_value(Block(block), Type::I32).unwrap();
    assert_eq!(ssa.def_var(variable, value, Block(block)), Ok(value));
    value
}

/// Ends a block with a branch to these, which may name one twice.
pub fn branch(ssa: &mut SSABuilder, from: u32, to: &[u32]) -> Branch {
    let to: Vec<Block> = to.iter().copied().map(Block).collect();
    ssa.branch(Block(from), &to).unwrap()
}

/// Refusals by their code alone.
pub fn code<T>(answer: Result<T, Refused>) -> Result<T, Refusal> {
    answer.map_err(|refused| refused.refusal())
}
