//! The crate's side: its own ssa.rs over cranelift, with the function that it builds.
use lists::Call;
use oracle::Variable;
use oracle::cranelift_codegen::cursor::{Cursor, FuncCursor};
use oracle::cranelift_codegen::ir::immediates::{Ieee32, Ieee64};
use oracle::cranelift_codegen::ir::types::{F32, F64, I8, I16, I32, I64};
use oracle::cranelift_codegen::ir::{Block, BlockCall, Function, Inst, InstBuilder, InstructionData, Opcode, TrapCode, Type, Value};
use oracle::plain::ssa::SSABuilder;
use std::hint::black_box;
use std::time::{Duration, Instant};

const TYPES: [Type; 6] = [I8, I16, I32, I64, F32, F64];

/// A list, and what a front end knows beside it.
struct Script {
    calls: Vec<Call>,
    dests: Vec<Vec<Block>>,
    types: Vec<Type>,
    branches: Vec<Inst>,
    numbers: Vec<u32>,
}

/// A script, and the function and the builder that the last run has left.
pub struct Given {
    script: Script,
    pub func: Function,
    ssa: SSABuilder,
}

impl Given {
    pub fn new(calls: &[Call]) -> Given {
        Given { script: Script::new(calls), func: Function::new(), ssa: SSABuilder::default() }
    }

    /// A new function and a new builder. Dropping them is not timed.
    pub fn fresh(&mut self) -> Duration {
        let start = Instant::now();
        let (mut func, mut ssa) = (Function::new(), SSABuilder::default());
        self.script.play(&mut func, &mut ssa);
        let took = start.elapsed();
        black_box((&func, &ssa));
        took
    }

    /// The function and the builder of the run before, cleared.
    pub fn cleared(&mut self) -> Duration {
        let start = Instant::now();
        self.func.clear();
        self.ssa.clear();
        self.script.play(&mut self.func, &mut self.ssa);
        start.elapsed()
    }

    /// The answer of each call that makes a value, uses a variable or seals.
    pub fn numbers(&self) -> &[u32] {
        &self.script.numbers
    }

    /// Each block's branch.
    pub fn branches(&self) -> &[Inst] {
        &self.script.branches
    }
}

impl Script {
    fn new(calls: &[Call]) -> Script {
        let blocks = calls.iter().filter(|call| call[0] == 1).count();
        let mut dests = vec![vec![]; blocks];
        for call in calls.iter().filter(|call| call[0] == 8) {
            dests[call[1] as usize].push(Block::from_u32(call[2]));
        }
        let (branches, numbers) = (vec![Inst::from_u32(0); blocks], vec![0; calls.len()]);
        Script { calls: calls.to_vec(), dests, types: vec![], branches, numbers }
    }

    fn play(&mut self, func: &mut Function, ssa: &mut SSABuilder) {
        self.types.clear();
        for (i, &[kind, x, y, z]) in self.calls.iter().enumerate() {
            let block = Block::from_u32(x);
            match kind {
                1 => declare(func, ssa),
                2 => self.types.push(TYPES[y as usize]),
                3 => self.numbers[i] = make(func, block, TYPES[y as usize]).as_u32(),
                4 => ssa.def_var(Variable::from_u32(x), Value::from_u32(y), Block::from_u32(z)),
                6 => self.numbers[i] = ssa.use_var(func, Variable::from_u32(x), self.types[x as usize], Block::from_u32(y)).0.as_u32(),
                7 => self.branches[x as usize] = branch(func, block, &self.dests[x as usize]),
                8 => {} // the branch was made with all its destinations
                9 => ssa.declare_block_predecessor(block, self.branches[y as usize]),
                11 => self.numbers[i] = ssa.seal_block(block, func).instructions_added_to_blocks.len() as u32,
                12 => self.numbers[i] = ssa.seal_all_blocks(func).instructions_added_to_blocks.len() as u32,
                _ => unreachable!("the bench's lists have no calls of kind {kind}"),
            }
        }
    }
}

fn declare(func: &mut Function, ssa: &mut SSABuilder) {
    let block = func.dfg.make_block();
    if block.as_u32() == 0 {
        func.layout.append_block(block);
    }
    ssa.declare_block(block);
}

fn place(func: &mut Function, block: Block) {
    if !func.layout.is_block_inserted(block) {
        func.layout.append_block(block);
    }
}

fn make(func: &mut Function, block: Block, ty: Type) -> Value {
    place(func, block);
    let mut cursor = FuncCursor::new(func).at_bottom(block);
    match ty {
        F32 => cursor.ins().f32const(Ieee32::with_bits(1)),
        F64 => cursor.ins().f64const(Ieee64::with_bits(1)),
        int => cursor.ins().iconst(int, 1),
    }
}

/// The condition is value 0 whatever that is, or will be: nothing here looks at it.
fn branch(func: &mut Function, block: Block, dests: &[Block]) -> Inst {
    let arg = Value::from_u32(0);
    let mut to = |dest| BlockCall::new(dest, [], &mut func.dfg.value_lists);
    let data = match *dests {
        [] => InstructionData::Trap { opcode: Opcode::Trap, code: TrapCode::unwrap_user(1) },
        [dest] => InstructionData::Jump { opcode: Opcode::Jump, destination: to(dest) },
        [yes, no] => InstructionData::Brif { opcode: Opcode::Brif, arg, blocks: [to(yes), to(no)] },
        _ => unreachable!("the bench's lists have no branch with more destinations"),
    };
    let inst = func.dfg.make_inst(data);
    place(func, block);
    func.layout.append_inst(inst, block);
    inst
}
