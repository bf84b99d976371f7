//! What the hooked ssa.rs reports while it runs: the block of each parameter, and how high its stacks grow.
use cranelift_codegen::ir::{Block, Value};
use std::cell::RefCell;

/// The bounds that docs/RULES.md gives: 576 scheduled calls in one run, 513 results.
#[derive(Clone, Copy, Default)]
pub struct Heights {
    pub scheduled: usize,
    pub results: usize,
}

#[derive(Default)]
struct Seen {
    homes: Vec<(u32, u32)>,
    this_run: usize,
    most: Heights,
}

thread_local!(static SEEN: RefCell<Seen> = RefCell::default());

pub(crate) fn start() {
    SEEN.set(Seen::default());
}

pub(crate) fn homes() -> Vec<(u32, u32)> {
    SEEN.with_borrow(|seen| seen.homes.clone())
}

pub(crate) fn heights() -> Heights {
    SEEN.with_borrow(|seen| seen.most)
}

/// A parameter was appended to a block.
pub fn param(value: Value, block: Block) {
    SEEN.with_borrow_mut(|seen| seen.homes.push((value.as_u32(), block.as_u32())));
}

/// A run of the lookup machine begins.
pub fn run() {
    SEEN.with_borrow_mut(|seen| seen.this_run = 0);
}

/// A scheduled call is taken, with `results` results waiting.
pub fn step(_waiting: usize, results: usize) {
    SEEN.with_borrow_mut(|seen| {
        seen.this_run += 1;
        seen.most.scheduled = seen.most.scheduled.max(seen.this_run);
        seen.most.results = seen.most.results.max(results);
    });
}
