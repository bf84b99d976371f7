//! Both sides did the same: every answer, value, parameter, argument and placed block.
use crate::given::Given;
use crate::library::Library;
use lists::Call;
use oracle::cranelift_codegen::ir::{Block, Value};
use sangvireb::raw;

/// Stops the bench where the two sides differ on the list just run.
pub fn check(name: &str, calls: &[Call], given: &Given, library: &Library) {
    assert!(library.all_accepted(), "{name}: a call was refused");
    for (i, call) in calls.iter().enumerate().filter(|(_, call)| matches!(call[0], 3 | 6 | 11 | 12)) {
        assert_eq!(given.numbers()[i], library.numbers[i], "{name}: call {i}, {call:?}");
    }
    let dfg = &given.func.dfg;
    assert_eq!(dfg.num_values(), library.form[raw::VALUE_COUNT] as usize, "{name}: values");
    for n in 0..dfg.num_values() as u32 {
        let target = dfg.value_alias_dest_for_serialization(Value::from_u32(n)).map_or(n, |target| target.as_u32());
        assert_eq!(target, library.form[raw::TARGET + n as usize], "{name}: target of value {n}");
    }
    assert_eq!(numbers(given.func.layout.blocks().map(Block::as_u32)), library.row(raw::PLACED), "{name}: placed blocks");
    for b in 0..given.branches().len() {
        let params = numbers(dfg.block_params(Block::from_u32(b as u32)).iter().map(|param| param.as_u32()));
        assert_eq!(params, library.row(raw::PARAM_ROWS + b * raw::PARAM_ROW), "{name}: parameters of block {b}");
        let dests = dfg.insts[given.branches()[b]].branch_destination(&dfg.jump_tables, &dfg.exception_tables);
        for (i, dest) in dests.iter().enumerate() {
            let args = numbers(dest.args(&dfg.value_lists).filter_map(|arg| arg.as_value()).map(Value::as_u32));
            assert_eq!(args, library.row(raw::ARG_ROWS + (b * raw::DESTS + i) * raw::PARAM_ROW), "{name}: arguments, block {b}, place {i}");
        }
    }
}

fn numbers(found: impl Iterator<Item = u32>) -> Vec<u32> {
    found.collect()
}
