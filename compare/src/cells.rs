//! What a cell is called, so that a difference can be read.
use lists::lent::TABLES;
use sangvireb::raw::*;

/// A table's start, its name, how long a row is (1: no rows), and what its rows are of.
type Part = (usize, &'static str, usize, &'static str);

const GRAPH: [Part; 8] = [
    (BLOCK_COUNT, "count of blocks", 1, ""),
    (TYPES, "types", TYPE_ROW, ""),
    (BRANCHES, "branch marks", 1, "block"),
    (SEALED, "sealed marks", 1, "block"),
    (EVER_DECLARED, "declared marks", 1, "block"),
    (MARKS, "stack map marks", 1, "variable"),
    (DEST_ROWS, "destinations", DEST_ROW, "block"),
    (PRED_ROWS, "predecessors", PRED_ROW, "block"),
];

const FORM: [Part; 12] = [
    (VALUE_COUNT, "count of values", 1, ""),
    (MADE_COUNT, "count of made values", 1, ""),
    (TARGET, "alias target", 1, "value"),
    (DESCRIBED, "description", 1, "value"),
    (PLACED, "blocks placed", PRED_ROW, ""),
    (ZERO_CALLS, "zero log, calls", ZERO_ROW, ""),
    (ZERO_BLOCKS, "zero log, blocks", ZERO_ROW, ""),
    (PARAM_ROWS, "parameters", PARAM_ROW, "block"),
    (OWNS, "count of caller's parameters", 1, "block"),
    (PENDING_ROWS, "pending variables", PENDING_ROW, "block"),
    (DEFS, "last definitions", BLOCKS, "variable"),
    (ARG_ROWS, "arguments", PARAM_ROW, "destination"),
];

/// The name of a cell of one of the five tables.
pub fn name(table: usize, cell: usize) -> String {
    let parts: &[Part] = match TABLES[table] {
        "graph" if cell < GRAPH_NEED => &GRAPH,
        "form" if cell < FORM_NEED => &FORM,
        "codes" => return format!("code of call {cell}"),
        "numbers" => return format!("number of call {cell}"),
        _ => return format!("{} cell {cell}", TABLES[table]),
    };
    let &(start, name, long, of) = parts.iter().rev().find(|part| part.0 <= cell).expect("the first table starts at 0");
    let (row, place) = ((cell - start) / long, (cell - start) % long);
    let whose = match of {
        "" => String::new(),
        "destination" => format!(" of branch {}, destination {}", row / DESTS, row % DESTS),
        _ => format!(" of {of} {row}"),
    };
    let which = match (long, name) {
        (1, _) => String::new(),
        (_, "last definitions") => format!(", block {place}"),
        _ if place == 0 => ", count".to_string(),
        _ => format!(", entry {}", place - 1),
    };
    format!("{} cell {cell}: {name}{whose}{which}", TABLES[table])
}
