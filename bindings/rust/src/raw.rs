//! The library's own calls over slices, its limits, and where each table lies in what is lent.
//!
//! This is for hosts that keep their own tables. Every limit and offset of this package stands here and nowhere else.
//! docs/LAYOUT.md says what each cell holds. The names are those of bindings/c/sangvireb.h, and a test holds the two together;
//! the limits are also asked of the library itself ([`TOLD`]), before its first use.
use crate::{library, Block, Branch, Kind, Sort, Type};

/// The version of the library's calls that this package was written for.
pub const VERSION: u32 = 6;

/// Blocks in a session.
pub const BLOCKS: usize = 64;
/// Variables in a session.
pub const VARIABLES: usize = 64;
/// Destinations of a branch.
pub const DESTS: usize = 8;
/// Values that the caller makes, its parameters among them.
pub const MADE: usize = 4096;
/// Parameters of a block that are the caller's own.
pub const OWN_PARAMS: usize = 64;
/// Calls in a list.
pub const CALLS: usize = 16384;

/// Zeros that a session can add: one for each variable and block.
pub const ZERO_ROOM: usize = BLOCKS * VARIABLES;
/// Values of every sort: those made, and for each variable and block a parameter and a zero in two steps.
pub const VALUE_ROOM: usize = MADE + 3 * ZERO_ROOM;
/// Parameters of a block, or arguments of a destination: the caller's, and one for each variable.
pub const PARAM_ROOM: usize = OWN_PARAMS + VARIABLES;

/// Cells of a row of destinations: its count, then its entries, as in every row.
pub const DEST_ROW: usize = 1 + DESTS;
/// Cells of a row of predecessors or of placed blocks.
pub const PRED_ROW: usize = 1 + BLOCKS;
/// Cells of a row of parameters or arguments.
pub const PARAM_ROW: usize = 1 + PARAM_ROOM;
/// Cells of a row of pending variables.
pub const PENDING_ROW: usize = 1 + VARIABLES;
/// Cells of the row of types.
pub const TYPE_ROW: usize = 1 + VARIABLES;
/// Cells of a row of the zero log.
pub const ZERO_ROW: usize = 1 + ZERO_ROOM;

/// In `graph`: how many blocks are declared.
pub const BLOCK_COUNT: usize = 0;
/// In `graph`: the row of the declared variables' types.
pub const TYPES: usize = BLOCK_COUNT + 1;
/// In `graph`: which blocks have a branch.
pub const BRANCHES: usize = TYPES + TYPE_ROW;
/// In `graph`: which blocks are sealed.
pub const SEALED: usize = BRANCHES + BLOCKS;
/// In `graph`: which blocks' branches were ever declared, also those that were removed again.
pub const EVER_DECLARED: usize = SEALED + BLOCKS;
/// In `graph`: which variables are marked for stack maps.
pub const MARKS: usize = EVER_DECLARED + BLOCKS;
/// In `graph`: a row of destinations for each block.
pub const DEST_ROWS: usize = MARKS + VARIABLES;
/// In `graph`: a row of predecessors for each block.
pub const PRED_ROWS: usize = DEST_ROWS + BLOCKS * DEST_ROW;
/// Cells that `graph` needs.
pub const GRAPH_NEED: usize = PRED_ROWS + BLOCKS * PRED_ROW;

/// In `form`: how many values there are.
pub const VALUE_COUNT: usize = 0;
/// In `form`: how many of them the caller made.
pub const MADE_COUNT: usize = VALUE_COUNT + 1;
/// In `form`: each value's alias target.
pub const TARGET: usize = MADE_COUNT + 1;
/// In `form`: what each value is, in one cell; [`described`] takes it apart.
pub const DESCRIBED: usize = TARGET + VALUE_ROOM;
/// In `form`: the row of the blocks placed.
pub const PLACED: usize = DESCRIBED + VALUE_ROOM;
/// In `form`: the zero log's row of calls.
pub const ZERO_CALLS: usize = PLACED + PRED_ROW;
/// In `form`: the zero log's row of blocks.
pub const ZERO_BLOCKS: usize = ZERO_CALLS + ZERO_ROW;
/// In `form`: a row of parameters for each block.
pub const PARAM_ROWS: usize = ZERO_BLOCKS + ZERO_ROW;
/// Cells of the table of parameters.
pub const PARAM_CELLS: usize = BLOCKS * PARAM_ROW;
/// In `form`: how many of each block's parameters are the caller's. They are its first ones.
pub const OWNS: usize = PARAM_ROWS + PARAM_CELLS;
/// In `form`: a row of pending variables for each block.
pub const PENDING_ROWS: usize = OWNS + BLOCKS;
/// In `form`: the last definitions, value plus one, by variable and then by block.
pub const DEFS: usize = PENDING_ROWS + BLOCKS * PENDING_ROW;
/// In `form`: a row of arguments for each destination of each block's branch.
pub const ARG_ROWS: usize = DEFS + VARIABLES * BLOCKS;
/// Cells of the table of arguments.
pub const ARG_CELLS: usize = BLOCKS * DESTS * PARAM_ROW;
/// Cells that `form` needs.
pub const FORM_NEED: usize = ARG_ROWS + ARG_CELLS;

/// Cells that `work` needs: two for each scheduled call, one for each result.
pub const WORK_NEED: usize = 2 * BLOCKS * (1 + DESTS) + BLOCKS * DESTS + 1;

/// The parts of a cell of [`DESCRIBED`]: the numbers of the value's type, sort and block.
pub const fn described(cell: u32) -> (u32, u32, u32) {
    (cell % 32, cell / 32 % 4, cell / 256)
}

/// The session was run.
pub const RUN: u32 = 0;
/// Refused whole: a lent table is shorter than its need.
pub const SHORT: u32 = 1;
/// Refused whole: the call lists differ in length or are too long.
pub const UNFIT: u32 = 2;

/// Drawing: the buffer is shorter than the text.
pub const NO_ROOM: u32 = 15;
/// Drawing: a count in the tables is past its limit, or a number is not below its count.
pub const NOT_DRAWABLE: u32 = 16;

/// What the library tells of itself, by the number to ask [`limit`] for: in words, and what this package was built for.
pub const TOLD: [(&str, u32); 13] = [
    ("version of its calls", VERSION),
    ("limit of blocks", BLOCKS as u32),
    ("limit of variables", VARIABLES as u32),
    ("limit of destinations", DESTS as u32),
    ("limit of made values", MADE as u32),
    ("limit of calls", CALLS as u32),
    ("count of cells in `graph`", GRAPH_NEED as u32),
    ("count of cells in `form`", FORM_NEED as u32),
    ("count of cells in `work`", WORK_NEED as u32),
    ("count of kinds", Kind::ALL.len() as u32),
    ("count of types", Type::ALL.len() as u32),
    ("count of sorts", Sort::ALL.len() as u32),
    ("limit of a block's parameters of the caller's", OWN_PARAMS as u32),
];

#[repr(C)]
struct Answer {
    code: u32,
    number: u32,
}

/// Where a row's entries lie in its table.
#[repr(C)]
struct Span {
    code: u32,
    start: usize,
    length: usize,
}

#[repr(C)]
struct Drawn {
    code: u32,
    length: usize,
}

/// What there is to know of a type, in numbers; [`Type`] has it in words.
#[repr(C)]
#[derive(Clone, Copy, PartialEq, Eq, Debug)]
pub struct TypeFacts {
    /// The number of the type of each lane: its own, unless it is a vector.
    pub lane: u32,
    /// How many lanes it has.
    pub lanes: u32,
    /// In bytes.
    pub width: u32,
    /// Where a zero takes two steps, the number of the first one's type plus one; else 0.
    pub step: u32,
    /// Of the bits of its unset value the low 64.
    pub low: u64,
    /// And the high 64.
    pub high: u64,
}

impl TypeFacts {
    /// The bits of its unset value: what a zero of that type holds.
    pub fn unset_bits(&self) -> u128 {
        u128::from(self.high) << 64 | u128::from(self.low)
    }
}

// As in bindings/c/sangvireb.h: a list is a pointer and a length.
extern "C" {
    fn sangvireb_session(
        kinds: *const u32,
        kinds_len: usize,
        xs: *const u32,
        xs_len: usize,
        ys: *const u32,
        ys_len: usize,
        zs: *const u32,
        zs_len: usize,
        codes: *mut u32,
        codes_len: usize,
        numbers: *mut u32,
        numbers_len: usize,
        graph: *mut u32,
        graph_len: usize,
        form: *mut u32,
        form_len: usize,
        work: *mut u32,
        work_len: usize,
    ) -> u32;
    fn sangvireb_resolve(targets: *const u32, targets_len: usize, value: u32) -> Answer;
    fn sangvireb_params(params: *const u32, params_len: usize, block: u32) -> Span;
    fn sangvireb_args(args: *const u32, args_len: usize, branch: u32, place: u32) -> Span;
    fn sangvireb_recorded(described: *const u32, described_len: usize, value: u32) -> Answer;
    fn sangvireb_next_recorded(described: *const u32, described_len: usize, from: usize) -> usize;
    fn sangvireb_draw(
        graph: *const u32,
        graph_len: usize,
        form: *const u32,
        form_len: usize,
        buffer: *mut u8,
        buffer_len: usize,
    ) -> Drawn;
    fn sangvireb_type(ty: u32) -> TypeFacts;
    fn sangvireb_limit(which: u32) -> u32;
}

/// Runs the calls `kinds[i], xs[i], ys[i], zs[i]` in turn from the empty session, whatever the tables hold.
///
/// Answers [`RUN`], or refuses the whole with [`UNFIT`] or [`SHORT`] and leaves everything as it was.
///
/// # Panics
///
/// If the library that is linked was built for other limits ([`check`](crate::check)).
#[allow(clippy::too_many_arguments)] // the library's own nine lists
pub fn session(
    kinds: &[u32],
    xs: &[u32],
    ys: &[u32],
    zs: &[u32],
    codes: &mut [u32],
    numbers: &mut [u32],
    graph: &mut [u32],
    form: &mut [u32],
    work: &mut [u32],
) -> u32 {
    library::must_fit();
    // SAFETY: the proved contract has no precondition: any lengths, any contents. Each pair is a slice's own pointer and length, so all of it
    // may be read and, for the last five, written; the borrow checker keeps those five apart from one another and from the four lists read.
    // The library keeps no pointer after it returns and has no state of its own, so threads may call it at once.
    unsafe {
        sangvireb_session(
            kinds.as_ptr(),
            kinds.len(),
            xs.as_ptr(),
            xs.len(),
            ys.as_ptr(),
            ys.len(),
            zs.as_ptr(),
            zs.len(),
            codes.as_mut_ptr(),
            codes.len(),
            numbers.as_mut_ptr(),
            numbers.len(),
            graph.as_mut_ptr(),
            graph.len(),
            form.as_mut_ptr(),
            form.len(),
            work.as_mut_ptr(),
            work.len(),
        )
    }
}

/// Follows alias targets from a value to one that is its own target. Answers a code and a number: 0 and that value; 6 and 0 if `value` is
/// past the list; 14 and 0 if no end is reached.
///
/// # Panics
///
/// If the library that is linked was built for other limits ([`check`](crate::check)).
pub fn resolve(targets: &[u32], value: u32) -> (u32, u32) {
    library::must_fit();
    // SAFETY: the proved contract has no precondition, and the pair is the slice's own pointer and length, which is only read.
    let answer = unsafe { sangvireb_resolve(targets.as_ptr(), targets.len(), value) };
    (answer.code, answer.number)
}

/// What [`row`] is asked for.
#[derive(Clone, Copy, PartialEq, Eq, Hash, Debug)]
pub enum Asked {
    /// The parameters of a block.
    Params(Block),
    /// The arguments of a branch's destination, by its place.
    Args(Branch, u32),
}

/// The table to look in, and where the row lies there.
fn locate<'a>(params: &'a [u32], args: &'a [u32], asked: Asked) -> (&'a [u32], Span) {
    library::must_fit();
    // SAFETY: the proved contracts have no precondition, and each pair is a slice's own pointer and length, which is only read.
    match asked {
        Asked::Params(block) => (params, unsafe { sangvireb_params(params.as_ptr(), params.len(), block.0) }),
        Asked::Args(branch, place) => (args, unsafe { sangvireb_args(args.as_ptr(), args.len(), branch.0, place) }),
    }
}

/// The row itself, a part of the table of parameters or of the table of arguments, whatever they hold: nothing is copied. An empty part if there is no such
/// row: a number is not below its limit, the row is not whole in the table, or its count is past its room.
///
/// # Panics
///
/// If the library that is linked was built for other limits ([`check`](crate::check)).
pub fn row<'a>(params: &'a [u32], args: &'a [u32], asked: Asked) -> &'a [u32] {
    let (table, span) = locate(params, args, asked);
    &table[span.start..][..span.length]
}

/// 6 if there is no such row, else 0: so a row that is there and empty can be told apart.
///
/// # Panics
///
/// If the library that is linked was built for other limits ([`check`](crate::check)).
pub fn row_code(params: &[u32], args: &[u32], asked: Asked) -> u32 {
    locate(params, args, asked).1.code
}

/// Is the value recorded for stack maps? Lent are the values' descriptions, the cells from [`DESCRIBED`] on. Answers a code and a number: 0 and 1 if it is, 0
/// and 0 if it isn't, 6 and 0 if no such value is lent.
///
/// # Panics
///
/// If the library that is linked was built for other limits ([`check`](crate::check)).
pub fn recorded(described: &[u32], value: u32) -> (u32, u32) {
    library::must_fit();
    // SAFETY: the proved contract has no precondition, and the pair is the slice's own pointer and length, which is only read.
    let answer = unsafe { sangvireb_recorded(described.as_ptr(), described.len(), value) };
    (answer.code, answer.number)
}

/// The first recorded value from this number on; if there is none, a number past the lent descriptions.
///
/// # Panics
///
/// If the library that is linked was built for other limits ([`check`](crate::check)).
pub fn next_recorded(described: &[u32], from: usize) -> usize {
    library::must_fit();
    // SAFETY: the proved contract has no precondition, and the pair is the slice's own pointer and length, which is only read.
    unsafe { sangvireb_next_recorded(described.as_ptr(), described.len(), from) }
}

/// Writes finished tables, whatever they hold, into the buffer, as text in Graphviz's language DOT. Answers a code and a length: 0 and the
/// text's; else 0 bytes with [`SHORT`] for a table shorter than its need, then [`NOT_DRAWABLE`], then [`NO_ROOM`], and the buffer stays as it
/// was. Bytes past the text keep what they held.
///
/// # Panics
///
/// If the library that is linked was built for other limits ([`check`](crate::check)).
pub fn draw(graph: &[u32], form: &[u32], buffer: &mut [u8]) -> (u32, usize) {
    library::must_fit();
    // SAFETY: the proved contract has no precondition: any lengths, any contents. Each pair is a slice's own pointer and length; the borrow
    // checker keeps the buffer, which alone is written, apart from the tables.
    let drawn = unsafe { sangvireb_draw(graph.as_ptr(), graph.len(), form.as_ptr(), form.len(), buffer.as_mut_ptr(), buffer.len()) };
    (drawn.code, drawn.length)
}

/// What there is to know of a type, by its number. A number that names no type has no lanes, no width and no bits.
///
/// # Panics
///
/// If the library that is linked was built for other limits ([`check`](crate::check)).
pub fn type_facts(ty: u32) -> TypeFacts {
    library::must_fit();
    // SAFETY: a number in, six numbers out; the proved contract has no precondition.
    unsafe { sangvireb_type(ty) }
}

/// What the library tells of itself: `which` counts the rows of [`TOLD`]; past them it answers 0.
pub fn limit(which: u32) -> u32 {
    // SAFETY: a number in, a number out; the proved contract has no precondition.
    unsafe { sangvireb_limit(which) }
}
