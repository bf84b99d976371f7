//! Reading the tables that a session left. A number that names nothing there is [`Absent`](Refusal::Absent), so that a wrong number shows.
use crate::explain::Named;
use crate::raw::{self, Asked};
use crate::{Block, Branch, Refused, Session, Sort, Type, Value, Variable};
use std::iter::{Copied, Map};
use std::slice::Iter;

/// The entries of a row, read where they lie.
pub type Row<'a, T> = Map<Copied<Iter<'a, u32>>, fn(u32) -> T>;

/// What is known of a value.
#[derive(Clone, Copy, PartialEq, Eq, Debug)]
pub struct ValueData {
    /// The value itself.
    pub value: Value,
    /// Where it comes from.
    pub sort: Sort,
    /// Its type.
    pub ty: Type,
    /// Its block.
    pub block: Block,
    /// The value that it is an alias of: itself if it is none.
    pub target: Value,
}

impl ValueData {
    /// The bits that a zero holds wherever its block begins: those of its type's unset value ([`Type::unset_bits`]). Nothing for a value of another
    /// sort, whose contents no session knows.
    pub fn unset_bits(&self) -> Option<u128> {
        (self.sort == Sort::Zero).then(|| self.ty.unset_bits())
    }
}

/// One destination of a branch.
#[derive(Clone, Debug)]
pub struct Destination<'a> {
    /// The block that it names.
    pub target: Block,
    /// What it passes to that block's parameters, in their order; values as they were found, which may be aliases.
    pub args: Row<'a, Value>,
    session: &'a Session,
}

impl<'a> Destination<'a> {
    /// What it passes with aliases resolved: what holds when the branch is taken.
    pub fn resolved(&self) -> impl ExactSizeIterator<Item = Value> + 'a {
        let session = self.session;
        self.args.clone().map(|arg| session.end_of(arg))
    }
}

/// A row of the tables that the library itself does not read out: destinations, predecessors, pending variables, blocks placed, the zero log. It is its count
/// and then its entries. No count exceeds its row's room (`rooms_suffice`).
fn row<T>(cells: &[u32], start: usize, read: fn(u32) -> T) -> Row<'_, T> {
    let count = cells[start] as usize;
    cells[start + 1..][..count].iter().copied().map(read)
}

fn stored_type(number: u32) -> Type {
    Type::from_number(number).expect("proved: a stored type is one of Type::ALL (numbers_named)")
}

impl Session {
    /// The cells of the graph, as docs/LAYOUT.md has them.
    pub fn graph(&self) -> &[u32] {
        &self.graph
    }

    /// The cells of the form, as docs/LAYOUT.md has them.
    pub fn form(&self) -> &[u32] {
        &self.form
    }

    /// That this is there; else why not.
    fn there(&self, named: Named) -> Result<(), Refused> {
        named.missing(self).map_or(Ok(()), |words| Err(Refused::absent(words)))
    }

    fn block(&self, block: Block) -> Result<usize, Refused> {
        self.there(Named::Block(block.0)).map(|()| block.0 as usize)
    }

    fn variable(&self, variable: Variable) -> Result<usize, Refused> {
        self.there(Named::Variable(variable.0)).map(|()| variable.0 as usize)
    }

    /// The declared blocks, in order.
    pub fn blocks(&self) -> impl ExactSizeIterator<Item = Block> {
        (0..self.block_count()).map(Block)
    }

    /// The declared variables, in order.
    pub fn variables(&self) -> impl ExactSizeIterator<Item = Variable> {
        (0..self.variable_count()).map(Variable)
    }

    /// How many blocks are declared.
    pub fn block_count(&self) -> u32 {
        self.graph[raw::BLOCK_COUNT]
    }

    /// How many variables are declared.
    pub fn variable_count(&self) -> u32 {
        self.graph[raw::TYPES]
    }

    /// How many values there are, of every sort.
    pub fn value_count(&self) -> u32 {
        self.form[raw::VALUE_COUNT]
    }

    /// How many of them the caller made, its parameters among them.
    pub fn made_count(&self) -> u32 {
        self.form[raw::MADE_COUNT]
    }

    /// A variable's type.
    pub fn type_of(&self, variable: Variable) -> Result<Type, Refused> {
        let place = self.variable(variable)?;
        Ok(stored_type(self.graph[raw::TYPES + 1 + place]))
    }

    /// Is the variable marked, so that stack maps must have what it receives?
    pub fn is_marked(&self, variable: Variable) -> Result<bool, Refused> {
        Ok(self.graph[raw::MARKS + self.variable(variable)?] != 0)
    }

    /// Is the block sealed?
    pub fn is_sealed(&self, block: Block) -> Result<bool, Refused> {
        Ok(self.graph[raw::SEALED + self.block(block)?] != 0)
    }

    /// The block's branch, if it has one.
    pub fn branch(&self, block: Block) -> Result<Option<Branch>, Refused> {
        let marked = self.graph[raw::BRANCHES + self.block(block)?] != 0;
        Ok(marked.then_some(Branch(block.0)))
    }

    /// The branch's destinations, each with its arguments.
    pub fn destinations(&self, branch: Branch) -> Result<impl ExactSizeIterator<Item = Destination<'_>>, Refused> {
        self.there(Named::Branch(branch.0))?;
        let place = branch.0 as usize;
        let targets = row(&self.graph, raw::DEST_ROWS + place * raw::DEST_ROW, Block);
        let args = move |dest| self.listed(Asked::Args(branch, dest as u32));
        Ok(targets.enumerate().map(move |(dest, target)| Destination { target, args: args(dest), session: self }))
    }

    /// The branches declared to the block, in the order in which they are read.
    pub fn predecessors(&self, block: Block) -> Result<Row<'_, Branch>, Refused> {
        Ok(row(&self.graph, raw::PRED_ROWS + self.block(block)? * raw::PRED_ROW, Branch))
    }

    /// The block's parameters, in order: first the caller's, then the builder's.
    pub fn params(&self, block: Block) -> Result<Row<'_, Value>, Refused> {
        self.block(block)?;
        Ok(self.listed(Asked::Params(block)))
    }

    /// Those of the block's parameters that are the caller's own, in order. They are the first of [`params`](Session::params); the others are the
    /// builder's.
    pub fn caller_params(&self, block: Block) -> Result<Row<'_, Value>, Refused> {
        let count = self.form[raw::OWNS + self.block(block)?] as usize;
        // The caller's parameters stand first (`callers_first`), so the row has them.
        Ok(self.cells(Asked::Params(block))[..count].iter().copied().map(Value))
    }

    fn listed(&self, asked: Asked) -> Row<'_, Value> {
        self.cells(asked).iter().copied().map(Value)
    }

    /// A row that the library reads out, a part of the form.
    fn cells(&self, asked: Asked) -> &[u32] {
        let table = |start, cells| &self.form[start..][..cells];
        raw::row(table(raw::PARAM_ROWS, raw::PARAM_CELLS), table(raw::ARG_ROWS, raw::ARG_CELLS), asked)
    }

    /// The variables that wait for the block to be sealed. Their parameters are the last of the block's, in the same order.
    pub fn pending(&self, block: Block) -> Result<Row<'_, Variable>, Refused> {
        Ok(row(&self.form, raw::PENDING_ROWS + self.block(block)? * raw::PENDING_ROW, Variable))
    }

    /// The value recorded last for the variable in the block, if there is one. It may be an alias.
    pub fn def(&self, variable: Variable, block: Block) -> Result<Option<Value>, Refused> {
        let cell = self.form[raw::DEFS + self.variable(variable)? * raw::BLOCKS + self.block(block)?];
        Ok(cell.checked_sub(1).map(Value))
    }

    /// What is known of a value.
    pub fn value(&self, value: Value) -> Result<ValueData, Refused> {
        self.there(Named::Value(value.0)).map(|()| self.data(value.0 as usize))
    }

    /// All values, by number.
    pub fn values(&self) -> impl ExactSizeIterator<Item = ValueData> + '_ {
        (0..self.value_count() as usize).map(|place| self.data(place))
    }

    fn data(&self, place: usize) -> ValueData {
        let (ty, sort, block) = raw::described(self.form[raw::DESCRIBED + place]);
        ValueData {
            value: Value(place as u32),
            sort: Sort::from_number(sort).expect("proved: the tables show a sort as 0 to 3"),
            ty: stored_type(ty),
            block: Block(block),
            target: Value(self.form[raw::TARGET + place]),
        }
    }

    /// Is the value recorded, so that stack maps must have it? It is exactly if a definition gave it to a marked variable or if it is a parameter that the
    /// builder made for one.
    pub fn is_recorded(&self, value: Value) -> Result<bool, Refused> {
        self.there(Named::Value(value.0)).map(|()| raw::recorded(self.descriptions(), value.0).1 != 0)
    }

    /// The recorded values, by number. Aliases are among them: a value that became one is there under its own number, and what it stands for is there only
    /// if that was recorded too.
    pub fn stack_map_values(&self) -> impl Iterator<Item = Value> + '_ {
        let described = self.descriptions();
        let from = move |place| Some(raw::next_recorded(described, place)).filter(|&found| found < described.len());
        std::iter::successors(from(0), move |&found| from(found + 1)).map(|found| Value(found as u32))
    }

    /// What each value is, a cell each.
    fn descriptions(&self) -> &[u32] {
        &self.form[raw::DESCRIBED..][..self.value_count() as usize]
    }

    /// The value that this one stands for: itself if it is no alias.
    pub fn resolve(&self, value: Value) -> Result<Value, Refused> {
        self.there(Named::Value(value.0)).map(|()| self.end_of(value))
    }

    /// The end of a stored value's chain of aliases.
    pub(crate) fn end_of(&self, value: Value) -> Value {
        let targets = &self.form[raw::TARGET..][..self.value_count() as usize];
        let (code, end) = raw::resolve(targets, value.0);
        assert_eq!(code, 0, "proved: every chain of a session ends (chains_resolve), and {value} is stored in it");
        Value(end)
    }

    /// The zeros that stand at the start of the block, by number: each holds its type's unset value wherever the block begins
    /// ([`unset_bits`](ValueData::unset_bits)). Where a zero takes two steps ([`Type::step`]), both are here, the step before the whole.
    pub fn zeros(&self, block: Block) -> Result<impl Iterator<Item = ValueData> + '_, Refused> {
        self.block(block)?;
        Ok(self.values().filter(move |data| data.sort == Sort::Zero && data.block == block))
    }

    /// For each zero, in order: the place of the call that added it, and its block.
    pub fn zero_log(&self) -> impl ExactSizeIterator<Item = (usize, Block)> + '_ {
        let places: Row<'_, usize> = row(&self.form, raw::ZERO_CALLS, |place| place as usize);
        places.zip(row(&self.form, raw::ZERO_BLOCKS, Block as fn(u32) -> Block))
    }

    /// The blocks in the order in which they were placed.
    pub fn placed(&self) -> Row<'_, Block> {
        row(&self.form, raw::PLACED, Block)
    }
}
